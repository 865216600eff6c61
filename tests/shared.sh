#!/bin/sh
# Makes target/shared/MACHINE/libvoronoi.so, the library as Python and others load it, where it is missing or older than what it is made of, and prints its
# name: what ./yelmuzard shared does. It is the proved archive linked shared, whole, with mesh/triangulate.c (not proved, and checked by what is) beside it.
. "$(dirname "$0")/head.sh"
root=$(pwd)
machine=$(uname -m)
made=$root/target/shared/$machine
if [ "$machine" = x86_64 ]; then
    sh "$root/tests/archive.sh" make
    archive=$root/target/staticlib/libvoronoi.a
else
    archive=$(sh "$root/tests/native.sh")
fi
set -- "$archive"
[ ! -f mesh/triangulate.c ] || set -- "$@" mesh/triangulate.c mesh/triangulate.h
if [ ! -f "$made/libvoronoi.so" ] || [ -e "$made/libvoronoi.so.dist" ] || [ -n "$(find "$@" tests/shared.sh make/shared -newer "$made/libvoronoi.so")" ]; then
    # under another name first, so that two tests may make it at the same time
    sh make/shared "$archive" "$made/libvoronoi.so.$$"
    mv -f "$made/libvoronoi.so.$$" "$made/libvoronoi.so"
    rm -f "$made/libvoronoi.so.dist"
fi
echo "$made/libvoronoi.so"
