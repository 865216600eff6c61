#!/bin/sh
# C programs over libvoronoi.a, run from anywhere in the repository.
#
#   tests/archive.sh make                     the archive, where it is missing or older than the crates
#   tests/archive.sh here                     the same for this machine's own processor, and its name: tests/native.sh makes it where that is no x86-64
#   tests/archive.sh build PROGRAM FILE.c..   the archive, made where it is missing or older than the crates, and a program linked with it
#   tests/archive.sh keep PROGRAM FILE.c..    the same, but a program that is newer than the archive, the header and its files is kept
#   tests/archive.sh run PROGRAM WORD..       runs it
#
# The archive is for x86-64. On such a machine gcc builds the program; on another the toolchain's own clang and C library do, and qemu-x86_64 runs it, unless
# ARCHIVE names one for that machine (tests/native.sh): then gcc builds there too, and the program runs by itself.
# The toolchain has no headers of its C library, so the C files use none but stddef.h and stdint.h, and declare what they call.
# A program that runs under the emulator is compiled with -DEMULATED. Another archive is taken where ARCHIVE names it; MORE_FLAGS has more words for the compiler.
set -eu
root=$(cd "$(dirname "$0")/.." && pwd)
tools=$(dirname "$(dirname "$(readlink -f "$(command -v rt)")")")/toolchain
archive=${ARCHIVE:-$root/target/staticlib/libvoronoi.a}
flags="-std=c11 -O2 -ffreestanding -fno-math-errno -Wall -Wextra -Werror ${MORE_FLAGS-}"

make_archive() {
    if [ -n "${ARCHIVE-}" ]; then return; fi
    # one that ./yelmuzard took from dist/ is none that was proved here
    if [ ! -f "$archive" ] || { [ -n "${YELMUZARD_PROVE-}" ] && [ -e "$archive.dist" ]; } || [ -n "$(find "$root/crates" "$root/crates.txt" -path '*/out' -prune -o -type f -newer "$archive" -print | head -n 1)" ]; then
        sh "$root/tests/prove.sh" staticlib voronoi
        rm -f "$archive.dist"
        touch "$archive"
    fi
}

# Whether an archive or a program is for x86-64: ELF's number at byte 18 of it, or of the archive's first object.
for_x86() {
    case $1 in *.a) ar p "$1" ;; *) cat "$1" ;; esac 2>/dev/null | head -c 20 | od -An -tx1 -j18 | grep -q '^ 3e 00'
}

native() {
    # shellcheck disable=SC2086
    gcc $flags -I "$root/include" -o "$program" "$@" "$archive"
}

compile() { # FILE OBJECT
    # shellcheck disable=SC2086
    "$tools/bin/clang" --target=x86_64-linux-gnu $flags -fPIE -DEMULATED -nostdinc -isystem "$(gcc -print-file-name=include)" -I "$root/include" -c "$1" -o "$2"
}

foreign() { # the words become the objects one by one, so that blanks in their names stay
    lib=$tools/lib
    for file in "$@"; do
        object=$program.$(basename "$file" .c).o
        compile "$file" "$object"
        shift
        set -- "$@" "$object"
    done
    "$tools/bin/ld.lld" -pie -dynamic-linker "$lib/ld-linux-x86-64.so.2" -o "$program" "$lib/Scrt1.o" "$lib/crti.o" "$lib/crtbeginS.o" \
        "$@" "$archive" "$lib/libc.so.6" "$lib/libc_nonshared.a" "$lib/libgcc.a" "$lib/crtendS.o" "$lib/crtn.o"
    rm -f "$@"
}

usage() { sed -n '2,/^[^#]/s/^# \{0,1\}//p' "$0"; }

case ${1-} in
make)
    [ $# = 1 ] || { usage >&2 && exit 2; }
    make_archive
    ;;
here)
    [ $# = 1 ] || { usage >&2 && exit 2; }
    if [ "$(uname -m)" != x86_64 ]; then exec sh "$root/tests/native.sh"; fi
    make_archive
    echo "$archive"
    ;;
build | keep)
    [ $# -ge 3 ] || { usage >&2 && exit 2; }
    word=$1 program=$2
    shift 2
    make_archive
    if [ "$word" = keep ] && [ -f "$program" ] && [ -z "$(find "$archive" "$root/include/voronoi.h" "$@" -newer "$program")" ]; then exit 0; fi
    mkdir -p "$(dirname "$program")"
    # under another name first, so that two tests may build one program, or one run it, at the same time
    built=$program program=$program.$$
    if [ "$(uname -m)" = x86_64 ] || ! for_x86 "$archive"; then native "$@"; else foreign "$@"; fi
    mv -f "$program" "$built"
    ;;
run)
    [ $# -ge 2 ] || { usage >&2 && exit 2; }
    shift
    if [ "$(uname -m)" = x86_64 ] || ! for_x86 "$1"; then exec "$@"; fi
    exec qemu-x86_64 "$tools/lib/ld-linux-x86-64.so.2" --library-path "$tools/lib" "$@"
    ;;
--help | -h) usage ;;
*)
    usage >&2
    exit 2
    ;;
esac
