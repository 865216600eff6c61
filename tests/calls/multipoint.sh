#!/bin/sh
# MultiPoints through the C interface (tests/calls/multipoint.c): tests/calls/multipoint.sh [COUNT], COUNT random files.
# Then a file that GDAL wrote (tests/calls/multipoint): read, and written again as the same bytes; and what GDAL read of the bytes that we write. made.txt there says
# how both were made. Where ogrinfo is installed it reads our bytes again.
. "$(dirname "$0")/../head.sh"
program=target/tests/multipoint
stored=tests/calls/multipoint
sh tests/archive.sh build "$program" tests/calls/multipoint.c
sh tests/archive.sh run "$program" "${1:-100000}"
folder=$(mktemp -d)
trap 'rm -rf "$folder"' EXIT
sh tests/archive.sh run "$program" show <"$stored/three.wkb" >"$folder/shown"
python3 tests/calls/multipoint.py "$stored/three.csv" "$stored/three.wkb" "$stored/ours.txt" "$folder/shown" "$folder/ours.csv"
if command -v ogrinfo >/dev/null; then
    ogrinfo -ro -al "$folder/ours.csv" -oo GEOM_POSSIBLE_NAMES=geometry -oo KEEP_GEOM_COLUMNS=NO | grep MULTIPOINT >"$folder/ours.txt"
    cmp "$folder/ours.txt" "$stored/ours.txt"
    echo "multipoint: ogrinfo reads our bytes as it did"
else
    echo "multipoint: OGRINFO IS NOT INSTALLED: GDAL was not asked again"
fi
