#!/bin/sh
# Cells as Well-Known Binary: the calls through the C interface (tests/calls/wkb.c); then every cell of every mesh of examples/, harness/meshes/ and tests/programs/cells/,
# written through C and by the program `export`, read by a second reader from the OGC text (tests/calls/wkb.py) and held to the build's vertices bit for bit.
# Where shapely and ogrinfo are installed they read the same images too.
. "$(dirname "$0")/../head.sh"
program=target/tests/wkb
sh tests/archive.sh build "$program" tests/calls/wkb.c
sh tests/archive.sh run "$program"
sh tests/prove.sh check export
folder=$(mktemp -d)
trap 'rm -rf "$folder"' EXIT
meshes=0
for text in examples/*.txt harness/meshes/*.txt tests/programs/cells/*.txt; do
    tools/mesh encode "$text" >"$folder/form" 2>/dev/null
    sh tests/archive.sh run "$program" dump <"$folder/form" >"$folder/dump"
    sh tests/archive.sh run target/bin/export <"$folder/form" >"$folder/lines.csv"
    python3 tests/calls/wkb.py "$folder/dump" "$folder/lines.csv" >>"$folder/said" || {
        echo "wkb: $text differs"
        exit 1
    }
    meshes=$((meshes + 1))
done
echo "wkb: $meshes meshes, $(awk '{ n += $2 } END { print n }' "$folder/said") cells read back bit for bit"
if grep -q shapely "$folder/said"; then echo "wkb: shapely reads the same points"; else echo "wkb: SHAPELY IS NOT INSTALLED: the images were not read through it"; fi
if command -v ogrinfo >/dev/null; then
    tools/mesh encode examples/thirty.txt 2>/dev/null | sh tests/archive.sh run target/bin/export >"$folder/thirty.csv"
    ogrinfo -ro -al -so "$folder/thirty.csv" -oo GEOM_POSSIBLE_NAMES=geometry -oo KEEP_GEOM_COLUMNS=NO >"$folder/ogr"
    grep -q 'Feature Count: 30' "$folder/ogr"
    grep -qi 'Extent' "$folder/ogr"
    echo "wkb: ogrinfo reads the thirty cells"
else
    echo "wkb: OGRINFO IS NOT INSTALLED: no map program was asked"
fi
