#!/bin/sh
# The four programs on forms of kind 7, a box by its edges: "square" with the edges -1 -1 1 1 is listed, exported, explained and mended as it is with its
# center and size, `mend form` gives the form back byte for byte, and the box of the neighbours in docs/use/SHELL.md has the corners that were given.
. "$(dirname "$0")/../head.sh"
for program in cells export why mend; do
    sh tests/prove.sh check "$program"
done
folder=$(mktemp -d)
trap 'rm -rf "$folder"' EXIT

ask() { # PROGRAM [WORD ..]
    asked=$1
    shift
    sh tests/archive.sh run "target/bin/$asked" "$@"
}

sed 's/^box .*/edges -1 -1 1 1/' examples/square.txt | tools/mesh encode >"$folder/form"
[ "$(head -c 1 "$folder/form" | od -An -tu1 | tr -d ' ')" = 7 ]
tools/mesh decode "$folder/form" | tools/mesh encode | cmp - "$folder/form"
ask cells <"$folder/form" | cmp - tests/programs/cells/square.out
ask export <examples/square.form >"$folder/square.csv"
ask export <"$folder/form" | cmp - "$folder/square.csv"
[ "$(ask why <"$folder/form")" = "no fault" ]
[ "$(ask why 4 <"$folder/form")" = "refused 4" ]
ask mend <examples/square.form >"$folder/mended"
ask mend <"$folder/form" | cmp - "$folder/mended"
ask mend form <"$folder/form" >"$folder/again"
cmp "$folder/again" "$folder/form"
sed 's/^box .*/edges -1 -1 1 1/; s/^triangle 0 1 2 .*/triangle 0 1 2  E E E/; s/^hull 3/hull 0/' examples/square.txt | tools/mesh encode 2>/dev/null |
    ask mend form | cmp - "$folder/form"
echo "edges: \"square\" by its edges is listed, exported, explained and mended as by its center and size"

refused() { # EDGES
    sed "s/^box .*/edges $1/" examples/square.txt | tools/mesh encode >"$folder/refused"
    for program in cells export why; do
        said=$(ask "$program" <"$folder/refused")
        if [ "$said" != "refused 3" ]; then
            echo "edges $1: $program says $said, not refused 3"
            exit 1
        fi
    done
}
refused "1 -1 1 1"
refused "1 -1 -1 1"
refused "-1 -1 0x4640000000000001 1"
refused "-1 -1 inf 1"
refused "nan -1 1 1"
refused "-0 -1 +0 1"

# the corners of the box .3 .1 .6 .3 stand in the polygons as they were given, little-endian
tools/mesh encode >"$folder/neighbour" <<'TEXT'
edges .3 .1 .6 .3
site .35 .15
site .35 .25
site .55 .25
site .55 .15
triangle 0 1 2  E E 3
triangle 0 2 3  2 E E
hull 0 1 2 3
TEXT
ask cells <"$folder/neighbour" | cmp - tests/programs/cells/square.out
ask export <"$folder/neighbour" | tr '[:upper:]' '[:lower:]' >"$folder/neighbour.csv"
for corner in 333333333333d33f9a9999999999b93f 333333333333d33f333333333333d33f 333333333333e33f333333333333d33f 333333333333e33f9a9999999999b93f; do
    grep -q "$corner" "$folder/neighbour.csv" || {
        echo "edges: no polygon has the corner $corner"
        exit 1
    }
done
echo "edges: the box .3 .1 .6 .3 has the corners that were given"
