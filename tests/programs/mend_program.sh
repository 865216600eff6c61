#!/bin/sh
# The program `mend`: the request's rows, forms with their first record copied, words that mean nothing, and damaged meshes beside a second program;
# the rows of harness/mend/ with their answers; a mesh that is mended and piped into `cells` has the listing of the mesh that was not damaged.
. "$(dirname "$0")/../head.sh"
sh tests/prove.sh check mend
sh tests/prove.sh check cells
folder=$(mktemp -d)
trap 'rm -rf "$folder"' EXIT
rows=0
for text in harness/mend/*.txt; do
    [ -f "$text" ] || continue
    sed -n 's/^answer mend: //p' "$text" >"$folder/must"
    sed '/^mend/d; /^answer/d' "$text" | tools/mesh encode 2>/dev/null | sh tests/archive.sh run target/bin/mend | cmp - "$folder/must"
    rows=$((rows + 1))
done
echo "mend: $rows rows of harness/mend as they are answered there"
python3 tests/programs/mend_program.py sh tests/archive.sh run target/bin/mend
sed 's/^triangle 0 1 2 .*/triangle 0 1 2  E E E/; s/^hull 3/hull 0/' examples/square.txt | tools/mesh encode 2>/dev/null |
    sh tests/archive.sh run target/bin/mend form | sh tests/archive.sh run target/bin/cells | cmp - tests/programs/cells/square.out
echo "mend: what it mends goes into cells"
