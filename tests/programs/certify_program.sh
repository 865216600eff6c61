#!/bin/sh
# The program `certify`: a mesh for each line that a form can have, exchanged rows, gauges at one place, boxes by edges, broken forms; the same numbers as
# tests/calls/certify.c on the stored meshes, by the C interface; and the word of ./yelmuzard with its status. Of pieces by cutting `outside`, `side` and `border`
# cannot come (`cut_kinds`), so these lines are held by the rows of the crate alone.
. "$(dirname "$0")/../head.sh"
program=certify
. tests/programs/asked.sh

# the first two sites exchanged
swapped() { awk '$1 == "site" && !n++ { first = $0; next } { print } $1 == "site" && n == 2 { print first; n++ }' "$1"; }

must certified <examples/square.txt
must certified <examples/thirty.txt
sed 's/^box .*/edges -1 -1 1 1/' examples/square.txt | must certified
must certified <harness/meshes/lost_corners.txt
must "nearer 0 12 2" <examples/ear.txt
sed 's/^site 36 55$/site 86 55/' examples/ear.txt | must certified
sed 's/^site 0.5 -0.5/&\nsite -0.5 -0.5/' examples/square.txt | must "twin 4 0"

printf 'box 0 0 2 2\nsite 0 0\nsite 1 1\n' | must "refused 1"
sed 's/^box .*/box 0 0 -2 2/' examples/square.txt | must "refused 3"
sed 's/^triangle 0 1 2/triangle 0 1 0/' examples/square.txt | must "refused 7"
head -c 100 examples/square.form >"$folder/cut"
answered "refused 17" "$folder/cut"
answered "refused 17" /dev/null
cat examples/square.form examples/square.form >"$folder/twice"
answered "refused 17" "$folder/twice"

call=target/tests/certify
sh tests/archive.sh keep "$call" tests/calls/certify.c

# what tests/calls/certify.c says of a mesh text, in the words of `certify`
said() {
    sh tests/archive.sh run "$call" mesh <"$1" | sed -n '
        s/^cut: \([0-9]*\)$/refused \1/p
        s/^certificate, cut: 0, kind 0, .*/certified/p
        s/^certificate, cut: 0, kind 4, site \([0-9]*\), vertex \([0-9]*\), other \([0-9]*\);.*/nearer \1 \2 \3/p
        s/^certificate, cut: 0, kind 5, site \([0-9]*\), vertex -1, other \([0-9]*\);.*/twin \1 \2/p
        s/^certificate, cut: \([1-9][0-9]*\), .*/refused \1/p'
}
compared=0
for mesh in examples/*.txt harness/meshes/*.txt tests/programs/cells/*.txt; do
    swapped "$mesh" >"$folder/swapped.txt"
    for text in "$mesh" "$folder/swapped.txt"; do
        tools/mesh encode "$text" >"$folder/form" 2>/dev/null || continue
        # in decimal numbers, which is what is read there, and in a box by its center
        tools/mesh decode "$folder/form" >"$folder/plain.txt" 2>/dev/null || continue
        ! grep -q '^edges' "$folder/plain.txt" || continue
        said "$folder/plain.txt" >"$folder/theirs"
        [ -s "$folder/theirs" ] || continue # refused by the build, which is asked first there
        sh tests/archive.sh run target/bin/certify <"$folder/form" >"$folder/ours"
        cmp "$folder/ours" "$folder/theirs" || { echo "certify: $text of $mesh: $(cat "$folder/ours"), by the call: $(cat "$folder/theirs")" && exit 1; }
        compared=$((compared + 1))
    done
done
[ "$compared" -ge 45 ] || { echo "certify: only $compared meshes compared with the call" && exit 1; }

[ "$(./yelmuzard certify examples/thirty.txt)" = certified ]
status=0
./yelmuzard certify examples/ear.txt >"$folder/out" 2>"$folder/err" || status=$?
[ "$status $(cat "$folder/out")" = "1 nearer 0 12 2" ] || { echo "yelmuzard certify: status $status" && exit 1; }
status=0
./yelmuzard certify "$folder/cut" >"$folder/out" 2>"$folder/err" || status=$?
[ "$status $(cat "$folder/out")" = "1 refused 17" ] || { echo "yelmuzard certify on a cut form: status $status" && exit 1; }
grep -q "rule 17" "$folder/err"
status=0
./yelmuzard certify examples/square.txt 3 >/dev/null 2>&1 || status=$?
[ "$status" = 2 ] || { echo "yelmuzard certify with a word more: status $status" && exit 1; }
echo "certify: $(wc -l <"$folder/answers") lines as they must be; on $compared meshes the numbers of the call"
