#!/bin/sh
# The program `audit`: a mesh for each of its lines, turned, exchanged and flipped meshes, a lost corner, gauges at one place, boxes by edges, broken
# forms; the same verdict as tests/calls/table.c on the stored meshes; and the word of ./yelmuzard with its status.
. "$(dirname "$0")/../head.sh"
program=audit
. tests/programs/asked.sh

# a mesh wound the other way: each triangle A B C becomes A C B with its half-edges, and the hull runs from behind
turned() {
    awk '
        function half(h) { return h == "E" ? h : h - h % 3 + 2 - h % 3 }
        $1 == "triangle" { print "triangle", $2, $4, $3, half($7), half($6), half($5); next }
        $1 == "hull" { for (i = 2; i <= NF; i++) hull = " " $i hull; next }
        { print }
        END { print "hull" hull }' "$1"
}

# the first two sites exchanged
swapped() { awk '$1 == "site" && !n++ { first = $0; next } { print } $1 == "site" && n == 2 { print first; n++ }' "$1"; }

round="its piece does not run once round, the right way"
must sound <examples/square.txt
must sound <examples/thirty.txt
sed 's/^box .*/edges -1 -1 1 1/' examples/square.txt | must sound
turned examples/thirty.txt | must "turned 50 of 50 triangles, lowest 0
site 0: $round"
turned examples/square.txt | sed 's/^box .*/edges -1 -1 1 1/' | must "turned 2 of 2 triangles, lowest 0
site 0: $round"
must "missing 0.312500000" <harness/meshes/lost_corners.txt
sed 's/^site 0.5 -0.5/&\nsite -0.5 -0.5/' examples/square.txt | must "sites 0 and 4 stand at one place"
sed 's/^site 0.5 -0.5/&\nsite 0.25 0.25/' examples/square.txt | must "site 0: vertex 1 is nearer to site 4"
swapped examples/thirty.txt | must "turned 5 of 50 triangles, lowest 0
site 0: $round"
must "site 4: $round" <examples/accident.txt

printf 'box 0 0 2 2\nsite 0 0\nsite 1 1\n' | must "refused 1"
sed 's/^box .*/box 0 0 -2 2/' examples/square.txt | must "refused 3"
sed 's/^triangle 0 1 2/triangle 0 1 0/' examples/square.txt | must "refused 7"
must "refused 13" <harness/meshes/refused_13_lone.txt
head -c 100 examples/square.form >"$folder/cut"
answered "refused 17" "$folder/cut"
answered "refused 17" /dev/null
cat examples/square.form examples/square.form >"$folder/twice"
answered "refused 17" "$folder/twice"

pieces=target/tests/table
sh tests/archive.sh keep "$pieces" tests/calls/table.c

# what tests/calls/table.c says of a form, in the words of `audit`; a corner goes by its coordinates there, so its number is left out of both
said() {
    sh tests/archive.sh run "$pieces" --all <"$1" 2>&1 >/dev/null | sed -n '
        s/^pieces: refused \([0-9]*\): .*/refused \1/p
        s/^pieces: \([0-9]* of [0-9]* triangles\) turn .* triangle \([0-9]*\) .*/turned \1, lowest \2/p
        s/^pieces: sound .*/sound/p
        s/^pieces: FAULT: the piece of gauge \([0-9]*\) does .*/site \1: '"$round"'/p
        s/^pieces: FAULT: the corner .* of the piece of gauge \([0-9]*\) is nearer to gauge \([0-9]*\)$/site \1: vertex is nearer to site \2/p
        s/^pieces: FAULT: the corner .* of the piece of gauge \([0-9]*\) is outside the box$/site \1: vertex is outside the box/p
        s/^pieces: FAULT: the pieces do not add up .*/missing/p
        s/^pieces: FAULT: gauges \([0-9]* and [0-9]*\) stand .*/sites \1 stand at one place/p'
}
compared=0
for mesh in examples/*.txt harness/meshes/*.txt tests/programs/cells/*.txt; do
    turned "$mesh" >"$folder/turned.txt"
    swapped "$mesh" >"$folder/swapped.txt"
    for text in "$mesh" "$folder/turned.txt" "$folder/swapped.txt"; do
        tools/mesh encode "$text" >"$folder/form" 2>/dev/null || continue
        sh tests/archive.sh run target/bin/audit <"$folder/form" | sed 's/vertex [0-9]*/vertex/; s/^missing .*/missing/; /^refused 20$/d' >"$folder/ours"
        [ -s "$folder/ours" ] || continue # a form of old
        said "$folder/form" >"$folder/theirs"
        cmp "$folder/ours" "$folder/theirs" || { echo "audit: $text of $mesh: $(cat "$folder/ours"), pieces: $(cat "$folder/theirs")" && exit 1; }
        compared=$((compared + 1))
    done
done
[ "$compared" -gt 60 ] || { echo "audit: only $compared meshes compared with pieces" && exit 1; }

[ "$(./yelmuzard audit examples/thirty.txt)" = sound ]
status=0
./yelmuzard audit harness/meshes/lost_corners.txt >"$folder/out" 2>"$folder/err" || status=$?
[ "$status $(cat "$folder/out")" = "1 missing 0.312500000" ] || { echo "yelmuzard audit: status $status" && exit 1; }
status=0
./yelmuzard audit "$folder/cut" >"$folder/out" 2>"$folder/err" || status=$?
[ "$status $(cat "$folder/out")" = "1 refused 17" ] || { echo "yelmuzard audit on a cut form: status $status" && exit 1; }
grep -q "rule 17" "$folder/err"
status=0
./yelmuzard audit examples/square.txt 3 >/dev/null 2>&1 || status=$?
[ "$status" = 2 ] || { echo "yelmuzard audit with a word more: status $status" && exit 1; }
echo "audit: $(wc -l <"$folder/answers") lines as they must be; on $compared meshes the verdict of pieces"
