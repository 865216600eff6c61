#!/bin/sh
# The example of a call from C in docs/use/C.md, examples/areas.c: built, and run on "square" and on the thirty gauges; its areas are held to those of
# the pieces by exact fractions (tests/calls/areas.py), and their total to the box. Then the totals and lost corners that docs/use/RULES.md tells, a box by its edges,
# and more sites than the program has room for.
. "$(dirname "$0")/../head.sh"
program=target/tests/areas
sh tests/archive.sh build "$program" examples/areas.c
said=$(mktemp)
trap 'rm -f "$said"' EXIT
for name in square thirty; do
    sh tests/archive.sh run "$program" <"examples/$name.txt" >"$said"
    python3 tests/calls/areas.py "examples/$name.txt" "$said"
done
while read -r total box lost mesh; do
    sh tests/archive.sh run "$program" <"$mesh" | tail -n 1 >"$said"
    want="total $total, the box $box, corners lost $lost"
    if [ "$(cat "$said")" != "$want" ]; then
        echo "$mesh: '$(cat "$said")', must be '$want'"
        exit 1
    fi
done <<'END'
4.000000 4.000000 0 tests/programs/cells/corner_met.txt
2.166667 4.000000 0 tests/programs/cells/none_lost_short.txt
3.999999 4.000000 1 tests/programs/cells/one_lost_whole.txt
2.750000 4.000000 1 harness/meshes/lost_corners.txt
0.000000 0.015625 4 harness/meshes/covered_box.txt
END
# by its edges: the same, to the byte
sh tests/archive.sh run "$program" <examples/thirty.txt >"$said"
sed 's/^box 50 40 100 80$/edges 0 0 100 80/' examples/thirty.txt | grep -c '^edges ' | grep -qx 1
sed 's/^box 50 40 100 80$/edges 0 0 100 80/' examples/thirty.txt | sh tests/archive.sh run "$program" | cmp - "$said"
# one site, triangle or hull site more than there is room for: said, status 2
while read -r count line what; do
    status=0
    awk -v n="$count" -v line="$line" 'BEGIN { gsub("_", " ", line); print "box 0 0 2 2"; for (i = 0; i < n; i++) print line }' |
        sh tests/archive.sh run "$program" >"$said" || status=$?
    if [ "$status" != 2 ] || ! grep -q "^there are more $what" "$said"; then
        echo "$count times $line: status $status, $(head -n 1 "$said")"
        exit 1
    fi
done <<'END'
1001 site_0_0 sites
2001 triangle_0_1_2_E_E_E triangles
1001 hull_0 hull sites
END
# a refused mesh: the number, its words, status 1
status=0
sh tests/archive.sh run "$program" <harness/meshes/refused_13_lone.txt >"$said" || status=$?
if [ "$status" != 1 ] || ! grep -q '^refused 13: ' "$said"; then
    echo "a refused mesh: status $status, $(cat "$said")"
    exit 1
fi
echo "areas: right on both examples, five totals with their lost corners, by edges the same, a full room told, and refused where it must be"
