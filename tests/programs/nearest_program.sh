#!/bin/sh
# The program `nearest`: a mesh for each of its lines, broken forms, sites that are on the grid and those that are not; boxes at the limits of what is admitted, and
# random ones beside fractions and the owners that `cells` names (tests/programs/nearest/boxes.py); the accident before and after its half-edge is flipped; and the word of
# ./yelmuzard with its status.
. "$(dirname "$0")/../head.sh"
sh tests/prove.sh check cells
program=nearest
. tests/programs/asked.sh

square='triangle 0 1 2  E E 3
triangle 0 2 3  2 E E
hull 0 1 2 3'
mesh() { # four sites of "square", by their coordinates
    printf 'box 0 0 9 9\nsite %s %s\nsite %s %s\nsite %s %s\nsite %s %s\n%s\n' "$@" "$square"
}

mesh -1 -1 -1 1 1 1 1 -1 | must nearest
mesh -8192 -8192 -8192 8192 8192 8192 8192 -8192 | must nearest
mesh -0.0 -0.0 -0.0 1 1 1 1 -0.0 | must nearest
mesh 1 -1 1 1 -1 1 -1 -1 | must "triangle 0"
mesh -1 -1 -1 1 2 2 1 -1 | must "half-edge 2"
for far in .5 8193 -8193 8192.5 1e300 1e-300 9223372036854775808 -9223372036854775809; do
    mesh -1 -1 -1 1 1 "$far" 1 -1 | must "not on the grid: site 2"
    mesh -1 "$far" -1 1 1 "$far" 1 -1 | must "not on the grid: site 0"
done
mesh -1 -1 -1 1 1 .5 1 -1 | sed 's/^triangle 0 1 2/triangle 0 1 0/' | must "not on the grid: site 2"
mesh -1 -1 -1 1 1 1 1 -1 | sed 's/^triangle 0 1 2/triangle 0 1 0/' | must "refused 7"
mesh -1 -1 -1 1 1 1 1 -1 | sed 's/ E E 3$/ E E E/' | must "refused 8"
mesh -1 -1 -1 1 1 1 1 -1 | sed 's/^hull.*/hull 0 1 2/' | must "refused 9"
mesh -1 -1 -1 1 1 1 1 -1 | sed 's/^triangle 0 1 2/site 0 0\n&/' | must "unused 4"
printf 'edges -5 -5 9 9\nsite 0 3\nsite 1 6\nsite 1 5\nsite 5 0\ntriangle 0 1 2  E 3 E\ntriangle 2 1 3  1 E E\nhull 0 1 3 2\n' | must "hull place 2"
printf 'box 0 0 2 2\nsite 0 0\nsite 1 1\n' | must "refused 1"

# the box: rule 3 behind rule 1 and before all others
boxed() { mesh -1 -1 -1 1 1 1 1 -1 | sed "s/^box .*/$1/"; } # a box about "square"
for wrong in 'box 0 0 0 9' 'box 0 0 9 -1' 'edges 5 5 -5 -5' 'edges 1e300 0 5 5'; do
    boxed "$wrong" | must "refused 3"
    boxed "$wrong" | sed 's/^triangle 0 1 2/triangle 0 1 0/' | must "refused 3"
    boxed "$wrong" | sed 's/^site -1 1$/site -1 .5/' | must "refused 3"
done
printf 'box 0 0 0 2\nsite 0 0\nsite 1 1\n' | must "refused 1"
# its corners: a / 2^k with a + 8,192 * 2^k below 2^26, each corner in units of its own
for fine in 'edges -67100671 -5 5 5' 'edges -33546239.5 -5 5 5.5' 'edges -60000000 -5 .25 5' 'edges -24575.5 -5 5 5.00048828125' 'edges -8191.999755859375 -5 5 5.000244140625' 'edges -0.0 -0.0 5 5'; do
    boxed "$fine" | must nearest
done
boxed 'edges -67100672 -5 5 5' | must "corner 0 is not admitted"
boxed 'edges -5 -5 5 67100672' | must "corner 1 is not admitted"
boxed 'edges -33546239.5 -5 5 5.25' | must "corner 1 is not admitted"
boxed 'edges -5 -5 5.1 5' | must "corner 2 is not admitted"
boxed 'edges -67100671 -5.5 .5 5' | must "corner 0 is not admitted"
boxed 'edges -5 -60000000 .25 5' | must "corner 3 is not admitted"
boxed 'edges -5 -5 5 5.0001220703125' | must "corner 1 is not admitted"
boxed 'box 0 0 9.1 9' | must "corner 0 is not admitted"
# what is told of the mesh stands before it
boxed 'box 0 0 9.1 9' | sed 's/^triangle 0 1 2/site 0 0\n&/' | must "unused 4"
# corner 0 goes to gauge 0, though gauge 2 is nearer: squared distances of that size are rounded
printf 'edges -100000000 -100000001 100000000 100000000\nsite -1 0\nsite 5 5\nsite 0 -1\ntriangle 0 1 2  E E E\nhull 0 1 2\n' | must "corner 0 is not admitted"

head -c 100 examples/square.form >"$folder/cut"
answered "refused 17" "$folder/cut"
answered "refused 17" /dev/null
cat examples/square.form examples/square.form >"$folder/twice"
answered "refused 17" "$folder/twice"

# the accident, and the same mesh with half-edge 9 flipped by hand: triangles 4 6 5 and 4 3 6 become 3 6 5 and 4 3 5
must "half-edge 9" <examples/accident.txt
sed 's/^triangle 4 6 5 .*/triangle 3 6 5  E 19 17/; s/^triangle 4 3 6 .*/triangle 4 3 5  7 11 13/; s/^triangle 2 4 5 .*/triangle 2 4 5  5 17 18/' examples/accident.txt >"$folder/flipped.txt"
./yelmuzard mend "$folder/flipped.txt" form >"$folder/mended"
answered nearest "$folder/mended"
tools/mesh decode "$folder/mended" >"$folder/mended.txt"
python3 tests/programs/nearest/boxes.py "$folder/mended.txt"

status=0
./yelmuzard nearest examples/accident.txt >"$folder/out" 2>"$folder/err" || status=$?
[ "$status $(cat "$folder/out")" = "1 half-edge 9" ] || { echo "yelmuzard nearest: status $status" && exit 1; }
[ "$(./yelmuzard nearest "$folder/mended")" = nearest ]
status=0
./yelmuzard nearest "$folder/cut" >"$folder/out" 2>"$folder/err" || status=$?
[ "$status $(cat "$folder/out")" = "1 refused 17" ] || { echo "yelmuzard nearest on a cut form: status $status" && exit 1; }
grep -q "rule 17" "$folder/err"
status=0
./yelmuzard nearest examples/accident.txt 3 >/dev/null 2>&1 || status=$?
[ "$status" = 2 ] || { echo "yelmuzard nearest with a word more: status $status" && exit 1; }
echo "nearest: $(wc -l <"$folder/answers") lines as they must be"
