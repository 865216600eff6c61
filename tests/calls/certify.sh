#!/bin/sh
# The certificate through the C interface: rows and refusals, sheets by name that the audit passes (tests/calls/certify.c); examples/ear.txt and five gauges on a whole sheet, as they
# are shown in docs/use/AUDIT.md; SHEETS sheets of twelve families, each as it is and damaged, before and after the cut, against half-planes in 113-bit floats: none that nothing
# was done to is named and no wrong one is passed (tests/calls/certify_truth.c); the theorem at exact places (tests/calls/certify.py); times at 2,000 and 10,000 gauges beside the build's and the
# audit's (tests/calls/certify_times.c; target/tests/certify_times 65,472 has the largest).
#
#   tests/calls/certify.sh [SHEETS [SEED]]    1,056 sheets each way unless it is given
. "$(dirname "$0")/../head.sh"
folder=$(mktemp -d)
trap 'rm -rf "$folder"' EXIT
program=target/tests/certify
sh tests/archive.sh build "$program" tests/calls/certify.c
run() { sh tests/archive.sh run "$program" "$@"; }
run rows

# the ear: what docs/use/AUDIT.md shows is what is said of it; typed rightly it is certified
run mesh <examples/ear.txt >"$folder/ear"
sed 's/^site 36 55$/site 86 55/' examples/ear.txt | run mesh >"$folder/right"
for line in 'audit of the cut, neighbours: 0, kind 0, site -1, vertex -1, other -1, missing 0' \
    'certificate, cut: 0, kind 4, site 0, vertex 12, other 2; areas 898.661 0 0 42.0533 559.286 0'; do
    if ! grep -qxF "$line" "$folder/ear" || ! grep -qxF "    $line" docs/use/AUDIT.md; then
        echo "examples/ear.txt, or what docs/use/AUDIT.md shows of it, is not: $line"
        cat "$folder/ear"
        exit 1
    fi
done
grep -qxF 'audit, neighbours: 0, kind 0, site -1, vertex -1, other -1, missing -7.032144425e-09' "$folder/ear"
grep -q '^audit, all sites: 0, kind 3, site 0, vertex 16, other 2,' "$folder/ear"
grep -qxF 'certificate, cut: 0, kind 0, site -1, vertex -1, other -1; areas 898.661 0 0 42.0533 559.286 0' "$folder/right"

# five gauges on the whole sheet: gauge 4 was moved after the mesh was made, has no piece, and 11 percent of the sheet are nearest to it
run mesh >"$folder/five" <<'MESH'
box 50 40 100 80
site 23 73
site 46 60
site 51 58
site 18 77
site 35 67
triangle 0 3 1  E 3 E
triangle 1 3 2  1 6 E
triangle 2 3 4  4 E E
hull 0 3 4 2 1
MESH
grep -q '^audit, neighbours: 0, kind 0,' "$folder/five"
grep -q '^audit of the cut, neighbours: 0, kind 0,' "$folder/five"
grep -qxF 'certificate, cut: 0, kind 4, site 0, vertex 8, other 4; areas 1195.01 1701.83 4728 375.156 0' "$folder/five"
# five gauges about a small sheet: gauge 1 was moved, has no piece, and the whole sheet is nearest to it; three quarters are in the piece of gauge 0
run mesh >"$folder/small" <<'MESH'
box -1.75 -3.75 0.5 2.5
site -4 -2
site -0.5 -3
site -4 3
site 1.5 -4
site 0.5 1.5
triangle 0 2 4  E 7 3
triangle 0 4 3  2 E E
triangle 1 4 2  E 1 E
hull 0 2 1 4 3
MESH
grep -q '^audit, neighbours: 0, kind 0,' "$folder/small"
grep -q '^audit of the cut, neighbours: 0, kind 0,' "$folder/small"
grep -qxF 'certificate, cut: 0, kind 4, site 0, vertex 3, other 1; areas 0.93679 0 0 0.31321 0' "$folder/small"
echo "certify: the ear and twice five gauges are named, and the audit against neighbours passes them"

program=target/tests/certify_truth
MORE_FLAGS="${MORE_FLAGS-} -ffp-contract=off" sh tests/archive.sh build "$program" tests/calls/certify_truth.c
run "${1:-1056}" ${2+"$2"}
run places 96 "${2:-1}" >"$folder/places"
python3 tests/calls/certify.py <"$folder/places"
program=target/tests/certify_times
sh tests/archive.sh build "$program" tests/calls/certify_times.c mesh/triangulate.c
run 2,000 3
run 10,000 2
