#!/bin/sh
# Areas through the C interface, held to whole numbers that are exact (tests/calls/exact_areas.c, exact_areas.py): tests/calls/exact_areas.sh [COUNT [SEED]].
# Rows and refusals, COUNT random rings, every cell and every triangle of the examples and of the stored meshes, and the time of a ring.
. "$(dirname "$0")/../head.sh"
program=target/tests/exact_areas
sh tests/archive.sh build "$program" tests/calls/exact_areas.c
folder=$(mktemp -d)
trap 'rm -rf "$folder"' EXIT
run() { sh tests/archive.sh run "$program" "$@"; }
run rows
python3 tests/calls/exact_areas.py make "${1:-20000}" "${2:-1}" >"$folder/rings"
run rings <"$folder/rings" >"$folder/said"
python3 tests/calls/exact_areas.py hold "$folder/rings" "$folder/said"

# a mesh and what its areas come to
show() { # WANT MESH [turned]
    want=$1 mesh=$2
    shift 2
    run mesh "$@" <"$mesh" >"$folder/said"
    python3 tests/calls/exact_areas.py mesh "$folder/said" >"$folder/sums"
    if [ "$(cat "$folder/sums")" != "$want" ]; then
        echo "$mesh $*: '$(cat "$folder/sums")', must be '$want'"
        exit 1
    fi
    echo "$mesh $*: $want"
}
show "4 cells, 0 below 0; total 4.0, exactly 4.0, 100.0 % of the box; 0 triangles not above 0" examples/square.txt
show "30 cells, 0 below 0; total 8000.000000000001, exactly 8000.0, 100.0 % of the box; 0 triangles not above 0" examples/thirty.txt
show "30 cells, 26 below 0; total -4977.562247729757, exactly -4977.562247729756, -62.2 % of the box; 50 triangles not above 0" examples/thirty.txt turned

# every cell and triangle of the stored meshes that build
built=0
for mesh in harness/meshes/*.txt; do
    run mesh <"$mesh" >"$folder/said"
    if grep -q '^build 0$' "$folder/said"; then
        python3 tests/calls/exact_areas.py mesh "$folder/said" >/dev/null
        built=$((built + 1))
    fi
done
[ "$built" -gt 10 ] || {
    echo "only $built stored meshes were built"
    exit 1
}
echo "$built stored meshes: every cell and every triangle is exact"
for count in 30 2000 65536; do run times "$count"; done
