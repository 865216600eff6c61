#!/bin/sh
# The audit through the C interface (tests/calls/audit.c, audit_places.c, audit_truth.c): rows and refusals; the examples, turned, with two rows of sites
# exchanged and with one edge flipped; the lost corner of docs/DIFFERENCES.md; the time of a grid; sites at one place across the blocks of that
# search, random sets against all pairs, and its time beside theirs; BUILDS builds of five families against half-planes in 113-bit floats, no
# sound one named and no wrong one passed: tests/calls/audit.sh [BUILDS [SEED]].
. "$(dirname "$0")/../head.sh"
program=target/tests/audit
sh tests/archive.sh build "$program" tests/calls/audit.c
run() { sh tests/archive.sh run "$program" "$@"; }
run rows

# what is said of a mesh, against all sites and against its neighbours
show() { # WANT MESH [WORD..]
    want=$1 mesh=$2
    shift 2
    said=$(run mesh "$@" <"$mesh")
    if [ "$said" != "$want" ]; then
        printf '%s %s:\n%s\nmust be\n%s\n' "$mesh" "$*" "$said" "$want"
        exit 1
    fi
}
both() { printf 'all sites: %s\nneighbours: %s' "$1" "$1"; }
sound='0, kind 0, site -1, vertex -1, other -1, missing 0'
show "$(both "$sound")" examples/square.txt
show "$(both "$sound")" examples/thirty.txt
show "$(both '0, kind 1, site 0, vertex -1, other -1, missing 1.622195281')" examples/thirty.txt turned
show "$(both '0, kind 3, site 0, vertex 2, other 1, missing 0')" examples/thirty.txt swapped
show "$(printf 'flip: 0\n%s' "$(both '0, kind 1, site 0, vertex -1, other -1, missing 0')")" examples/thirty.txt flipped 4
show "$(both '0, kind 4, site -1, vertex -1, other -1, missing 0.3125')" harness/meshes/lost_corners.txt
echo "audit: the examples are sound; turned, exchanged, flipped and with a lost corner they are told"
run times 2000
program=target/tests/audit_places
sh tests/archive.sh build "$program" tests/calls/audit_places.c
run rows
run beside 10000
program=target/tests/audit_truth
sh tests/archive.sh build "$program" tests/calls/audit_truth.c
run "${1:-500}" ${2+"$2"}
