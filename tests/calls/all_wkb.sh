#!/bin/sh
# The polygons of all cells at once, held to the call for one cell through the C interface (tests/calls/all_wkb.c), and their time: tests/calls/all_wkb.sh [BUILDS [SEED]].
# The archive's version is held to the header's there too.
. "$(dirname "$0")/../head.sh"
program=target/tests/all_wkb
sh tests/archive.sh build "$program" tests/calls/all_wkb.c
sh tests/archive.sh run "$program" "${1:-10000}" ${2+"$2"}
exec sh tests/archive.sh run "$program" times 256
