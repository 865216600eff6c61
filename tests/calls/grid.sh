#!/bin/sh
# The calls on the grid through the C interface (tests/calls/grid.c): tests/calls/grid.sh [COUNT [SEED]].
. "$(dirname "$0")/../head.sh"
program=target/tests/grid
sh tests/archive.sh build "$program" tests/calls/grid.c
exec sh tests/archive.sh run "$program" "${1:-20000}" ${2+"$2"}
