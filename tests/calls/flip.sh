#!/bin/sh
# Flipping an edge through the C interface (tests/calls/flip.c): tests/calls/flip.sh [COUNT [SEED]].
. "$(dirname "$0")/../head.sh"
program=target/tests/flip
sh tests/archive.sh build "$program" tests/calls/flip.c
exec sh tests/archive.sh run "$program" "${1:-3000}" ${2+"$2"}
