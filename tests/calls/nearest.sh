#!/bin/sh
# The check with the hull through the C interface (tests/calls/nearest.c): tests/calls/nearest.sh [COUNT [SEED]].
. "$(dirname "$0")/../head.sh"
program=target/tests/nearest
sh tests/archive.sh build "$program" tests/calls/nearest.c
exec sh tests/archive.sh run "$program" "${1:-5000}" ${2+"$2"}
