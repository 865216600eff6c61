#!/bin/sh
# Mending a mesh through the C interface (tests/calls/mend.c): tests/calls/mend.sh [COUNT [SEED]].
. "$(dirname "$0")/../head.sh"
program=target/tests/mend
sh tests/archive.sh build "$program" tests/calls/mend.c
exec sh tests/archive.sh run "$program" "${1:-20000}" ${2+"$2"}
