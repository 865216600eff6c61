#!/bin/sh
# Paths cut and asked for again, and every triangle three times among the walks, through the C interface (tests/calls/restart.c): tests/calls/restart.sh [MESHES [SEED]].
. "$(dirname "$0")/../head.sh"
program=target/tests/restart
sh tests/archive.sh build "$program" tests/calls/restart.c
exec sh tests/archive.sh run "$program" "${1:-10000}" ${2+"$2"}
