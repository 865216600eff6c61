#!/bin/sh
# The calls for all gauges at once, held to the single calls through the C interface (tests/calls/bulk.c), and their time beside a build's: tests/calls/bulk.sh [MESHES [SEED]].
. "$(dirname "$0")/../head.sh"
program=target/tests/bulk
sh tests/archive.sh build "$program" tests/calls/bulk.c
sh tests/archive.sh run "$program" "${1:-2000}" ${2+"$2"}
exec sh tests/archive.sh run "$program" times 256
