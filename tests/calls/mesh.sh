#!/bin/sh
# The check of a mesh through the C interface: tests/calls/mesh.sh [COUNT [SEED]].
. "$(dirname "$0")/../head.sh"
program=target/tests/mesh
sh tests/archive.sh build "$program" tests/calls/mesh.c
exec sh tests/archive.sh run "$program" "${1:-20000}" ${2+"$2"}
