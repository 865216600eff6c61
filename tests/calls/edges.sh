#!/bin/sh
# The calls that take a box by its four edges, through the C interface.
. "$(dirname "$0")/../head.sh"
program=target/tests/edges
sh tests/archive.sh build "$program" tests/calls/edges.c
exec sh tests/archive.sh run "$program"
