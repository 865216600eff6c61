#!/bin/sh
# The builds and the cell query through the C interface.
. "$(dirname "$0")/../head.sh"
program=target/tests/builds
sh tests/archive.sh build "$program" tests/calls/builds.c
exec sh tests/archive.sh run "$program"
