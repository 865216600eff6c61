#!/bin/sh
# The call for a reason through the C interface.
. "$(dirname "$0")/../head.sh"
program=target/tests/why
sh tests/archive.sh build "$program" tests/calls/why.c
exec sh tests/archive.sh run "$program"
