#!/bin/sh
# The archive's roots against the processor's: tests/calls/roots.sh [COUNT [SEED]]. The full comparison is `tests/calls/roots.sh 20,000,000`.
. "$(dirname "$0")/../head.sh"
program=target/tests/roots
sh tests/archive.sh build "$program" tests/calls/roots.c
exec sh tests/archive.sh run "$program" "${1:-1000000}" ${2+"$2"}
