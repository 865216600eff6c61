#!/bin/sh
# Forms that arrive in parts, through the C interface (tests/calls/reader.c), on the stored forms: tests/calls/reader.sh [COUNT [SEED]]. From 20 on long forms are cut at every byte too.
. "$(dirname "$0")/../head.sh"
program=target/tests/reader
sh tests/archive.sh build "$program" tests/calls/reader.c
exec sh tests/archive.sh run "$program" "${1:-5}" ${2+"$2"} <crates/test_forms/stdin
