#!/bin/sh
# Pieces by cutting through the C interface (tests/calls/cut.c): SHEETS sheets of twelve families, each whole to the bit: tests/calls/cut.sh [SHEETS [SEED]].
. "$(dirname "$0")/../head.sh"
program=target/tests/cut
MORE_FLAGS="${MORE_FLAGS-} -ffp-contract=off" sh tests/archive.sh build "$program" tests/calls/cut.c
sh tests/archive.sh run "$program" "${1:-2400}" ${2+"$2"}
echo "cut: the pieces of every sheet add up to exactly its box"
