#!/bin/sh
# The accident replayed through the C interface (tests/calls/accident.c) on examples/accident.txt: what it prints stands in docs/use/C.md.
. "$(dirname "$0")/../head.sh"
program=target/tests/accident
sh tests/archive.sh build "$program" tests/calls/accident.c
said=$(mktemp) told=$(mktemp)
trap 'rm -f "$said" "$told"' EXIT
sh tests/archive.sh run "$program" <examples/accident.txt >"$said"
sed -n '/^\*\*The accident\.\*\*/,/^Where it says yes/s/^    //p' docs/use/C.md >"$told"
if ! diff "$told" "$said"; then
    echo "accident: docs/use/C.md tells the lines marked <, and the program prints those marked >"
    exit 1
fi
[ "$(grep -c '^total' "$said")" = 2 ] || { echo "accident: not two totals" && exit 1; }
echo "accident: as docs/use/C.md tells it, before and after the flip"
