#!/bin/sh
# All seven programs on the longest form, on that form and a byte more, and on 96 gauges that are sound: what `main` reads and prints is held by no contract, so a buffer of its that is too
# short shows here alone. What each must print of 96 gauges is worked out by tests/programs/programs.py from the library's rules, and `cells` beside it.
. "$(dirname "$0")/../head.sh"
for program in cells export why mend nearest audit certify; do sh tests/prove.sh check "$program"; done
exec python3 tests/programs/programs.py sh tests/archive.sh run
