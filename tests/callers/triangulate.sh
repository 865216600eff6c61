#!/bin/sh
# The triangulator (mesh/triangulate.c): its answers, the exact test of every edge of every family of gauges, and random lists for some seconds, each mesh taken by
# voronoi_check (tests/callers/triangulate.c); all that once more under the sanitizers of addresses and undefined behaviour; the same meshes and the two signs held to
# Python's whole numbers (tests/callers/triangulate.py); and with Dekker's products, which a processor without fused ones computes with.
#
#   tests/callers/triangulate.sh [SECONDS]    of random lists, 10 unless it is given
. "$(dirname "$0")/../head.sh"
seconds=${1:-10}
archive=$(sh tests/archive.sh here)
folder=$(mktemp -d)
trap 'rm -rf "$folder"' EXIT

build() { # PROGRAM FLAG ..
    program=$folder/$1
    shift
    gcc -std=c11 -D_POSIX_C_SOURCE=200809L -Wall -Wextra -Werror -I include "$@" -o "$program" tests/callers/triangulate.c "$archive" -lm
}

# with no C library's header or function, as tests/archive.sh builds for another machine
gcc -std=c11 -O2 -ffreestanding -nostdinc -isystem "$(gcc -print-file-name=include)" -Wall -Wextra -Werror -c mesh/triangulate.c -o "$folder/triangulate.o"
[ -z "$(nm -u "$folder/triangulate.o")" ] || { echo "mesh/triangulate.c needs $(nm -u "$folder/triangulate.o")" && exit 1; }

build plain -O2
build checked -O1 -g -fsanitize=address,undefined -fno-sanitize-recover=all
build dekker -O2 -U__FP_FAST_FMA -ffp-contract=off
"$folder/plain" refusals
"$folder/plain" families 40
"$folder/plain" fuzz "$seconds"
"$folder/plain" stop 65472
for program in checked dekker; do
    echo "triangulate: $program"
    "$folder/$program" refusals
    "$folder/$program" families 2
    "$folder/$program" fuzz $((seconds / 2 + 1))
done
for program in plain dekker; do
    for family in 0 1 2 3 4 5 6 7 8 9 10 11 12 13 14; do
        for gauges in 1 2 3 30 400; do
            "$folder/$program" write $family $gauges 3
        done
    done >"$folder/meshes"
    python3 tests/callers/triangulate.py meshes <"$folder/meshes"
    "$folder/$program" signs 60000 5 >"$folder/signs"
    python3 tests/callers/triangulate.py signs <"$folder/signs"
done
