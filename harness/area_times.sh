#!/bin/sh
# The time of voronoi_areas beside a build's, in one program and one run, on uniform gauges: harness/area_times.sh [COUNT ..], 30 2,000 65,536 unless
# counts are given. Processor time, ns a site, best and in brackets the median; the ratio is the areas' over the build's. Needs SciPy
# (./yelmuzard gauges makes the meshes). On a machine that is no x86-64 the emulator runs it, and the times say nothing but their ratio.
. "$(dirname "$0")/../tests/head.sh"
[ $# -gt 0 ] || set -- 30 2000 65536
program=target/harness/area_times
sh tests/archive.sh build "$program" harness/area_times.c
folder=$(mktemp -d)
trap 'rm -rf "$folder"' EXIT
for count in "$@"; do
    count=$(echo "$count" | tr -d ,)
    awk -v n="$count" 'BEGIN { srand(1); for (i = 0; i < n; i++) printf "%.6f,%.6f\n", 100 * rand(), 80 * rand() }' >"$folder/gauges.csv"
    ./yelmuzard gauges "$folder/gauges.csv" --box 0 0 100 80 -o "$folder/mesh.txt" 2>"$folder/said" || { cat "$folder/said" && exit 1; }
    sh tests/archive.sh run "$program" 31 <"$folder/mesh.txt"
done
