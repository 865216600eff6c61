#!/bin/sh
# The Python package over the shared library: its own tests (unittest), of pieces, lists, maps, rollups, full disks and the header; its time on 65,472 gauges beside a
# caller's in C; then the wheel, made offline, in an empty folder; and the types, where mypy is installed. What is missing here and so was not run is said in capitals; where YELMUZARD_ALL is must, it is
# a failure.
. "$(dirname "$0")/../head.sh"
library=${YELMUZARD_LIBRARY:-$(sh tests/shared.sh)}
export YELMUZARD_LIBRARY="$library" PYTHONDONTWRITEBYTECODE=1
folder=$(mktemp -d)
trap 'rm -rf "$folder"' EXIT

fail() {
    echo "python: $1"
    exit 1
}

not_run() {
    echo "python: $1"
    [ "${YELMUZARD_ALL-}" != must ] || fail "and here it must be"
}

for module in numpy:python3-numpy scipy:python3-scipy shapely:python3-shapely geopandas:python3-geopandas psycopg2:python3-psycopg2; do
    /usr/bin/python3 -c "import ${module%%:*}" 2>/dev/null || not_run "${module%%:*} IS NOT INSTALLED (Debian package ${module##*:})"
done
status=0
(cd bindings/python && PYTHONPATH=. /usr/bin/python3 -W error::ResourceWarning -m unittest discover -s tests -v) >"$folder/said" 2>&1 || status=$?
[ "$status" = 0 ] || { cat "$folder/said" && fail "the package's own tests"; }
grep " skipped .* in this library" "$folder/said" | sed 's/^/python: NOT YET: /' || true
! grep " skipped " "$folder/said" | grep -v " in this library" >"$folder/skipped" || not_run "WAS NOT RUN: $(cat "$folder/skipped")"
echo "python: $(sed -n 's/^Ran \([0-9]* tests\) in.*/\1/p' "$folder/said") over $library"

# the time beside a caller's in C, over the same library
gcc -std=c11 -O2 -Wall -Wextra -Werror -I include -o "$folder/caller" tests/callers/caller.c "$library"
mkdir "$folder/beside"
cp "$library" "$folder/beside/libvoronoi.so.0"
(cd bindings/python && LD_LIBRARY_PATH=$folder/beside PYTHONPATH=. /usr/bin/python3 tests/times.py "$folder/caller") >"$folder/said" || { cat "$folder/said" && fail "it takes more than 1.2 times the time of a caller in C"; }
tail -n 1 "$folder/said" | sed 's/^/python: /'

# the wheel: made with no network, unpacked into an empty folder, and used there with nothing else set
if /usr/bin/python3 -c 'import setuptools, wheel.bdist_wheel' 2>/dev/null; then
    sh tests/callers/wheel.sh "$folder/wheels" >"$folder/said" 2>&1 || { cat "$folder/said" && fail "the wheel could not be made"; }
    wheel=$(echo "$folder"/wheels/*.whl)
    mkdir "$folder/empty"
    (cd "$folder/empty" && /usr/bin/python3 -m zipfile -e "$wheel" .)
    unset YELMUZARD_LIBRARY
    printed=$(cd "$folder/empty" && env -i PATH=/usr/bin:/bin /usr/bin/python3 -c '
import yelmuzard
found = yelmuzard.pieces([(-.5, -.5), (-.5, .5), (.5, .5), (.5, -.5)], (-1, -1, 1, 1))
print(found.areas.tolist(), found.certify().words, yelmuzard.library().path.endswith("empty/yelmuzard/libvoronoi.so"))')
    [ "$printed" = "[1.0, 1.0, 1.0, 1.0] certified True" ] || fail "from the wheel: $printed"
    (cd "$folder/empty" && env -i PATH=/usr/bin:/bin /usr/bin/python3 -m yelmuzard map "$OLDPWD/examples/board/gauges.csv" --box 380000 5810000 440000 5850000 -o map.svg -o pieces.csv 2>/dev/null) ||
        fail "map from the wheel"
    echo "python: $(basename "$wheel"), $(wc -c <"$wheel") bytes, from an empty folder"
else
    not_run "NO WHEEL WAS MADE: setuptools or wheel is not installed (Debian packages python3-setuptools, python3-wheel)"
fi
if command -v mypy >/dev/null; then
    mypy --ignore-missing-imports --cache-dir "$folder/mypy" bindings/python/yelmuzard >"$folder/said" || { cat "$folder/said" && fail "mypy"; }
    echo "python: mypy finds nothing"
else
    not_run "MYPY IS NOT INSTALLED: the types were not checked (Debian package mypy)"
fi
