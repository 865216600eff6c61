#!/bin/sh
# Makes the wheel of the Python package, with the shared library in it, and prints its name: tests/callers/wheel.sh [FOLDER], what ./yelmuzard wheel does.
# Debian's python3-setuptools and python3-wheel make it by pyproject.toml's own hook, with no network: pip would ask for a build environment.
. "$(dirname "$0")/../head.sh"
case ${1-} in '') to=$(pwd)/target/wheel ;; /*) to=$1 ;; *) to=$OLDPWD/$1 ;; esac
library=${YELMUZARD_LIBRARY:-$(sh tests/shared.sh)}
export YELMUZARD_LIBRARY="$library"
folder=$(mktemp -d)
trap 'rm -rf "$folder"' EXIT
mkdir -p "$to"
cp -R bindings/python/yelmuzard bindings/python/pyproject.toml bindings/python/setup.py bindings/python/README.md "$folder"
find "$folder" -name __pycache__ -prune -exec rm -rf {} +
cd "$folder"
name=$(SOURCE_DATE_EPOCH=${SOURCE_DATE_EPOCH:-315619200} /usr/bin/python3 -B -c '
import contextlib, sys
import setuptools.build_meta
with contextlib.redirect_stdout(sys.stderr):
    name = setuptools.build_meta.build_wheel(sys.argv[1])
print(name)' "$to" 2>"$folder/said") || {
    cat "$folder/said" >&2
    exit 1
}
echo "$to/$name"
