#!/bin/sh
# Every command of README and of the pages in docs/use, run as it stands, in a copy of the repository: tests/papers/use.sh [PAGE ..]
# The commands are those of the blocks marked sh, page by page, in order; one that fails fails the test. A block marked `sh MACHINE` is for that machine alone. Lines of a
# block marked python3 are doctests. A command outside such a block is a failure: it would not be run. Where GDAL is missing, what needs it is said and not run.
. "$(dirname "$0")/../head.sh"
[ $# != 0 ] || set -- README.md docs/use/START.md docs/use/SHELL.md docs/use/PYTHON.md docs/use/C.md
root=$(pwd)
library=${YELMUZARD_LIBRARY:-$(sh tests/shared.sh)}
export YELMUZARD_LIBRARY="$library"
# all that the commands build is proved and built here first, for the copy has no out/ of rt's
sh tests/native.sh >/dev/null
for program in cells export why mend nearest audit certify; do sh tests/prove.sh check "$program"; done
export YELMUZARD_PROVED=yes
folder=$(mktemp -d)
trap 'rm -rf "$folder"' EXIT
mkdir "$folder/copy"
tar -cf - --exclude=./target --exclude=./.git --exclude='./crates/*/out' . | tar -xf - -C "$folder/copy"
mkdir -p target
ln -s "$root/target" "$folder/copy/target"
run=0
for page in "$@"; do
    python3 - "$page" "$(uname -m)" "$folder/commands" <<'PY'
import re, sys
page, machine, out = sys.argv[1:]
text = open(page).read()
blocks = re.findall(r"^```sh(?: (\w+))?\n(.*?)^```$", text, re.M | re.S)
rest = re.sub(r"^```.*?^```$", "", text, flags=re.M | re.S)
stray = re.findall(r"^    (?:\./yelmuzard|tools/|gcc |ogr2ogr |target/).*$", rest, re.M)
if stray:
    sys.exit(f"{page}: a command outside a block: {stray[0].strip()}")
with open(out, "w") as file:
    for where, body in blocks:
        if where and where != machine:
            print(f"use: {page}: WAS NOT RUN, for it is for {where}: {body.splitlines()[0]} ..", file=sys.stderr)
            continue
        for command in re.sub(r"\\\n", " ", body).splitlines():
            if command.strip():
                file.write(" ".join(command.split()) + "\n")
PY
    while IFS= read -r command; do
        case $command in ogr2ogr* | *.gpkg*) command -v ogr2ogr >/dev/null || { echo "use: $page: WAS NOT RUN, GDAL IS NOT INSTALLED: $command" && continue; } ;; esac
        status=0
        (cd "$folder/copy" && sh -c "$command") >"$folder/said" 2>&1 </dev/null || status=$?
        [ "$status" = 0 ] || {
            echo "use: $page: status $status: $command"
            cat "$folder/said"
            exit 1
        }
        run=$((run + 1))
    done <"$folder/commands"
done
(cd "$folder/copy" && PYTHONPATH=bindings/python PYTHONDONTWRITEBYTECODE=1 /usr/bin/python3 -m doctest -o ELLIPSIS docs/use/PYTHON.md) || { echo "use: docs/use/PYTHON.md does not say what Python says" && exit 1; }
echo "use: $run commands of README and docs/use, as they stand"
