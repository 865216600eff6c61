#!/bin/sh
# The program `cells`: on each mesh of examples/, harness/meshes/ and tests/programs/cells/ it prints tests/programs/cells/NAME.out, which harness/run.sh holds to the Rust;
# and it refuses with 17 exactly the forms that are broken: cut at each byte, in a wrong order, with a record too many or bytes after the end.
. "$(dirname "$0")/../head.sh"
sh tests/prove.sh check cells
meshes=0
for text in examples/*.txt harness/meshes/*.txt tests/programs/cells/*.txt; do
    name=$(basename "$text" .txt)
    tools/mesh encode "$text" 2>/dev/null | sh tests/archive.sh run target/bin/cells | cmp - "tests/programs/cells/$name.out"
    meshes=$((meshes + 1))
done
echo "cells: $meshes meshes are listed or refused as stored"
python3 tests/programs/cells/forms.py sh tests/archive.sh run target/bin/cells
