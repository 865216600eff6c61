#!/bin/sh
# The examples' forms are what tools/mesh makes of their texts, and come back as the same forms; the stored runs of `test_forms` are what tools/forms writes.
. "$(dirname "$0")/../head.sh"
folder=$(mktemp -d)
trap 'rm -r "$folder"' EXIT

for name in square thirty; do
    tools/mesh encode "examples/$name.txt" | cmp - "examples/$name.form"
    tools/mesh decode "examples/$name.form" >"$folder/text"
    tools/mesh encode "$folder/text" | cmp - "examples/$name.form"
done

python3 tools/forms "$folder"
cmp "$folder/stdin" crates/test_forms/stdin
cmp "$folder/stdout" crates/test_forms/stdout
echo "forms: the examples and the stored runs are as the tools make them"
