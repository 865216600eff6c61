#!/bin/sh
# Every C snippet of README.md, and of docs/use/C.md where that is there, is compiled inside the program of tests/papers/snippets that has its key, and run on a sound mesh and on a refused one,
# under gcc's address sanitizer where gcc builds. A snippet without a program, a program without a snippet, another output or a report of the sanitizer is a failure.
# tests/papers/snippets.sh --list names the programs and the snippets, and needs no archive.
. "$(dirname "$0")/../head.sh"
folder=$(mktemp -d)
trap 'rm -rf "$folder"' EXIT

python3 tests/papers/snippets.py "$folder"
if [ "${1-}" = --list ]; then
    cat "$folder/names"
    exit 0
fi

sanitize='-fsanitize=address -fno-omit-frame-pointer -g'
if [ "$(uname -m)" != x86_64 ] && [ -z "${ARCHIVE-}" ]; then
    sanitize=
    echo "snippets: no address sanitizer, as the archive runs under the emulator here (ARCHIVE names a native one)"
fi
runs=0
while read -r name; do
    MORE_FLAGS="$sanitize -I tests/papers/snippets -Wno-unused-variable -Wno-unused-but-set-variable" sh tests/archive.sh build "$folder/$name" "$folder/$name.c"
    for mesh in sound refused; do
        if [ -f "tests/papers/snippets/$name.$mesh.in" ]; then input=tests/papers/snippets/$name.$mesh.in; else input=/dev/null; fi
        sh tests/archive.sh run "$folder/$name" "$mesh" <"$input" >"$folder/out" 2>"$folder/err" || echo "status $?" >>"$folder/out"
        cmp "$folder/out" "tests/papers/snippets/$name.$mesh.out" || { cat "$folder/out" "$folder/err" && exit 1; }
        runs=$((runs + 1))
    done
done <"$folder/names"
echo "snippets: $runs runs, each as stored"
