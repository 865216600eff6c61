#!/bin/sh
# The program `why`: the rows of harness/why/ with their answers, broken forms, and words that are no site numbers.
. "$(dirname "$0")/../head.sh"
sh tests/prove.sh check why
folder=$(mktemp -d)
trap 'rm -rf "$folder"' EXIT

meshes=0 answers=0
for text in harness/why/*.txt; do
    sed '/^why/d; /^answer/d' "$text" | tools/mesh encode >"$folder/form" 2>/dev/null
    sed -n 's/^why *//p' "$text" >"$folder/asked"
    sed -n 's/^answer why[ 0-9]*: //p' "$text" >"$folder/must"
    : >"$folder/out"
    while read -r sites; do
        # shellcheck disable=SC2086
        sh tests/archive.sh run target/bin/why $sites <"$folder/form" >>"$folder/out"
        answers=$((answers + 1))
    done <"$folder/asked"
    cmp "$folder/out" "$folder/must" || { echo "why: $text" && exit 1; }
    meshes=$((meshes + 1))
done
[ "$answers" -gt 0 ]
echo "why: $meshes meshes of harness/why, $answers answers"

answered() { # LINE FILE WORD ..: the line on standard output, and nothing on standard error
    line=$1 file=$2
    shift 2
    sh tests/archive.sh run target/bin/why "$@" <"$file" >"$folder/out" 2>"$folder/err"
    echo "$line" | cmp - "$folder/out"
    [ ! -s "$folder/err" ] || { echo "why $*: words on standard error" && exit 1; }
}

usage() { # WORD ..: one line on standard error, and nothing else
    sh tests/archive.sh run target/bin/why "$@" <examples/square.form >"$folder/out" 2>"$folder/err"
    [ ! -s "$folder/out" ] || { echo "why $*: words on standard output" && exit 1; }
    echo "usage: why [SITE [SITE]] <FORM" | cmp - "$folder/err"
}

head -c 100 examples/square.form >"$folder/cut"
answered "refused 17" "$folder/cut"
answered "refused 17" "$folder/cut" 9
answered "refused 17" /dev/null 0 1
cat examples/square.form examples/square.form >"$folder/twice"
answered "refused 17" "$folder/twice"
answered "no fault" examples/square.form
answered "no fault" examples/square.form 0003
answered "no fault" examples/square.form "$(printf '%05000d' 3)" 2
answered "refused 4" examples/square.form 4
answered "refused 4" examples/square.form 4294967295
answered "refused 4" examples/square.form 0 4294967295

usage 4294967296
usage "$(printf '1%05000d' 0)"
usage ""
usage 0 ""
usage "" 0
usage -1
usage +1
usage 1.0
usage " 1"
usage 1x
usage 0x1
usage / :
usage 0 one
usage 0 1 2
usage --help
echo "why: words that are no site numbers get the usage line"
