#!/bin/sh
# Runs scripts two at a time: tests/together.sh 'SCRIPT [WORD ..]' ..
# A line for each as it ends, then what each has said, in the order given; at the end the words of those that failed once more, and status 1.
set -eu
case ${1-} in
'' | --help | -h)
    sed -n '2,/^[^#]/s/^# \{0,1\}//p' "$0"
    exit 0
    ;;
esac
cd "$(dirname "$0")/.."
folder=$(mktemp -d)
trap 'rm -rf "$folder"' EXIT
trap 'exit 130' INT
trap 'exit 143' TERM

number=0
for script in "$@"; do
    number=$((number + 1))
    echo "$number $script"
done >"$folder/scripts"

# shellcheck disable=SC2016
xargs -d '\n' -n 1 -P 2 sh -c '
    number=${2%% *} script=${2#* } began=$(date +%s) status=0
    sh -c "sh $script" >"$1/$number.said" 2>&1 </dev/null || status=$?
    echo "$status" >"$1/$number.status"
    [ "$status" = 0 ] && how=passed || how="FAILED with status $status"
    echo "  $script: $how ($(($(date +%s) - began)) s)"
' one "$folder" <"$folder/scripts"

failed=
while read -r number script; do
    echo "-- $script"
    cat "$folder/$number.said"
    [ "$(cat "$folder/$number.status" 2>/dev/null)" = 0 ] || failed="$failed $number"
done <"$folder/scripts"
for number in $failed; do
    echo "-- FAILED: $(sed -n "s/^$number //p" "$folder/scripts"). Its last words:"
    tail -n 20 "$folder/$number.said"
done
[ -z "$failed" ]
