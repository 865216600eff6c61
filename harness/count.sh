#!/bin/sh
# Instructions of one build of uniform sites by each side, under valgrind: harness/count.sh [SITES]. They repeat exactly.
set -eu
here=$(cd "$(dirname "$0")" && pwd)
root=$(cd "$here/.." && pwd)
case ${1-} in
--help | -h)
    sed -n '2,/^[^#]/s/^# \{0,1\}//p' "$0"
    exit 0
    ;;
'' | *[0-9]) ;;
*)
    echo "harness/count.sh takes a number of sites, not $1" >&2
    exit 2
    ;;
esac
sites=$(printf '%s' "${1:-10000}" | tr -d ',_')
# shellcheck source=harness/source.sh
. "$here/source.sh"
need_source harness/count.sh
command -v valgrind >/dev/null || {
    echo "harness/count.sh: valgrind is missing (Debian package valgrind)" >&2
    exit 2
}
(cd "$here" && cargo build --release --offline --quiet)
server="'$root/target/harness/serve'"
if [ "$(uname -m)" != x86_64 ]; then
    VORONOI_ARCHIVE=$(sh "$root/tests/native.sh")
    export VORONOI_ARCHIVE
    server="'$root/target/harness/serve_other'"
fi
"$here/serve.sh" >/dev/null
bench=$root/target/harness/release/bench
count() { # NAME FUNCTION COMMAND..
    name=$1 function=$2
    shift 2
    "$@" 2>"$root/target/harness/count.say" || { cat "$root/target/harness/count.say"; exit 1; }
    sed -n "s/.*Collected : \([0-9]*\).*/$name: \1 instructions in $function on $sites uniform sites/p" "$root/target/harness/count.say"
}
grind="valgrind --tool=callgrind --callgrind-out-file=/dev/null"
# shellcheck disable=SC2086
count "the Rust" rust_build env -u VORONOI_SERVER $grind --toggle-collect=rust_build "$bench" --once "$sites"
case $(env VORONOI_SERVER="$server" "$bench" --has) in *time_build*) ;; *) echo "the library: no build yet"; exit ;; esac
count "the library" voronoi_build env VORONOI_SERVER="$grind --toggle-collect=voronoi_build $server" "$bench" --once "$sites"
