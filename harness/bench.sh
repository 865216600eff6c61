#!/bin/sh
# Times the Rust and the library on the same meshes, in turn: harness/bench.sh [--rounds N] [--traps] [--full] [--again].
# On x86-64 the library is its archive. On another machine, where the archive would run under an emulator and its time
# say nothing, it is the archive for the machine's own processor (tests/native.sh).
set -eu
here=$(cd "$(dirname "$0")" && pwd)
root=$(cd "$here/.." && pwd)
case ${1-} in
--help | -h)
    sed -n '2,/^[^#]/s/^# \{0,1\}//p' "$0"
    exit 0
    ;;
esac
# shellcheck source=harness/source.sh
. "$here/source.sh"
need_source harness/bench.sh
(cd "$here" && cargo build --release --offline --quiet)
if [ "$(uname -m)" = x86_64 ]; then
    VORONOI_SERVER=$("$here/serve.sh")
else
    VORONOI_SERVER=$(VORONOI_ARCHIVE=$(sh "$root/tests/native.sh") "$here/serve.sh")
fi
export VORONOI_SERVER
exec "$root/target/harness/release/bench" "$@"
