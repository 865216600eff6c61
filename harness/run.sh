#!/bin/sh
# The runs against the Rust.
#
#   harness/run.sh [WORD ..]           all of it; the words are for the program compare, e.g. --cases 1,000,000
#   harness/run.sh stored              only the stored answers, held to the Rust; no archive is needed
#   harness/run.sh compare [WORD ..]   only the live comparison of the archive with the Rust
#   harness/run.sh native [WORD ..]    the same of the archive for this machine's own processor (./yelmuzard archive --native)
#   harness/run.sh missing             runs nothing, only says whether the Rust is there to compare with
#
# The source's four files are read from ../shared/docs/src beside the repository, or from the folder VORONOI_SOURCE.
# Where they are not there nothing is run and it is said so, with status 0; with YELMUZARD_LIVE=must that is a failure.
set -eu
here=$(cd "$(dirname "$0")" && pwd)
root=$(cd "$here/.." && pwd)
# shellcheck source=harness/source.sh
. "$here/source.sh"
part=all
case ${1-} in
stored | compare | native | missing) part=$1 && shift ;;
--help | -h)
    sed -n '2,/^[^#]/s/^# \{0,1\}//p' "$0"
    exit 0
    ;;
esac
if missing=$(source_missing); then
    echo "harness: $missing is not there."
    echo "harness: THE LIVE COMPARISON WITH THE RUST WAS NOT RUN."
    [ "${YELMUZARD_LIVE-}" != must ] || {
        echo "harness: YELMUZARD_LIVE=must makes that a failure."
        exit 1
    }
    exit 0
fi
if [ "$part" = missing ]; then
    echo "harness: the Rust is there to compare with, in $VORONOI_SOURCE."
    exit 0
fi
(cd "$here" && cargo build --release --offline --quiet)
made=$root/target/harness/release

stored() {
    "$made/oracle" --check "$here"/meshes/*.txt "$here"/why/*.txt "$here"/mend/*.txt
    texts=0
    for text in "$root"/examples/*.txt "$here"/meshes/*.txt "$root"/tests/programs/cells/*.txt; do
        "$made/oracle" --listing "$text" | cmp - "$root/tests/programs/cells/$(basename "$text" .txt).out"
        texts=$((texts + 1))
    done
    echo "listings: the $texts of tests/programs/cells are what the Rust gives"
    "$made/stored" check "$root/crates/test_replay/stdin" "$here"/meshes/*.txt
}

if [ "$part" = native ]; then
    part=compare
    VORONOI_ARCHIVE=$(sh "$root/tests/native.sh")
    export VORONOI_ARCHIVE
fi
[ "$part" = compare ] || stored
[ "$part" != stored ] || exit 0
VORONOI_SERVER=$("$here/serve.sh")
export VORONOI_SERVER
exec "$made/compare" "$@"
