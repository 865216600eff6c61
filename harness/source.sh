# Read by the other scripts: sets and exports VORONOI_SOURCE, the folder of the source's four files, ../shared/docs/src beside the
# repository unless it is set; `source_missing` names the first of the files that is not there, and fails where all are.
# shellcheck shell=sh
VORONOI_SOURCE=${VORONOI_SOURCE:-$root/../shared/docs/src}
export VORONOI_SOURCE
source_missing() {
    for file in utils bounding_box iterator cell_builder; do
        [ -f "$VORONOI_SOURCE/$file.rs" ] || {
            echo "$VORONOI_SOURCE/$file.rs"
            return 0
        }
    done
    return 1
}
need_source() { # $1: who asks
    ! missing=$(source_missing) || {
        echo "$1: $missing is not there. The Rust's four files are no part of this repository: set VORONOI_SOURCE to their folder." >&2
        exit 2
    }
}
