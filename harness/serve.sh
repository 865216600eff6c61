#!/bin/sh
# Makes target/harness/serve from the library's archive, with every part that the archive has (parts.txt), and prints
# the command that runs it, as a shell reads it. A part that must be there and is not is a failure.
#
#   harness/serve.sh                 that; from another archive where VORONOI_ARCHIVE names it, as target/harness/serve_other
#   harness/serve.sh parts ARCHIVE   only the compiler's words for the parts that an archive has
set -eu
here=$(cd "$(dirname "$0")" && pwd)
root=$(cd "$here/.." && pwd)

parts() {
    symbols=$(nm --defined-only "$1") || {
        echo "harness: nm cannot read $1" >&2
        exit 1
    }
    symbols=" $(printf '%s\n' "$symbols" | awk '{ print $3 }' | tr '\n' ' ') "
    lacking=
    while read -r need part names; do
        case $need in must | may) ;; *) continue ;; esac
        missing=
        for name in $names; do
            case $symbols in *" $name "*) ;; *) missing="$missing $name" ;; esac
        done
        if [ -z "$missing" ]; then
            printf '%s' " -DHAS_$part"
        elif [ "$need" = must ]; then
            echo "harness: $1 has no$missing, which the part $part must have (harness/parts.txt)" >&2
            lacking=$part
        fi
    done <"$here/parts.txt"
    [ -z "$lacking" ] || exit 1
}

case ${1-} in
--help | -h)
    sed -n '2,/^[^#]/s/^# \{0,1\}//p' "$0"
    exit 0
    ;;
parts)
    parts "$2"
    exit
    ;;
'') ;;
*)
    sed -n '2,/^[^#]/s/^# \{0,1\}//p' "$0" >&2
    exit 2
    ;;
esac
archive=${VORONOI_ARCHIVE:-$root/target/staticlib/libvoronoi.a}
[ -n "${VORONOI_ARCHIVE-}" ] || "$root/tests/archive.sh" make
has=$(parts "$archive")
server=$root/target/harness/serve${VORONOI_ARCHIVE:+_other}
ARCHIVE=$archive MORE_FLAGS=$has "$root/tests/archive.sh" build "$server" "$here/serve.c" >&2
echo "'$root/tests/archive.sh' run '$server'"
