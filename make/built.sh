#!/bin/sh
# What needs no proof here, because it was proved and built before: the files of dist/, where crates/ are those that they were made of, and what is installed.
# ./yelmuzard and the scripts beside this one read it, with the folder in $root; $prove is not empty where everything is to be proved here all the same.
# docs/DECISIONS.md, "What is built already", has the reasons; dist/README.md says what the files are.

dist=${root:?}/dist/x86_64-linux
# the proved programs over forms
# shellcheck disable=SC2034
programs="cells export why mend nearest audit certify"

# An installed copy has the folder share/yelmuzard in the place of the repository, with this file in it.
installed=
[ ! -f "$root/installed" ] || installed=$(cd "$root/../.." && pwd)

# one number for all that the files of dist/ are made of: crates/ without what rt keeps in out/, crates.txt, mesh/ where it is there, and the kit's name, which is in
# the file $1
sum_of_sources() {
    (
        cd "$root" || exit
        set -- "$1" crates crates.txt
        [ ! -d mesh ] || set -- "$@" mesh
        kit=$1
        shift
        {
            find "$@" -path 'crates/*/out' -prune -o -type f -print0 | LC_ALL=C sort -z | xargs -0 sha256sum
            cat "$kit"
        } | sha256sum | cut -d ' ' -f 1
    )
}

# whether dist/ is of these crates; told once where it is not
dist_said=
dist_fits() {
    [ -z "$prove" ] && [ -f "$dist/SUM" ] && [ "$(uname -m)" = x86_64 ] || return 1
    if grep -qxF "$(cat "$dist/KIT")" "$root/toolchain" && [ "$(sum_of_sources "$dist/KIT")" = "$(cat "$dist/SUM")" ]; then return 0; fi
    [ -n "$dist_said" ] || echo "yelmuzard: crates/ or crates.txt is not what dist/x86_64-linux was made of, or its kit is no longer pinned: what is asked for is proved first." \
        "(git diff shows what has changed; git checkout of these files takes it back; make/dist makes dist/ anew.)" >&2
    dist_said=yes
    return 1
}

# whether the file $1 of dist/ may be used; one that is not what was proved stops everything
from_dist() {
    [ -f "$dist/$1" ] && dist_fits || return 1
    (cd "$dist" && grep -q "  $1\$" SHA256SUMS && grep "  $1\$" SHA256SUMS | sha256sum -c --status) || {
        echo "yelmuzard: dist/x86_64-linux/$1 is not the file that was proved and built (SHA256SUMS): git checkout dist brings it back, --prove goes without dist/" >&2
        exit 2
    }
}

# the shared library for programs that load it, such as those in Python
if [ -n "$installed" ]; then
    YELMUZARD_LIBRARY=${YELMUZARD_LIBRARY:-$installed/lib/libvoronoi.so.0}
    export YELMUZARD_LIBRARY
fi

# runs a program that is built already; those of target/ are run by tests/archive.sh
run_built() {
    if [ "$(uname -m)" = x86_64 ]; then
        "$@"
    elif command -v qemu-x86_64 >/dev/null 2>&1; then
        qemu-x86_64 "$@"
    else
        echo "yelmuzard: $1 is for x86-64, and this is $(uname -m): it needs qemu-x86_64 (Debian package qemu-user) with a C library for x86-64" >&2
        return 2
    fi
}
