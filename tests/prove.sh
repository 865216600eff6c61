#!/bin/sh
# Proves and builds one crate with all that it is made of, with a line for each crate as it is proved.
#
#   tests/prove.sh check NAME        a library, or a program: target/bin/NAME
#   tests/prove.sh staticlib NAME    a library's archive: target/staticlib/libNAME.a, which `rt lib` makes of the crate NAME_c
#
# The lines go to standard error. Where it fails the checker's words follow, and the status is rt's: 1 not proved, 2 and 3 the toolchain failed.
# What rt builds stands in crates/NAME/out; it is copied from there. After `rt ci` (tests/all sets YELMUZARD_PROVED there) rt is not asked for a program again: `rt ci`
# began with no out/, and links a program only where it is proved.
set -eu
case ${1-} in
check | staticlib) [ $# = 2 ] ;;
--help | -h) sed -n '2,/^[^#]/s/^# \{0,1\}//p' "$0" && exit 0 ;;
*) false ;;
esac || {
    sed -n '2,/^[^#]/s/^# \{0,1\}//p' "$0" >&2
    exit 2
}
cd "$(dirname "$0")/.."

put() { # FILE TARGET: under another name first, so that two tests may make it at the same time
    mkdir -p "$(dirname "$2")"
    cp "$1" "$2.$$"
    mv -f "$2.$$" "$2"
}

name=$2 crate=$2 verb=lib made=''
if [ "$1" = staticlib ]; then
    crate=${2}_c made=out/lib${2}_c.a to=target/staticlib/lib$2.a
elif [ -f "crates/$2/src/main.rt" ]; then
    verb=run made=out/$2 to=target/bin/$2
fi
[ -d "crates/$crate" ] || {
    echo "there is no crate $crate" >&2
    exit 2
}
if [ -n "${YELMUZARD_PROVED-}" ] && [ $verb = run ]; then
    if [ -x "crates/$crate/$made" ]; then
        [ ! -x "$to" ] || ! cmp -s "crates/$crate/$made" "$to" || exit 0
        put "crates/$crate/$made" "$to"
        exit 0
    fi
    # (a copy of the repository over the same target/)
    [ ! -x "$to" ] || exit 0
    echo "rt ci has not built $name" >&2
    exit 1
fi

# the crates that it is made of, and how many of them were never proved here
all=0 left=0
# shellcheck disable=SC2013
for below in $(awk -F: -v name="$crate" '
    !/^#/ && NF == 2 { split($1, head, " "); uses[head[1]] = $2 }
    function visit(c, list, n, i) {
        if (c in seen || !(c in uses)) return
        seen[c] = 1
        print c
        n = split(uses[c], list, " ")
        for (i = 1; i <= n; i++) visit(list[i])
    }
    END { visit(name) }' crates.txt); do
    all=$((all + 1))
    [ -e "crates/$below/out/rlib/stamp" ] || [ "$below" = "$crate" ] || left=$((left + 1))
done
processors=$(getconf _NPROCESSORS_ONLN 2>/dev/null || echo 1)
[ $left = 0 ] || echo "proving $left of the $all crates that $name is made of: about $(((left * 50 + 59) / 60)) minutes on $processors processors, where nothing of them was proved on this machine" >&2

mkdir -p target/log
log=target/log/$1-$name.say
: >"$log"
{
    status=0
    (
        cd "crates/$crate"
        # (a program is run on no input once it is built: what it then writes says nothing)
        if [ $verb = run ]; then exec rt run 2>&1 >/dev/null </dev/null; else exec rt lib 2>&1 </dev/null; fi
    ) || status=$?
    echo "status $status"
} | {
    proved=0 status=2 now=''
    while IFS= read -r line; do
        printf '%s\n' "$line" >>"$log"
        case $line in
        "crate "*": modules loaded="*)
            now=${line#crate }
            now=${now%%:*}
            ;;
        "logic=proved "*)
            proved=$((proved + 1))
            echo "  $proved proved: $now" >&2
            ;;
        "rt: running out/"*) status=built ;;
        "status "*) [ "$status" = built ] || status=${line#status } ;;
        esac
    done
    case $status in
    0 | built) ;;
    *)
        echo "rt $verb of $crate failed (status $status). Its words (the whole is in $log):" >&2
        # without what is proved, and without what rt says of the libraries
        grep -vE '^(fn|struct|enum|const) .*: proved$|^(library|statements|axioms|checked) |^logic|^status |^rt: (chose|rt )' "$log" |
            head -n 40 | cut -c 1-400 | sed 's/^/  /' >&2
        exit "$status"
        ;;
    esac
}
if [ -n "$made" ]; then
    put "crates/$crate/$made" "$to"
    touch "$to"
fi
