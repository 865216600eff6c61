#!/bin/sh
# What ./yelmuzard says where something is missing or fails, with stand-ins for rt and the other programs: the words and the status of each.
. "$(dirname "$0")/head.sh"
unset YELMUZARD_LIVE VORONOI_SOURCE
folder=$(mktemp -d)
trap 'rm -rf "$folder"' EXIT
bin=$folder/bin
mkdir "$bin"
for program in sh cat sed awk head tail tr od cmp cut grep mktemp rm mkdir dirname basename readlink getconf printf env uname find touch; do
    ln -s "$(command -v "$program")" "$bin/$program"
done

stand_in() { # NAME, its script on standard input
    rm -f "$bin/$1"
    cat >"$bin/$1"
    chmod +x "$bin/$1"
}

must() { # STATUS WORDS COMMAND ..: the status, and the words on standard error
    want=$1 words=$2
    shift 2
    status=0
    PATH=$bin "$@" >"$folder/out" 2>"$folder/err" </dev/null || status=$?
    if [ "$status" != "$want" ] || { [ -n "$words" ] && ! grep -q -- "$words" "$folder/err"; }; then
        echo "$*: status $status, must be $want with '$words'"
        cat "$folder/out" "$folder/err"
        exit 1
    fi
}

must 2 "rt is missing" ./yelmuzard cells examples/square.form
stand_in rt <<'END'
#!/bin/sh
echo "rattle-kit-0 logic 0"
END
must 2 "another toolchain: rt is 'rattle-kit-0 logic 0'" ./yelmuzard archive

# a crate that is not proved: the checker's words are shown
stand_in rt <<'END'
#!/bin/sh
case $1 in
version) tail -n 1 toolchain ;;
*)
    exec >&2
    echo "fn base::length: proved"
    echo "crate base: modules loaded=0 checked=9"
    echo "logic=proved functions=1 sum=0"
    echo "fn root::magnitude: proved"
    echo "./proofs/root/Proof.antt:40:13: error: the two types differ"
    echo "fn root::root: not proved"
    echo "crate root: modules loaded=0 checked=90"
    echo "logic=not-proved"
    echo "rt: the library root did not build, so nothing above it was checked"
    exit 1
    ;;
esac
END
must 2 "root/Proof.antt:40:13: error: the two types differ" ./yelmuzard cells examples/square.form
must 2 "  1 proved: base" ./yelmuzard cells examples/square.form
must 2 "cells could not be proved and built" ./yelmuzard cells examples/square.form
must 2 "Debian package python3" ./yelmuzard cells examples/square.txt
must 2 "ar is missing (Debian package binutils)" ./yelmuzard archive --native
must 2 "archive \[--native\]" ./yelmuzard archive --other
must 2 "gcc is missing (Debian package gcc)" ./yelmuzard link "$folder/program" examples/areas.c
must 2 "gcc is missing (Debian package gcc)" ./yelmuzard shared
for program in gcc nm python3; do
    must 2 "$program is missing" ./yelmuzard test
    stand_in "$program" </dev/null
done
must 2 "cargo is missing" ./yelmuzard test
stand_in cargo <<'END'
#!/bin/sh
echo "cargo 1.65.0"
END
must 2 "cargo 1.65.0 is too old: harness/Cargo.lock asks for 1.78" ./yelmuzard test

# words
must 2 "there is no file nowhere" ./yelmuzard cells nowhere
must 2 "there is no word bake" ./yelmuzard bake
must 2 "" ./yelmuzard
must 2 "" ./yelmuzard cells
must 2 "shared" ./yelmuzard shared here
must 2 "wheel \[FOLDER\]" ./yelmuzard wheel here there
must 2 "why FILE" ./yelmuzard why
must 2 "why FILE" ./yelmuzard why examples/square.form 0 1 2
must 2 "mend FILE" ./yelmuzard mend
must 2 "mend FILE" ./yelmuzard mend examples/square.form lines
must 2 "mend FILE" ./yelmuzard mend examples/square.form --box 0 0 2
must 2 "mend FILE" ./yelmuzard mend examples/square.form --edges 0 0 2 2 form
must 2 "mend FILE" ./yelmuzard mend examples/square.form form form
must 2 "cells FILE" ./yelmuzard cells examples/square.form form
must 0 "" ./yelmuzard --version
for word in "" cells export why mend nearest audit certify archive shared wheel link run test; do
    # shellcheck disable=SC2086
    must 0 "" ./yelmuzard $word --help
    grep -q . "$folder/out"
done
for script in tests/all tests/*.sh harness/*.sh; do
    [ "$script" != harness/source.sh ] || continue
    must 0 "" sh "$script" --help
    grep -q . "$folder/out"
done

# without the Rust: the runs say so; they fail only where that is a must
for part in "" stored compare native missing; do
    # shellcheck disable=SC2086
    must 0 "" env VORONOI_SOURCE="$folder" CI=true sh harness/run.sh $part
    grep -q "THE LIVE COMPARISON WITH THE RUST WAS NOT RUN" "$folder/out"
done
must 1 "" env VORONOI_SOURCE="$folder" YELMUZARD_LIVE=must sh harness/run.sh
must 2 "are no part of this repository" env VORONOI_SOURCE="$folder" sh harness/bench.sh
must 2 "are no part of this repository" env VORONOI_SOURCE="$folder" sh harness/count.sh
echo "missing: each is said, with its status"
