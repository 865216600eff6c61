#!/bin/sh
# make/edits itself, on a small repository: what must be refused or proved is said to be, and each edit, twin or crate that is not as it must be is a failure.
. "$(dirname "$0")/head.sh"
folder=$(mktemp -d)
trap 'rm -rf "$folder"' EXIT
mkdir -p "$folder/make" "$folder/tools"
cp make/edits "$folder/make/"
cp tools/reading.py "$folder/tools/"
printf 'good:\nbad:\nbroken:\nabove: broken\nprogram: good\n' >"$folder/crates.txt"

crate() { # NAME FILE: the folders of a crate, its root file on standard input
    mkdir -p "$folder/crates/$1/src" "$folder/crates/$1/edits"
    cat >"$folder/crates/$1/src/$2"
}

edit() { # CRATE/NAME FILE OLD NEW [TWIN]
    printf 'file: src/%s\nold: %s\nnew: %s\n' "$2" "$3" "$4" >"$folder/crates/${1%/*}/edits/${1#*/}.edit"
    [ $# -lt 5 ] || printf 'twin: %s\n' "$5" >>"$folder/crates/${1%/*}/edits/${1#*/}.edit"
}

says() { # STATUS CRATE [WORD WORD], what must be said on standard input, a pattern a line
    status=0
    "$folder/make/edits" ${3+"$3" "$4"} "$2" >"$folder/said" 2>&1 </dev/null || status=$?
    while IFS= read -r line; do
        grep -q "^edits: $line" "$folder/said" || status="$status, without 'edits: $line'"
    done
    [ "$status" = "$1" ] || {
        echo "make/edits $2: status $status, must be $1"
        cat "$folder/said"
        exit 1
    }
}

numbers='#![tactic(auto)]

ghost use Rattle.std.specs.Prelude.{◌≡◌};

pub fn seven() -> usize
    ensures { result ≡ 7 }
{
    7
}

pub fn eight() -> usize
    ensures { result ≡ 8 }
{
    8
}'
echo "$numbers" | crate good lib.rt
edit good/six lib.rt '    7' '    6' '    0x7'
edit good/nine lib.rt '    8' '    9' '    0x8'
edit good/six_promised lib.rt 'result ≡ 7' 'result ≡ 6'

# each kind of failure, and beside them an edit that is refused
echo "$numbers" | crate bad lib.rt
edit bad/nine lib.rt '    8' '    9'
edit bad/harmless lib.rt '    7' '    0x7'
edit bad/not_there lib.rt '    70' '    71'
edit bad/no_program lib.rt '    7' '    seven('
edit bad/twin lib.rt '    7' '    6' '    5'

echo "$numbers" | sed 's/^    7/    70/' | crate broken lib.rt
edit broken/nine lib.rt '    8' '    9'
echo "$numbers" | crate above lib.rt
edit above/nine lib.rt '    8' '    9'

crate program main.rt <<'END'
#![tactic(auto)]

ghost use Rattle.std.specs.Prelude.{◌≡◌};

fn one_more() -> usize
    ensures { result ≡ 7 }
{
    good::seven()
}

fn main() {
    let _n = one_more();
}
END
edit program/eight main.rt '    good::seven()' '    good::eight()'

says 0 good <<'END'
good: proved as it stands ([0-9]* modules loaded, [0-9]* checked); 3 edits and 2 twins
good/nine: refused, as it must be
good/six: refused, as it must be
good/six_promised: refused, as it must be
good/six, twin 1: proved, as it must be, with 1 others
good: 3 edits and 2 twins took [0-9]* s
3 refused, 2 twins proved, 1 of 1 crates tried, 0 failed, 0 not tried
END
says 0 program <<'END'
program: proved as it stands ([0-9]* modules loaded, [0-9]* checked); 1 edits and 0 twins
program/eight: refused, as it must be
1 refused, 0 twins proved, 1 of 1 crates tried, 0 failed, 0 not tried
END
says 1 bad <<'END'
bad/not_there: FAILED: its 'old:' text stands 0 times in src/lib.rt
bad/harmless: FAILED: not refused: the crate is still proved with this edit
bad/no_program: FAILED: it did not reach the prover
bad/nine: refused, as it must be
bad/twin: refused, as it must be
bad/twin, twin 1: FAILED: a neutral twin that is not proved
2 refused, 0 twins proved, 1 of 1 crates tried, 4 failed
END
says 1 broken <<'END'
broken: FAILED: it, or what it is made of, is not proved
0 refused, 0 twins proved, 0 of 1 crates tried, 1 failed
END
says 1 above <<'END'
above: FAILED: it, or what it is made of, is not proved
0 refused, 0 twins proved, 0 of 1 crates tried, 1 failed
END
# the other way, and one twin at a time
says 0 good/six --singly --from-nothing <<'END'
good/six: refused, as it must be
good/six, twin 1: proved, as it must be (
1 refused, 1 twins proved, 1 of 1 crates tried, 0 failed, 0 not tried
END
echo "make/edits: 6 runs on five small crates, what is as it must be and each kind of failure said to be so"
