#!/bin/sh
# ./yelmuzard cells, export, pieces, why and mend on what is built: a listing, refusals, output that fails, a mesh wound the wrong way; the words and the status of each.
. "$(dirname "$0")/../head.sh"
folder=$(mktemp -d)
trap 'rm -rf "$folder"' EXIT

must() { # STATUS WORDS FILE: the status, and the words on standard error
    status=0
    ./yelmuzard cells "$3" >"$folder/out" 2>"$folder/err" </dev/null || status=$?
    if [ "$status" != "$1" ] || ! grep -q -- "$2" "$folder/err"; then
        echo "yelmuzard cells $3: status $status, must be $1 with '$2'"
        cat "$folder/out" "$folder/err"
        exit 1
    fi
}

for name in square thirty; do
    for kind in form txt; do
        ./yelmuzard cells "examples/$name.$kind" | cmp - "tests/programs/cells/$name.out"
    done
done
./yelmuzard cells - <examples/square.form | cmp - tests/programs/cells/square.out

must 1 "the unclipped mode is gone" harness/meshes/square_unclipped.txt
cmp "$folder/out" tests/programs/cells/square_unclipped.out
must 1 "rule 13, says what to do" harness/meshes/refused_13_lone.txt
cmp "$folder/out" tests/programs/cells/refused_13_lone.out
mkdir "$folder/a b"
head -c 100 examples/square.form >"$folder/a b/cut"
must 1 "the form is broken" "$folder/a b/cut"
echo "box 0 0 2 2^99999" >"$folder/far.txt"
must 2 "powers go from 2^-1074 to 2^1023" "$folder/far.txt"

# square with its triangles and hull turned: built, with a warning, as a text and as a form
sed -e 's/^triangle 0 1 2 .*/triangle 0 2 1  5 E E/; s/^triangle 0 2 3 .*/triangle 0 3 2  E E 0/' -e '/^hull/d' examples/square.txt >"$folder/turned.txt"
echo "hull 3 2 1 0" >>"$folder/turned.txt"
must 0 "warning: 2 of 2 triangles turn the wrong way" "$folder/turned.txt"
python3 tools/mesh encode "$folder/turned.txt" >"$folder/turned" 2>/dev/null
must 0 "warning: 2 of 2 triangles turn the wrong way" "$folder/turned"

# output that cannot be written, and no place for what comes between
for broken in 'examples/square.form >/dev/full' 'harness/meshes/refused_13_lone.txt >/dev/full'; do
    status=0
    sh -c "./yelmuzard cells $broken" 2>"$folder/err" || status=$?
    if [ "$status" != 2 ] || ! grep -q "could not be written" "$folder/err"; then
        echo "yelmuzard cells $broken: status $status"
        cat "$folder/err"
        exit 1
    fi
done
status=0
TMPDIR=$folder/none ./yelmuzard cells examples/square.form >/dev/null 2>"$folder/err" || status=$?
[ "$status" = 2 ] || { echo "no folder: status $status" && exit 1; }
./yelmuzard export examples/square.txt | cmp - crates/export/stdout
status=0
./yelmuzard export harness/meshes/refused_13_lone.txt >"$folder/out" 2>"$folder/err" || status=$?
[ "$status $(cat "$folder/out")" = "1 refused 13" ] || { echo "export: status $status" && exit 1; }
status=0
./yelmuzard export examples/square.form >/dev/full 2>"$folder/err" || status=$?
[ "$status" = 2 ] || { echo "export to a full disk: status $status" && exit 1; }
# pieces with their areas: both kinds of file, a refusal, a broken form, a mesh wound the wrong way, a file that is not there, output that fails
pieces() { # STATUS WORDS [WORD ..] FILE: the status, and the words on standard error
    want=$1 said=$2 status=0
    shift 2
    ./yelmuzard pieces --as-voronoice "$@" >"$folder/out" 2>"$folder/err" <examples/square.form || status=$?
    if [ "$status" != "$want" ] || ! grep -q -- "$said" "$folder/err"; then
        echo "yelmuzard pieces $*: status $status, must be $want with '$said'"
        cat "$folder/err"
        exit 1
    fi
}
for file in examples/square.txt examples/square.form -; do
    pieces 0 "^4 gauges; 0 of the box is missing, by proof; 0 of its corners lost; 0 pieces empty$" "$file"
    sed 1d "$folder/out" | cut -d, -f1,7 >"$folder/cells"
    sed 1d crates/export/stdout | cmp - "$folder/cells"
    [ "$(cut -d, -f5 "$folder/out" | tr '\n' ' ')" = "area 1.0 1.0 1.0 1.0 " ]
done
pieces 0 "^certified: every place that is nearer to one gauge by more than 5.3e-09 is in its piece, once$" examples/square.txt
pieces 0 "^certified: every place that is nearer to one gauge by more than 4.1e-15 is in its piece, once$" --bits 52 examples/square.txt
pieces 1 "refused 13: .*rule 13, says what to do" harness/meshes/refused_13_lone.txt
[ ! -s "$folder/out" ]
pieces 1 "refused 20: the form has no box" harness/meshes/square_unclipped.txt
pieces 1 "the form is broken at byte 100" "$folder/a b/cut"
pieces 3 "2 of 2 triangles turn the wrong way, or are flat; the lowest is triangle 0" "$folder/turned.txt"
pieces 3 "^FAULT: kind [1-4], " "$folder/turned.txt"
pieces 2 "No such file" nowhere
pieces 1 "powers go from 2^-1074 to 2^1023" "$folder/far.txt"
pieces 2 "bits is a whole number from 0 to 52" --bits 53 examples/square.txt
pieces 2 "unrecognized arguments" --most examples/square.txt
status=0
./yelmuzard pieces examples/square.form >/dev/full 2>"$folder/err" || status=$?
[ "$status" = 2 ] || { echo "pieces to a full disk: status $status" && exit 1; }
# the reason: none, a refusal with its place and the rule's words, a site asked about, a word that is no number, output that fails
[ "$(./yelmuzard why examples/square.txt 0 2)" = "no fault" ]
sed '/^hull 3$/d' examples/square.txt >"$folder/short.txt"
status=0
./yelmuzard why "$folder/short.txt" >"$folder/out" 2>"$folder/err" || status=$?
[ "$status $(cat "$folder/out")" = "1 refused 9: hull place 2" ] || { echo "why: status $status" && exit 1; }
grep -q "rule 9, says what to do" "$folder/err"
status=0
./yelmuzard why examples/square.form one >"$folder/out" 2>"$folder/err" || status=$?
[ "$status" = 2 ] || { echo "why one: status $status" && exit 1; }
grep -q "usage: why" "$folder/err"
status=0
./yelmuzard why examples/square.form >/dev/full 2>"$folder/err" || status=$?
[ "$status" = 2 ] || { echo "why to a full disk: status $status" && exit 1; }

# mended: the changes, the form that goes into cells, a refusal in both ways, output that fails
sed 's/^triangle 0 1 2 .*/triangle 0 1 2  E E E/; s/^hull 3/hull 0/' examples/square.txt >"$folder/damaged.txt"
printf 'pair 2: none 3\nhull 3: 0 3\npairs 1 hull 1\n' >"$folder/changes"
./yelmuzard mend "$folder/damaged.txt" | cmp - "$folder/changes"
./yelmuzard mend "$folder/damaged.txt" form | cmp - examples/square.form
./yelmuzard mend "$folder/damaged.txt" form | ./yelmuzard cells - | cmp - tests/programs/cells/square.out
sed 's/^triangle 0 2 3 .*/triangle 0 1 3  E E E/' examples/square.txt >"$folder/doubled.txt"
for way in "" form; do
    status=0
    ./yelmuzard mend "$folder/doubled.txt" ${way:+"$way"} >"$folder/out" 2>"$folder/err" || status=$?
    [ "$status $(cat "$folder/out")" = "1 refused 19" ] || { echo "mend $way: status $status" && exit 1; }
    status=0
    ./yelmuzard mend examples/square.form ${way:+"$way"} >/dev/full 2>"$folder/err" || status=$?
    [ "$status" = 2 ] || { echo "mend $way to a full disk: status $status" && exit 1; }
done
# a form of old, without a box: refused, and with a box given mended, by center and size or by edges; a box that rule 3 refuses; words that are no numbers
{ printf '\006' && tail -c +34 examples/square.form; } >"$folder/old"
status=0
./yelmuzard mend "$folder/old" >"$folder/out" 2>"$folder/err" || status=$?
[ "$status $(cat "$folder/out")" = "1 refused 20" ] || { echo "mend of a form without a box: status $status" && exit 1; }
grep -q -- "mend FILE form --box" "$folder/err"
printf 'box 0: 6 1 0000000000000000 0000000000000000 4000000000000000 4000000000000000\npairs 0 hull 0\n' >"$folder/changes"
./yelmuzard mend "$folder/old" --box 0 0 2 2 2>/dev/null | cmp - "$folder/changes"
./yelmuzard mend harness/meshes/square_unclipped.txt --box 0 -0.0e5 +2. 20e-1 2>/dev/null | sed 's/ 8000000000000000 / 0000000000000000 /' | cmp - "$folder/changes"
./yelmuzard mend "$folder/old" form --box 0 0 2 2 2>/dev/null | cmp - examples/square.form
printf 'box 0: 6 7 bfb999999999999a bff0000000000000 3ff0000000000000 3ff0000000000000\npairs 0 hull 0\n' >"$folder/changes"
./yelmuzard mend "$folder/old" --edges -.1 -1 1 1 2>/dev/null | cmp - "$folder/changes"
./yelmuzard mend "$folder/old" form --edges -1 -1 1 1 2>/dev/null | ./yelmuzard cells - | cmp - tests/programs/cells/square.out
[ "$(./yelmuzard mend examples/square.form --edges -1 -1 1 1)" = "pairs 0 hull 0" ]
./yelmuzard mend examples/square.form form --box 0 0 4 4 | cmp - examples/square.form
status=0
./yelmuzard mend "$folder/old" form --box 0 0 0 2 >"$folder/out" 2>"$folder/err" || status=$?
[ "$status $(cat "$folder/out")" = "1 refused 3" ] || { echo "mend with a box of no width: status $status" && exit 1; }
for word in two 0x2 1_0 "" "1 2" inf; do
    status=0
    ./yelmuzard mend "$folder/old" --box 0 0 2 "$word" >"$folder/out" 2>"$folder/err" || status=$?
    [ "$status" = 2 ] || { echo "mend --box 0 0 2 '$word': status $status" && exit 1; }
    grep -q "is no number in decimal" "$folder/err"
done
echo "script: listings, refusals and failed output have their words and status"
