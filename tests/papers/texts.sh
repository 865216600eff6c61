#!/bin/sh
# tools/mesh on texts and forms that it refuses: the status, the words, and no traceback.
. "$(dirname "$0")/../head.sh"
folder=$(mktemp -d)
trap 'rm -rf "$folder"' EXIT

must() { # STATUS WORDS VERB, with the input in $folder/in
    status=0
    tools/mesh "$3" "$folder/in" >"$folder/out" 2>"$folder/err" || status=$?
    if [ "$status" != "$1" ] || { [ -n "$2" ] && ! grep -q -- "$2" "$folder/err"; } || grep -q Traceback "$folder/err"; then
        echo "tools/mesh $3: status $status, must be $1 with '$2'; the input:"
        cat "$folder/in" "$folder/err"
        exit 1
    fi
}

refused() { # WORDS TEXT
    # shellcheck disable=SC2059
    printf "$2" >"$folder/in"
    must 1 "$1" encode
}

refused "line 1: 2^99999: powers go from 2^-1074 to 2^1023" 'box 0 0 2 2^99999\n'
refused "line 2: 2^-99999999999999999999: powers" '# far\nbox 0 0 2 2^-99999999999999999999\n'
refused "0x12: a pattern has sixteen hexadecimal digits" 'box 0 0 2 0x12\n'
refused "0x: a pattern has sixteen" 'box 0 0 2 0x\n'
refused "0x00000000000000000: a pattern has sixteen" 'box 0 0 2 0x00000000000000000\n'
refused "1_0 is no number" 'box 0 0 2 1_0\n'
refused "two is no number" 'box 0 0 2 two\n'
refused "box takes 4 numbers, not 3" 'box 0 0 2\n'
refused "edges takes 4 numbers, not 3" 'edges 0 0 2\n'
refused "line 2: edges may not stand here" 'unclipped\nedges 0 0 1 1\n'
refused "begins with box, edges or unclipped, not with site" 'site 0 0\n'
refused "no record is called gauge" 'unclipped\ngauge 1 2\n'
refused "line 3: site may not stand here" 'unclipped\nhull 0\nsite 0 0\n'
refused "4294967296 is neither E nor a whole number" 'unclipped\nhull 4294967296\n'
refused "-1 is neither E nor a whole number" 'unclipped\nhull -1\n'
refused "neither a box nor unclipped" '# nothing\n'
refused "byte 0: this is no text" '\377\376'
{
    echo unclipped
    for site in $(seq 97); do echo "site $site 0"; done
} >"$folder/in"
must 1 "line 98: one site too many: at most 96" encode
[ "$(tools/mesh encode --long "$folder/in" | wc -c)" = 1651 ] || { echo "a long form of 97 sites is not made" && exit 1; }
head -c 100 examples/square.form >"$folder/in"
must 1 "byte 100: the form is cut within a record (site)" decode
{ cat examples/square.form && echo; } >"$folder/in"
must 1 "byte 172: a form has nothing after its end" decode
: >"$folder/in"
must 1 "byte 0: the form has no end" decode
rm "$folder/in"
must 2 "No such file" encode
cp examples/square.txt "$folder/in"
must 0 "" encode
# a mesh of old, without a box: turned both ways, and told so
cp harness/meshes/square_unclipped.txt "$folder/in"
must 0 "that mode is gone" encode
mv "$folder/out" "$folder/in"
must 0 "write a box or edges for the word unclipped" decode
[ "$(head -n 1 "$folder/out")" = unclipped ]
must 2 "tools/mesh encode" bake
tools/mesh --help >"$folder/out"
grep -q "counter-clockwise with y downward" "$folder/out"
status=0
tools/mesh encode examples/square.txt >/dev/full 2>"$folder/err" || status=$?
if [ "$status" != 2 ] || grep -q Traceback "$folder/err"; then
    echo "a full disk: status $status"
    exit 1
fi
# the pattern of a number, a power, a sum and a decimal are the same form
for word in 0x3ff0000000000000 2^0 .5+2^-1 1 1e0 +1.; do
    printf 'box 0 0 2 %s\n' "$word" | tools/mesh encode | cksum
done | sort -u >"$folder/sums"
[ "$(wc -l <"$folder/sums")" = 1 ]
echo "texts: each is refused in words"
