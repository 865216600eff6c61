# For the tests of a program that reads a form and prints lines, after tests/head.sh: `program=NAME` first, then
#   . tests/programs/asked.sh
# The program proved, a folder of its own, and two words: what it prints of a form (`answered LINES FORM`), and of a mesh as text on standard input (`must LINES`).
# The lines of all answers are gathered in "$folder/answers".
# shellcheck shell=sh
sh tests/prove.sh check "${program:?}"
folder=$(mktemp -d)
trap 'rm -rf "$folder"' EXIT

answered() { # LINES FORM
    sh tests/archive.sh run "target/bin/$program" <"$2" >"$folder/out"
    echo "$1" | cmp - "$folder/out" || { printf '%s:\n%s\nmust be\n%s\n' "$program" "$(cat "$folder/out")" "$1" && exit 1; }
    echo "$1" >>"$folder/answers"
}

must() { # LINES, and the mesh as text on standard input
    tools/mesh encode >"$folder/form" 2>/dev/null
    answered "$1" "$folder/form"
}
