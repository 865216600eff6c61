#!/bin/sh
# The head of a test script, which reads it. A command that fails ends the script; asked for --help it prints its own first comment;
# else it goes on in the repository's folder.
set -eu
case ${1-} in
--help | -h)
    sed -n '2,/^[^#]/s/^# \{0,1\}//p' "$0"
    exit 0
    ;;
esac
cd "$(dirname "$0")"
until [ -f crates.txt ]; do cd ..; done
# what is tested is what is proved here, and not what dist/ has
export YELMUZARD_PROVE=yes
