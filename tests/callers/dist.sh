#!/bin/sh
# dist/: what ./yelmuzard does with it, in a small repository with stand-ins (tests/callers/dist.sh words); then README's first command in a copy of this one, with a dist/ made
# of these crates and rt, gcc and cargo hidden, timed; then each file of dist/ held, byte for byte, to what these crates give (make/dist --check), where there is one.
. "$(dirname "$0")/../head.sh"
here=$(pwd)
folder=$(mktemp -d)
trap 'rm -rf "$folder"' EXIT
proved=${YELMUZARD_PROVED-}
unset YELMUZARD_PROVE YELMUZARD_LIBRARY YELMUZARD_PROVED

# ---- a repository of a few files, with a dist/ of its own whose programs print the listing of "square"
small=$folder/small bin=$folder/bin
mkdir -p "$small/crates/laws/src" "$small/make" "$small/include" "$small/tools" "$small/tests" "$small/dist/x86_64-linux" "$bin"
cp yelmuzard VERSION toolchain "$small/"
cp make/built.sh "$small/make/"
cp include/voronoi.h "$small/include/"
cp tests/prove.sh tests/archive.sh "$small/tests/"
echo "laws:" >"$small/crates.txt"
echo "// nothing" >"$small/crates/laws/src/lib.rt"
for program in cells export why mend nearest audit certify; do
    printf '#!/bin/sh\ncat >/dev/null\ncat <<"END"\n%s\nEND\n' "$(cat tests/programs/cells/square.out)" >"$small/dist/x86_64-linux/$program"
done
echo "no archive" >"$small/dist/x86_64-linux/libvoronoi.a"
echo "no library" >"$small/dist/x86_64-linux/libvoronoi.so.0"
chmod +x "$small"/dist/x86_64-linux/[cewmna]*
head -n 1 toolchain >"$small/dist/x86_64-linux/KIT"
(
    root=$small prove=''
    # shellcheck source=make/built.sh
    . "$small/make/built.sh"
    sum_of_sources "$small/dist/x86_64-linux/KIT" >"$small/dist/x86_64-linux/SUM"
)
(cd "$small/dist/x86_64-linux" && sha256sum -- [a-z]* >SHA256SUMS)
for program in sh cat sed awk head tail tr od cmp cut grep mktemp rm mkdir dirname basename readlink printf env find touch sort xargs sha256sum cp pwd chmod wc; do
    ln -s "$(command -v "$program")" "$bin/$program"
done
machine() {
    printf '#!/bin/sh\necho %s\n' "$1" >"$bin/uname"
    chmod +x "$bin/uname"
}

must() { # STATUS WORDS WORD ..: the status, and the words on standard error
    want=$1 words=$2
    shift 2
    status=0
    (cd "$small" && PATH=$bin ./yelmuzard "$@") >"$folder/out" 2>"$folder/err" </dev/null || status=$?
    if [ "$status" != "$want" ] || { [ -n "$words" ] && ! grep -q -- "$words" "$folder/err"; }; then
        echo "dist: $*: status $status, must be $want with '$words'"
        cat "$folder/out" "$folder/err"
        exit 1
    fi
}

machine x86_64
cp examples/square.form "$small/"
must 0 "" cells square.form # no rt, no python3, no gcc on PATH
cmp "$folder/out" tests/programs/cells/square.out
[ ! -s "$folder/err" ] || { echo "dist: words where all is well: $(cat "$folder/err")" && exit 1; }
must 0 "" archive
[ "$(cat "$folder/out")" = "$small/target/staticlib/libvoronoi.a" ]
cmp "$small/target/staticlib/libvoronoi.a" "$small/dist/x86_64-linux/libvoronoi.a"
must 0 "" shared
[ "$(cat "$folder/out")" = "$small/target/shared/x86_64/libvoronoi.so" ]
cmp "$small/target/shared/x86_64/libvoronoi.so" "$small/dist/x86_64-linux/libvoronoi.so.0"
must 2 "rt is missing" --prove shared
must 2 "rt is missing" --prove cells square.form
must 2 "rt is missing" prove
# another machine: proved first, whatever dist/ has
machine aarch64
must 2 "rt is missing" cells square.form
machine x86_64
# one byte of a file of dist/
cp "$small/dist/x86_64-linux/cells" "$folder/cells"
printf ' ' >>"$small/dist/x86_64-linux/cells"
must 2 "dist/x86_64-linux/cells is not the file that was proved and built" cells square.form
must 2 "git checkout dist" cells square.form
cp "$folder/cells" "$small/dist/x86_64-linux/cells"
must 0 "" cells square.form
# a file that its sums do not name
sed -i '/  why$/d' "$small/dist/x86_64-linux/SHA256SUMS"
must 2 "dist/x86_64-linux/why is not the file that was proved and built" why square.form
# one line of a crate, a crate more, another kit
echo "// a line" >>"$small/crates/laws/src/lib.rt"
must 2 "crates/ or crates.txt is not what dist/x86_64-linux was made of" cells square.form
must 2 "rt is missing" cells square.form
echo "// nothing" >"$small/crates/laws/src/lib.rt"
must 0 "" cells square.form
: >"$small/crates/laws/src/more.rt"
must 2 "make/dist makes dist/ anew" cells square.form
rm "$small/crates/laws/src/more.rt"
echo "another kit" >"$small/dist/x86_64-linux/KIT"
must 2 "is not what dist/x86_64-linux was made of" archive
# no dist/ at all: as if there were none
rm -r "$small/dist"
must 2 "rt is missing" cells square.form
! grep -q "dist" "$folder/err" || { echo "dist: words on a dist/ that is not there: $(cat "$folder/err")" && exit 1; }
echo "dist: used where the crates are unchanged, with rt hidden; a changed file, a changed crate and another kit are told; another machine and --prove go without it"
[ "${1-}" != words ] || exit 0

# ---- README's first command, in a copy of this repository as whoever clones it has it: no target/, rt and gcc hidden
cd "$here"
[ -z "$proved" ] || export YELMUZARD_PROVED="$proved"
copy=$folder/copy
mkdir "$copy"
tar -cf - --exclude=./target --exclude=./.git --exclude='./crates/*/out' . | tar -xf - -C "$copy"
sh make/dist --into "$copy/dist/x86_64-linux"
rm "$bin/uname"
for program in uname ls ogr2ogr; do
    ! command -v "$program" >/dev/null || ln -s "$(command -v "$program")" "$bin/$program"
done
first() { # STATUS WORDS: README's first command in the copy
    status=0
    (cd "$copy" && env -i PATH="$bin" HOME="$folder" sh -c "$command") >"$folder/out" 2>"$folder/err" </dev/null || status=$?
    if [ "$status" != "$1" ] || ! grep -q -- "$2" "$folder/err"; then
        echo "dist: README's first command: status $status, must be $1 with '$2'"
        cat "$folder/out" "$folder/err"
        exit 1
    fi
}
if [ "$(uname -m)" != x86_64 ]; then
    echo "dist: README's first command over dist/ WAS NOT RUN: this is no x86-64"
elif ! /usr/bin/python3 -c 'import numpy' 2>/dev/null || ! command -v ogr2ogr >/dev/null; then
    echo "dist: README's first command over dist/ WAS NOT RUN: numpy or GDAL is missing (Debian packages python3-numpy, gdal-bin)"
else
    command=$(awk '/^```sh/ { on = 1; next } /^```/ && on { exit } on' README.md)
    began=$(date +%s%N)
    first 0 "60 gauges"
    took=$((($(date +%s%N) - began) / 1000000))
    [ ! -e "$copy/target" ] || { echo "dist: something was made in target/" && exit 1; }
    for file in map.gpkg map.svg pieces.csv; do [ -s "$copy/$file" ] || { echo "dist: no $file" && exit 1; }; done
    [ "$took" -le 60000 ] || { echo "dist: README's first command took $took ms" && exit 1; }
    cp -p "$copy/dist/x86_64-linux/libvoronoi.so.0" "$folder/library"
    printf '\001' | dd of="$copy/dist/x86_64-linux/libvoronoi.so.0" bs=1 seek=5000 conv=notrunc 2>/dev/null
    cmp -s "$folder/library" "$copy/dist/x86_64-linux/libvoronoi.so.0" && printf '\002' | dd of="$copy/dist/x86_64-linux/libvoronoi.so.0" bs=1 seek=5000 conv=notrunc 2>/dev/null
    first 2 "dist/x86_64-linux/libvoronoi.so.0 is not the file that was proved and built (SHA256SUMS): git checkout dist brings it back"
    cp -p "$folder/library" "$copy/dist/x86_64-linux/libvoronoi.so.0"
    first 0 "60 gauges"
    echo "// a line" >>"$copy/crates/root/src/lib.rt"
    first 2 "crates/ or crates.txt is not what dist/x86_64-linux was made of"
    first 2 "rt is missing"
    echo "dist: README's first command over dist/ took $took ms with rt, gcc and cargo hidden; one byte of the library, and one line of a crate, are told"
fi
rm -r "$copy"
sh make/dist --check
