#!/bin/sh
# Callers: include/voronoi_pieces.h, examples/plan.c and examples/from_triangles.c in C99 and C++17, the Rust crate of bindings/rust, and a planner's program compiled over
# voronoice's own files and over the crate, whose outputs must be the same to the byte on the gauges of tests/callers/planner and on COUNT random
# meshes of the harness (10,000): tests/callers/bindings.sh [COUNT [SEED]].
# Where g++, cargo or voronoice's files are missing it says what was not run; with YELMUZARD_LIVE=must files that are missing are a failure.
# On a machine that is no x86-64 all of it stands on the archive for its own processor (./yelmuzard archive --native).
. "$(dirname "$0")/../head.sh"
root=$(pwd -P)
count=${1:-10,000} seed=${2:-1}
folder=$(cd "$(mktemp -d)" && pwd -P)
trap 'rm -rf "$folder"' EXIT
made=$root/target/bindings
mkdir -p "$made"
if [ "$(uname -m)" = x86_64 ]; then
    sh tests/archive.sh make
    archive=$root/target/staticlib/libvoronoi.a other=aarch64
else
    archive=$(sh tests/native.sh) other=x86_64
fi
here=$(uname -m)

fail() {
    echo "bindings: $1"
    exit 1
}
not_run() { echo "bindings: $1 is missing: $2 WAS NOT RUN."; }

# ---- C and C++

cat >"$folder/plan" <<'OUT'
gauge 0: 5 corners, area 1
gauge 1: 4 corners, area 1
gauge 2: 5 corners, area 1
gauge 3: 4 corners, area 1
sum 4 of 4
OUT
c_and_cpp() { # COMPILER STANDARD LANGUAGE
    command -v "$1" >/dev/null || {
        not_run "$1" "$2 of include/voronoi_pieces.h"
        return 0
    }
    for program in examples/plan tests/callers/pieces examples/from_triangles; do
        "$1" "-std=$2" -O2 -Wall -Wextra -Wconversion -pedantic -Werror -I include -o "$folder/program" -x "$3" "$program.c" -x none "$archive"
        "$folder/program" <examples/thirty.txt >"$folder/said" || fail "$program.c, $2: $(cat "$folder/said")"
        [ "$program" != examples/plan ] || cmp "$folder/said" "$folder/plan"
    done
    # triangles as they are, all turned, and every other one turned: the same pieces
    for way in '' 's/^triangle \([0-9]*\) \([0-9]*\) \([0-9]*\)/triangle \1 \3 \2/' '0~2s/^triangle \([0-9]*\) \([0-9]*\) \([0-9]*\)/triangle \1 \3 \2/'; do
        sed "$way" examples/thirty.txt | "$folder/program" >"$folder/said" || fail "from_triangles.c, $2: $(cat "$folder/said")"
        grep -q '^50 triangles, [0-9]* of them turned, 8 on the hull, total 8000.000000$' "$folder/said" || fail "from_triangles.c, $2: $(cat "$folder/said")"
    done
    echo "$2: plan.c, from_triangles.c and tests/callers/pieces.c, without a warning"
}
c_and_cpp gcc c99 c
c_and_cpp g++ c++17 c++
if command -v pkg-config >/dev/null; then
    flags=$(PKG_CONFIG_PATH=$root pkg-config --define-variable=archive="$(basename "$(dirname "$archive")")" --cflags --libs voronoi)
    # shellcheck disable=SC2086
    gcc -o "$folder/program" examples/plan.c $flags
    "$folder/program" | cmp - "$folder/plan"
    [ "$(PKG_CONFIG_PATH=$root pkg-config --modversion voronoi)" = "$(cat VERSION)" ] || fail "voronoi.pc has another version than the file VERSION"
    echo "voronoi.pc: plan.c is built by its words"
else
    not_run pkg-config "voronoi.pc"
fi

# ---- the crate

if ! command -v cargo >/dev/null; then
    not_run "cargo (Debian package cargo, from Debian 13 on; or from rustup)" "the crate bindings/rust, and the planner's program over it and voronoice,"
    exit 0
fi
unset VORONOI_LIB_DIR VORONOI_INCLUDE_DIR CARGO_TARGET_DIR
in_crate() { (cd "$root/bindings/rust" && "$@") >"$folder/said" 2>&1; }
in_crate cargo test --offline || fail "cargo test failed: $(cat "$folder/said")"
echo "cargo test: $(sed -n 's/^test result: ok. \([0-9]*\) passed; 0 failed.*/\1/p' "$folder/said" | awk '{ n += $1 } END { print n }') tests passed"
! grep -q '^warning' "$folder/said" || fail "the compiler warns: $(cat "$folder/said")"
in_crate cargo run --offline --quiet --example plan || fail "examples/plan.rs failed: $(cat "$folder/said")"
[ "$(head -n 1 "$folder/said")" = "0 1 [3, 2, 1]" ] || fail "examples/plan.rs says $(cat "$folder/said")"
in_crate cargo run --offline --quiet --example relax || fail "examples/relax.rs failed: $(cat "$folder/said")"
grep -q '^3 Point { x: 0.5, y: -0.25 } to Point ' "$folder/said" || fail "examples/relax.rs says $(cat "$folder/said")"
in_crate cargo run --offline --quiet --example certified || fail "examples/certified.rs failed: $(cat "$folder/said")"
[ "$(cat "$folder/said")" = "certified: [1.0, 1.0, 1.0, 1.0]" ] || fail "examples/certified.rs says $(cat "$folder/said")"
python3 - <<'HOLD' || fail "docs/use/RUST.md does not show the lines of bindings/rust/examples/certified.rs as they are"
import pathlib
import re
import sys

shown = re.search(r"(?m)^    let voronoi = .*\.cut\(mesh\)\?;\n(?:    .*\n)+", pathlib.Path("docs/use/RUST.md").read_text())
sys.exit(not shown or shown[0] not in pathlib.Path("bindings/rust/examples/certified.rs").read_text())
HOLD
if cargo clippy --version >/dev/null 2>&1; then
    in_crate cargo clippy --offline --quiet --all-targets -- -D warnings || fail "clippy: $(cat "$folder/said")"
    [ ! -s "$folder/said" ] || fail "clippy: $(cat "$folder/said")"
    echo "cargo clippy: not a word"
else
    not_run "clippy" "cargo clippy"
fi
! cargo fmt --version >/dev/null 2>&1 || in_crate cargo fmt --check || fail "the layout of bindings/rust: $(cat "$folder/said")"

# an archive that is missing, that is none, that is for another processor; a target of another processor: a sentence
python3 - "$folder" "$other" <<'MAKE'
import os
import sys

folder, machine = sys.argv[1], {"x86_64": 0x3E, "aarch64": 0xB7}[sys.argv[2]]
elf = b"\x7fELF\x02\x01\x01" + bytes(9) + (1).to_bytes(2, "little") + machine.to_bytes(2, "little") + bytes(44)
for name, member in (("foreign", elf), ("text", b"no code here\n\n")):
    os.mkdir(f"{folder}/{name}")
    with open(f"{folder}/{name}/libvoronoi.a", "wb") as archive:
        # a list of symbols first, as ar writes it, of an odd length
        for title, body in ((b"/", b"\0\0\0\0\0"), (b"voronoi.o/", member)):
            head = title.ljust(16) + b"0".ljust(12) + b"0".ljust(6) * 2 + b"644".ljust(8) + str(len(body)).encode().ljust(10) + b"`\n"
            archive.write((b"" if archive.tell() else b"!<arch>\n") + head + body + b"\n" * (len(body) % 2))
MAKE
sentence() { # FOLDER SENTENCE WORD ..
    lib=$1 want=$2
    shift 2
    if in_crate env VORONOI_LIB_DIR="$lib" CARGO_TARGET_DIR="$made/sentences" cargo check --offline "$@"; then fail "the crate is built over $lib"; fi
    grep -qF "yelmuzard: $lib/libvoronoi.a $want" "$folder/said" || fail "over $lib the crate does not say '$want': $(cat "$folder/said")"
}
word="archive"
[ "$here" = x86_64 ] || word="archive --native"
help="run ./yelmuzard $word in the repository of Yelmuzard, or set VORONOI_LIB_DIR to a folder with libvoronoi.a for $here."
sentence "$folder/nowhere" "is not there: $help"
sentence "$folder/text" "is no archive with ELF code in it: $help"
sentence "$folder/foreign" "is for $other, and this is built for $here: $help"
sentence "$(dirname "$archive")" "is for $here, and this is built for $other: " --target "$other-unknown-linux-gnu"
# an archive of another version, and one from before there was a version to ask for
for version in 2299 none; do
    mkdir "$folder/$version"
    if [ $version = none ]; then echo 'int voronoi_nothing;'; else echo "unsigned voronoi_version(void) { return $version; }"; fi >"$folder/$version.c"
    gcc -c -o "$folder/$version.o" "$folder/$version.c"
    ar rcs "$folder/$version/libvoronoi.a" "$folder/$version.o"
done
sentence "$folder/2299" "is of version 0.22.99, and this crate of $(cat VERSION): $help"
sentence "$folder/none" "is of a version before 0.23.0: $help"
in_crate env VORONOI_LIB_DIR="$(dirname "$archive")" CARGO_TARGET_DIR="$made/sentences" cargo check --offline || fail "VORONOI_LIB_DIR: $(cat "$folder/said")"
echo "the crate's build finds the archive by VORONOI_LIB_DIR, and says what is wrong with one: missing, no archive, for another processor, for another target, of another version"

# ---- the planner's program

diff tests/callers/planner/voronoice.rs tests/callers/planner/yelmuzard.rs | sed -n 's/^[<>]/    &/; s/ *$//; /^ /p' >"$folder/lines" || true
python3 - "$folder/lines" <<'HOLD' || fail "docs/use/RUST.md does not show the difference of the planner's two programs as it is"
import pathlib
import sys

sys.exit(pathlib.Path(sys.argv[1]).read_text() not in pathlib.Path("docs/use/RUST.md").read_text())
HOLD
# shellcheck source=harness/source.sh
. harness/source.sh
missing=$(source_missing) || missing=
for file in lib voronoi_builder voronoi_cell; do
    [ -n "$missing" ] || [ -f "$VORONOI_SOURCE/$file.rs" ] || missing=$VORONOI_SOURCE/$file.rs
done
if [ -n "$missing" ]; then
    not_run "$missing" "the planner's program over voronoice's own files and over the crate"
    [ "${YELMUZARD_LIVE-}" != must ] || fail "YELMUZARD_LIVE=must makes that a failure"
    exit 0
fi
planner=$made/planner
mkdir -p "$planner"
compile() { rustc -O --edition 2021 -L "$planner" "$@"; }
compile --crate-type rlib --crate-name delaunator -o "$planner/libdelaunator.rlib" harness/delaunator/src/lib.rs
compile --crate-type rlib --crate-name voronoice --cap-lints allow --extern delaunator -o "$planner/libvoronoice.rlib" "$VORONOI_SOURCE/lib.rs"
in_crate cargo build --offline --release || fail "cargo build failed: $(cat "$folder/said")"
compile --crate-name planner --extern voronoice -o "$planner/voronoice" tests/callers/planner/voronoice.rs
compile --crate-name planner --extern delaunator --extern yelmuzard="$made/release/libyelmuzard.rlib" -o "$planner/yelmuzard" tests/callers/planner/yelmuzard.rs
same() { # GAUGES MESHES WHAT
    for side in voronoice yelmuzard; do
        MESH=$2 "$planner/$side" "$1" >"$folder/$side" || fail "the planner's program over $side failed on $1"
    done
    cmp "$folder/voronoice" "$folder/yelmuzard" || fail "the planner's program differs on $1"
    echo "planner: the same $(wc -c <"$folder/yelmuzard") bytes from voronoice and from the crate on $3"
}
for gauges in 30 2000; do same "tests/callers/planner/$gauges.csv" "tests/callers/planner/$gauges.mesh" "$gauges gauges"; done
(cd harness && cargo build --release --offline --quiet --bin planner)
target/harness/release/planner "$count" "$seed" "$folder" >"$folder/sets"
same "$folder/gauges.csv" "$folder/meshes" "$(cat "$folder/sets")"
