#!/bin/sh
# ./yelmuzard release, and what is in the tarball used with rt, gcc and cargo hidden (env -i): the programs, map and rollup of the example, a C program linked by
# pkg-config with the shared library and with the archive, a Python session, a Rust program. Programs are compiled with gcc and cargo in sight, and run without.
# ./yelmuzard install --destdir puts the same files there. What is missing on this machine (pkg-config, cargo, python3's numpy) is said. The folder is moved before
# it is used: nothing in it names its place.
. "$(dirname "$0")/../head.sh"
folder=$(cd "$(mktemp -d)" && pwd -P)
trap 'rm -rf "$folder"' EXIT
not_run() { echo "install: $1 is missing: $2 WAS NOT RUN."; }
fail() {
    echo "install: $1"
    exit 1
}

echo "no proof's log: a test's" >"$folder/log"
tarball=$(sh ./yelmuzard release --to "$folder/release" "$folder/log") || fail "no tarball was made"
name=$(basename "$tarball" .tar.gz)
[ "$name" = "yelmuzard-$(cat VERSION)-$(uname -m)-linux" ] || fail "the tarball is called $name"
(cd "$folder/release" && sha256sum -c --quiet "$name.tar.gz.sha256") || fail "the tarball's sum is another"
cmp "$folder/log" "$folder/release/$name.proof.log"
(umask 077 && sh ./yelmuzard release --to "$folder/again" "$folder/log") >/dev/null
cmp "$tarball" "$folder/again/$name.tar.gz" || fail "the tarball is another when it is made again"
mkdir "$folder/second"
tar -xzf "$tarball" -C "$folder/second"
mv "$folder/second/$name" "$folder/second/moved here"
to="$folder/second/moved here"
sh ./yelmuzard install --destdir "$folder/first" /opt/yelmuzard >"$folder/said" || fail "it failed: $(cat "$folder/said")"
cp "$folder/log" "$folder/first/opt/yelmuzard/share/doc/yelmuzard/PROOF.log"
diff -r "$folder/first/opt/yelmuzard" "$to" || fail "install and the tarball differ"
rm -r "$folder/first/opt/yelmuzard"
! find "$folder/first" -type f | grep -q . || fail "files outside the prefix"
echo "install: $(basename "$tarball"), $(wc -c <"$tarball") bytes, the same when it is made again; install --destdir has the same files"

# ---- hidden: a PATH with what a bare system has
bin=$folder/bin
mkdir "$bin"
for program in sh cat sed awk head tail tr od cmp cut grep mktemp rm mkdir dirname basename readlink printf env find touch uname ls wc sort ogr2ogr; do
    ! command -v "$program" >/dev/null || ln -s "$(command -v "$program")" "$bin/$program"
done
[ ! -x /usr/bin/python3 ] || ln -s /usr/bin/python3 "$bin/python3"
if [ "$(uname -m)" != x86_64 ]; then
    # the programs over forms are for x86-64: the toolchain's C library stands in for qemu-user's
    tools=$(dirname "$(dirname "$(readlink -f "$(command -v rt)")")")/toolchain
    printf '#!/bin/sh\nexec "%s" "%s/lib/ld-linux-x86-64.so.2" --library-path "%s/lib" "$@"\n' "$(command -v qemu-x86_64)" "$tools" "$tools" >"$bin/qemu-x86_64"
    chmod +x "$bin/qemu-x86_64"
fi
bare() { (cd "$folder" && env -i PATH="$bin" HOME="$folder" "$@"); }
for hidden in rt gcc cc cargo rustc; do
    ! bare sh -c "command -v $hidden" >/dev/null || fail "$hidden is not hidden"
done

# ---- the programs
cp examples/square.form examples/square.txt examples/thirty.txt "$folder/"
[ "$(bare "$to/bin/yelmuzard" --version | cut -d, -f 1)" = "yelmuzard $(cat VERSION)" ] || fail "it has another version"
bare "$to/bin/yelmuzard" cells square.form | cmp - tests/programs/cells/square.out
[ "$(bare "$to/bin/yelmuzard" audit square.form)" = sound ] || fail "square is not sound"
[ "$(bare "$to/bin/yelmuzard" mend square.form)" = "pairs 0 hull 0" ] || fail "square is mended"
[ "$(bare "$to/bin/yelmuzard" why square.form)" = "no fault" ] || fail "square has a fault"
bare "$to/bin/yelmuzard" export square.form | head -n 1 | grep -qx site,geometry
if [ -x "$bin/python3" ]; then
    bare "$to/bin/yelmuzard" cells thirty.txt | cmp - tests/programs/cells/thirty.out
else
    not_run python3 "a text"
fi
ln -s "$to/bin/yelmuzard" "$folder/link"
bare ./link cells square.form | cmp - tests/programs/cells/square.out # through a link
for word in archive link test prove install release; do
    status=0
    bare "$to/bin/yelmuzard" $word one two >"$folder/out" 2>&1 || status=$?
    [ $status = 2 ] || fail "$word: status $status: $(cat "$folder/out")"
done
bare "$to/bin/yelmuzard" archive 2>&1 | grep -q "$to/lib/libvoronoi.a" || fail "archive does not say where the archive is"
echo "install: cells, export, why, mend and audit run, with rt, gcc and cargo hidden"

# ---- the manual
for page in yelmuzard yelmuzard-cells yelmuzard-install; do
    [ -s "$to/share/man/man1/$page.1" ] || fail "there is no page $page"
done
if command -v man >/dev/null && command -v groff >/dev/null; then
    MANWIDTH=200 man -l --warnings "$to/share/man/man1/yelmuzard-cells.1" >"$folder/page" 2>"$folder/warned"
    grep -q 'Prints the cells of a mesh' "$folder/page" || fail "the page on cells does not have its help"
    [ ! -s "$folder/warned" ] || fail "the page on cells: $(cat "$folder/warned")"
fi

# ---- C, by pkg-config: shared and static
if command -v pkg-config >/dev/null; then
    export PKG_CONFIG_PATH="$to/lib/pkgconfig"
    for kind in voronoi voronoi-static; do
        eval "set -- $(pkg-config --cflags --libs $kind)"
        gcc -O2 -o "$folder/$kind" examples/plan.c "$@"
        [ "$(pkg-config --modversion $kind)" = "$(cat VERSION)" ] || fail "$kind.pc has another version"
    done
    bare env LD_LIBRARY_PATH="$to/lib" ./voronoi >"$folder/out"
    grep -qx 'sum 4 of 4' "$folder/out" || fail "plan.c over the shared library says $(cat "$folder/out")"
    bare ./voronoi-static | cmp - "$folder/out"
    status=0
    bare ./voronoi >/dev/null 2>&1 || status=$?
    [ $status != 0 ] || fail "plan.c runs without the shared library: it was not linked shared"
    unset PKG_CONFIG_PATH
    echo "install: plan.c by pkg-config, shared and static"
else
    not_run pkg-config "a C program by pkg-config"
fi
[ "$(readlink "$to/lib/libvoronoi.so")" = libvoronoi.so.0 ] || fail "libvoronoi.so names another file"
if command -v readelf >/dev/null; then
    readelf -d "$to/lib/libvoronoi.so.0" | grep -q 'SONAME.*\[libvoronoi.so.0\]' || fail "the shared library has another name"
    readelf -Ws --dyn-syms "$to/lib/libvoronoi.so.0" | awk '$7 != "UND" && $8 ~ /^voronoi_/ { print $8 }' | sort -u >"$folder/has"
    sed -n 's/^\(uint32_t\|uint64_t\|double\) \(voronoi_[a-z0-9_]*\)(.*/\2/p' include/voronoi.h | sort -u >"$folder/owes"
    [ -z "$(comm -13 "$folder/has" "$folder/owes")" ] || fail "the shared library has no $(comm -13 "$folder/has" "$folder/owes" | head -n 1)"
fi

# ---- Python: map and rollup of the example, and a session
if [ ! -x "$bin/python3" ] || ! /usr/bin/python3 -c 'import numpy' 2>/dev/null; then
    not_run "/usr/bin/python3 with numpy (Debian package python3-numpy)" "map, rollup and a Python session"
else
    board=$to/share/yelmuzard/examples/board
    set -- -o map.svg -o pieces.csv
    if [ -e "$bin/ogr2ogr" ]; then set -- "$@" -o map.gpkg; else not_run "ogr2ogr (Debian package gdal-bin)" "map.gpkg"; fi
    bare "$to/bin/yelmuzard" map "$board/gauges.csv" --box 380000 5810000 440000 5850000 --crs EPSG:32633 "$@" 2>"$folder/said" || fail "map: $(cat "$folder/said")"
    ./yelmuzard map examples/board/gauges.csv --box 380000 5810000 440000 5850000 -o "$folder/here.csv" 2>/dev/null
    cmp "$folder/pieces.csv" "$folder/here.csv" || fail "map makes other pieces than in the repository"
    for file in map.svg "${6-map.svg}"; do [ -s "$folder/$file" ] || fail "map has made no $file"; done
    bare "$to/bin/yelmuzard" rollup "$board/gauges.csv" "$board/readings.csv" --boxes "$board/sheets.csv" -o rollup.csv 2>"$folder/said" || fail "rollup: $(cat "$folder/said")"
    line=$(sed -n 's/^    \(2026-05-11,west,.*\)/\1/p' README.md)
    grep -qxF "${line:?}" "$folder/rollup.csv" || fail "the rollup has not the line that README shows"
    bare env PYTHONPATH="$to/lib/python3/dist-packages" PYTHONDONTWRITEBYTECODE=1 python3 -c '
import yelmuzard
found = yelmuzard.pieces([(-.5, -.5), (-.5, .5), (.5, .5), (.5, -.5)], (-1, -1, 1, 1))
print(yelmuzard.__version__, found.areas.tolist(), [len(polygon) for polygon in found.polygons()], found.certify().words)' >"$folder/out" || fail "a Python session: $(cat "$folder/out")"
    [ "$(cat "$folder/out")" = "$(cat VERSION) [1.0, 1.0, 1.0, 1.0] [93, 93, 93, 93] certified" ] || fail "a Python session says $(cat "$folder/out")"
    echo "install: map and rollup of the example, and a Python session"
fi

# ---- Rust
if command -v cargo >/dev/null; then
    mkdir -p "$folder/program/src"
    printf '[package]\nname = "program"\nversion = "0.1.0"\nedition = "2021"\n\n[dependencies]\nyelmuzard = { path = "%s" }\n' "$to/share/yelmuzard/bindings/rust" >"$folder/program/Cargo.toml"
    cp bindings/rust/examples/plan.rs "$folder/program/src/main.rs"
    (
        unset VORONOI_LIB_DIR VORONOI_INCLUDE_DIR CARGO_TARGET_DIR
        cd "$folder/program" && cargo build --offline --quiet --target-dir "$folder/cargo"
    ) >"$folder/said" 2>&1 || fail "the Rust program is not built: $(cat "$folder/said")"
    bare ./cargo/debug/program >"$folder/out"
    [ "$(head -n 1 "$folder/out")" = "0 1 [3, 2, 1]" ] || fail "the Rust program says $(cat "$folder/out")"
    echo "install: a Rust program over the installed crate"
else
    not_run cargo "a Rust program"
fi
