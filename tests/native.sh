#!/bin/sh
# Makes target/native/libvoronoi.a, the library for this machine's own processor, where it is missing or older than the crates, and prints its
# name: what ./yelmuzard archive --native does. `harness/run.sh native` compares it with the Rust, as harness/run.sh compares the first archive.
#
#   tests/native.sh             for this machine
#   tests/native.sh MACHINE     for another, as `uname -m` names it there (aarch64): target/native-MACHINE/libvoronoi.a
#
# rt compiles for x86-64 alone. It is run here from a folder of links to the toolchain in which clang is a script that also keeps its input, the module made of
# the proved crates; the same clang then compiles that module for the machine, with no operation fused (-ffp-contract=off).
. "$(dirname "$0")/head.sh"
root=$(pwd)
kit=$(dirname "$(dirname "$(readlink -f "$(command -v rt)")")")
machine=$(uname -m)
target=${1:-$machine}
made=$root/target/native
[ "$target" = "$machine" ] || made=$made-$target
module=$root/target/native/module.bc
clang=$kit/toolchain/bin/clang
mkdir -p "$made" "$root/target/native"

link() { # the entries of folder $1 into folder $2, but for the name $3
    for entry in "$1"/*; do
        [ "$(basename "$entry")" = "$3" ] || ln -s "$entry" "$2/"
    done
}

keep_module() {
    seen=$(mktemp -d)/kit
    trap 'rm -rf "$(dirname "$seen")"' EXIT
    mkdir -p "$seen/bin" "$seen/toolchain/bin"
    for entry in "$kit"/*; do
        case $entry in */bin | */toolchain) ;; *) ln -s "$entry" "$seen/" ;; esac
    done
    link "$kit/bin" "$seen/bin" none
    # rt finds its toolchain beside its own file
    for file in rt rtlib.py; do rm "$seen/bin/$file" && cp "$kit/bin/$file" "$seen/bin/"; done
    link "$kit/toolchain" "$seen/toolchain" bin
    link "$kit/toolchain/bin" "$seen/toolchain/bin" clang
    cat >"$seen/toolchain/bin/clang" <<END_OF_CLANG
#!/bin/sh
for word in "\$@"; do case \$word in *.bc) cp "\$word" "$module" ;; esac; done
exec "$clang" "\$@"
END_OF_CLANG
    chmod +x "$seen/toolchain/bin/clang"
    PATH=$seen/bin:$PATH sh "$root/tests/prove.sh" staticlib voronoi
    touch "$module"
}

if [ ! -f "$module" ] || [ -n "$(find "$root/crates" "$root/crates.txt" -path '*/out' -prune -o -type f -newer "$module" -print | head -n 1)" ]; then
    keep_module
fi
if [ ! -f "$made/libvoronoi.a" ] || [ -n "$(find "$module" -newer "$made/libvoronoi.a")" ]; then
    # the attributes that name the other processor are taken off
    "$clang" --target=x86_64-unknown-linux-gnu -S -emit-llvm -x ir "$module" -o "$made/module.ll" 2>/dev/null
    sed -e 's/"target-cpu"="[^"]*"//; s/"target-features"="[^"]*"//; s/"tune-cpu"="[^"]*"//' -e '/^target triple/d; /^target datalayout/d' \
        "$made/module.ll" >"$made/plain.ll"
    # (what rt gives clang, for whatever machine: passes that are known to compile wrongly are left out)
    "$clang" --target="$target-linux-gnu" -O3 -fPIC -ffp-contract=off -mllvm -trap-unreachable -mllvm -no-trap-after-noreturn -mllvm -disable-machine-licm \
        -mllvm -disable-postra-machine-licm -mllvm -sink-common-insts=false -Wno-override-module -c -x ir "$made/plain.ll" -o "$made/voronoi.o"
    rm -f "$made/libvoronoi.a" "$made/module.ll" "$made/plain.ll"
    ar rcs "$made/libvoronoi.a" "$made/voronoi.o"
fi
echo "$made/libvoronoi.a"
