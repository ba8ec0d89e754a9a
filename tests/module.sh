#!/usr/bin/env bash
# module.sh: prints the path of the proved module of exports, as the kit's compiler hands it to clang (target/module/module.bc). Makes it if it has to, proved first.
# module.sh TARGET MODULE WORDS..: compiles MODULE (that one, or one as text) for TARGET, a processor with Linux (x86_64, aarch64) or as clang names it, with WORDS (-c or -S,
# -o FILE, ..) beside what the compiler is told for the library there: on x86-64 the kit's own words, by which the shipped archive is made; elsewhere -O3, a section a function,
# for Linux -fPIC, and of the kit's own words those that are told to LLVM (-mllvm), by which it keeps off known faults.
set -euo pipefail
cd "$(dirname "$0")/.."
# shellcheck source=tests/kit.sh
. tests/kit.sh
clang=$kit/toolchain/bin/clang
folder=$PWD/target/module
room=$(mktemp -d)
trap 'rm -rf "$room"' EXIT

# target/module: module.bc, and words, what clang was told with it, a word a line, but for the names of the files.
make() {
    local words
    tests/prove.sh module exports check
    mkdir "$room/bin"
    # The kit's compiler hands a module to clang: this one keeps it, and the words.
    cat >"$room/bin/clang" <<WRAP
#!/bin/sh
for a in "\$@"; do case \$a in *.bc) cp "\$a" "$room/module.bc" ;; esac; done
printf '%s\n' "\$@" >"$room/words"
exec "$clang" "\$@"
WRAP
    chmod +x "$room/bin/clang"
    for tool in llvm-ar ld.lld rattle-x64; do ln -s "$kit/toolchain/bin/$tool" "$room/bin/$tool"; done
    ln -s "$kit/toolchain/lib" "$room/lib"
    mapfile -t words < <(rattle_words "$PWD" exports)
    # over what the check has kept
    (cd crates/exports && "$kit/bin/rattle" build "${words[@]}" --incremental out/incremental --toolchain "$room" --backend llvm -o "$room/out") >"$room/log" 2>&1 ||
        { tail -n 20 "$room/log" >&2; exit 1; }
    awk '$0 == "-o" || $0 == "-x" { getline; next } $0 == "-c" || /\.bc$/ || /^--sysroot=/ { next } { print }' "$room/words" >"$folder/words"
    mv "$room/module.bc" "$folder/module.bc"
}

if [ $# = 0 ]; then
    mkdir -p "$folder"
    if [ -n "$(newer_than "$folder/module.bc")" ]; then make; fi
    echo "$folder/module.bc"
    exit
fi

target=$1
module=$2
shift 2
case $target in *-*) ;; *) target=$target-unknown-linux-gnu ;; esac
mapfile -t words <"$folder/words"
if [ "$target" = x86_64-unknown-linux-gnu ]; then
    "$clang" "${words[@]}" "$@" -x ir "$module"
    exit
fi
# On a 32-bit processor a pointer is half as long as on x86-64, for which the module was made, and on a 32-bit x86 a number of 64 bits stands at a multiple of 4: there a record that is read in one piece
# would be read from other places than it was written to, or half of it from none. -O1 takes such reads apart, by the places of x86-64.
case $target in aarch64* | riscv64* | powerpc64* | mips64* | s390x*) apart=-O0 ;; *) apart=-O1 ;; esac
"$clang" -w --target=x86_64-unknown-linux-gnu "$apart" -x ir "$module" -S -emit-llvm -o "$room/module.ll"
sed -e '/^target datalayout/d' -e "s/^target triple.*/target triple = \"$target\"/" \
    -e 's/"target-cpu"="[^"]*"//g' -e 's/"target-features"="[^"]*"//g' -e 's/"tune-cpu"="[^"]*"//g' "$room/module.ll" >"$room/native.ll"
case $target in *linux*) place=-fPIC ;; *) place=-fno-pic ;; esac
mapfile -t told < <(awk '$0 == "-mllvm" { print; getline; print }' "$folder/words")
"$clang" -w --target="$target" -O3 "$place" -ffunction-sections -fdata-sections ${told[@]+"${told[@]}"} "$@" -x ir "$room/native.ll"
