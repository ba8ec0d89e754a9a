#!/usr/bin/env bash
# targets.sh [TARGET..]: ./library for each target that docs/FIRMWARE.md names, and for the 32-bit x86, whose programs most x86-64 machines run as they are. Each library is
# linked with tests/shipped/caller.c, compiled for the same target with docs/styrmflo.h, and without any C library (tests/shipped/bare.c). Where this machine can run
# that, by itself or by an emulator on the path (qemu-arm, qemu-aarch64, and qemu-system-arm for a Cortex-M4: none is needed), it is compared with the independent
# implementation as the shipped archive is.
# One line a target: run and the same, or only compiled. TARGETS_CASES is how many random cases (2,000), TARGETS_HEADER another header (tests/controls/targets.sh).
set -euo pipefail
cd "$(dirname "$0")/.."
# shellcheck source=tests/kit.sh
. tests/kit.sh
room=$(mktemp -d)
trap 'rm -rf "$room"' EXIT
targets=("$@")
[ $# -gt 0 ] || targets=(i686 armv7 thumbv7em aarch64 x86_64)

for name in "${targets[@]}"; do
    ./library "$name" >"$room/said" || { cat "$room/said"; exit 1; }
    archive=$(sed -n '1s/ .*//p' "$room/said")
    folder=$(dirname "$archive")
    target=$(basename "$folder")
    grep -q "^not proved: that module's compilation for $target " "$room/said" || { echo "targets, $target: ./library doesn't say what is not proved"; exit 1; }
    if [ "$target" = x86_64-unknown-linux-gnu ]; then
        cmp <("$kit/toolchain/bin/llvm-ar" p "$archive") <("$kit/toolchain/bin/llvm-ar" p "$(tests/archive.sh)") || { echo "targets, $target: not the shipped object"; exit 1; }
        echo "targets, $target: the shipped archive's object, which is tried as that"
        continue
    fi
    tests/c.sh "${TARGETS_HEADER:-$folder/styrmflo.h}" --target="$target" -fno-pic -O2 -c tests/shipped/caller.c -o "$room/caller.o"
    command=$(tests/bare.sh "$target" "$room/caller" "$room/caller.o" "$archive") || { echo "targets, $target: no program"; exit 1; }
    mapfile -t words <<<"$command"
    with=${words[0]##*/}
    [ "${#words[@]}" -gt 1 ] || with=
    status=0
    "${words[@]}" </dev/null >/dev/null 2>&1 || status=$?
    # 126, 127: it can't be started here; any other status is the program's own
    if [ "$status" = 126 ] || [ "$status" = 127 ]; then
        echo "targets, $target: compiled and linked, not run: no ${with:-system that runs it} here"
        continue
    fi
    [ "$status" = 0 ] || { echo "targets, $target: ended with $status"; exit 1; }
    READER_SHIPPED=$command tests/target/release/shipped_comparison "${TARGETS_CASES:-2000}" 300001 >"$room/compared" || { cat "$room/compared"; exit 1; }
    echo "targets, $target${with:+, by $with}: run, and the same: ${TARGETS_CASES:-2000} random cases"
done
