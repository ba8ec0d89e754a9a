#!/usr/bin/env bash
# stack.sh: computes how much stack a call of each exported function takes, at most, on x86-64 and on aarch64 (the kit's compiler compiles for both on every machine;
# on a machine with another processor it fails, since the code there can't be read here). The proved module is compiled as for the library that is called there: on x86-64
# the object is the shipped one byte for byte, on the processor at hand the one that the tests link. Of each function the compiler tells the frame (-fstack-usage), the
# code what it does with the stack pointer on every way through it, and what it calls (tests/src/bound). One line an exported function: bytes and the deepest chain.
# It fails where a function's frame has no one size or the compiler says nothing of it; at a cycle in the calls that tests/stack/cycles doesn't name, and a named one that
# isn't there; at a call that names no function, and one of a function outside that isn't on the list below; at memory of the module's own that can be written; where the
# functions aren't those of docs/styrmflo.h; over 16,384 bytes; and where the table in docs/FIRMWARE.md says something else.
# What the compiler doesn't count, and is counted here: the return address that a call pushes on x86-64 (8 bytes; on aarch64 it is in a register, and then in the frame),
# arguments that are pushed for a call, and the red zone, up to 128 bytes that a function which calls nothing uses below the stack pointer on x86-64.
# stack.sh --table [FOLDER] prints the table of docs/FIRMWARE.md.
# stack.sh FOLDER takes module.ll, styrmflo.h, FIRMWARE.md and cycles from FOLDER, those that are there, in place of the repository's (tests/controls/stack.sh).
set -euo pipefail
export LC_ALL=C
# Called outside, and how many bytes of stack below its return address it may take there. Whoever links the library brings these functions.
outside=(memset=256)

table=no
[ "${1:-}" != --table ] || { table=yes; shift; }
folder=${1:+$(realpath "$1")}
cd "$(dirname "$0")/.."
top=$PWD
# shellcheck source=tests/kit.sh
. tests/kit.sh

# What stands in FOLDER, or else in the repository.
taken() { # PATH
    if [ -n "$folder" ] && [ -f "$folder/$(basename "$1")" ]; then echo "$folder/$(basename "$1")"; else echo "$top/$1"; fi
}

# The library has just this object.
same() { # LIBRARY OBJECT
    "$kit/toolchain/bin/llvm-ar" p "$1" | cmp -s - "$2" || { echo "$1: not what is looked at here"; exit 1; }
}

here=$(uname -m)
processors=(x86_64 aarch64)
[[ " ${processors[*]} " == *" $here "* ]] || { echo "$here: its code can't be read here"; exit 1; }
made=${folder:-$top/target/stack}
mkdir -p "$made"
module=$(tests/module.sh)
[ ! -f "$folder/module.ll" ] || module=$folder/module.ll
failed=0
for processor in "${processors[@]}"; do
    rm -f "$made/$processor".{o,s,su,bound,bytes}
    tests/module.sh "$processor" "$module" -c -fstack-usage -o "$made/$processor.o"
    tests/module.sh "$processor" "$module" -S -o "$made/$processor.s"
    # as tests/own.sh has built it, which knows no library
    (cd tests && env -u READER_LIBRARY cargo run --release --offline --quiet --target-dir target/own --bin stack_bound "$processor" "$made" "$(taken docs/styrmflo.h)" \
        "$(taken tests/stack/cycles)" "${outside[@]}") >"$made/$processor.bound" || { cat "$made/$processor.bound"; failed=1; continue; }
    cut -d ' ' -f 1,2 "$made/$processor.bound" >"$made/$processor.bytes"
done
[ "$failed" = 0 ] || exit 1
if [ "$module" = "$top/target/module/module.bc" ]; then
    same "$(tests/archive.sh)" "$made/x86_64.o"
    same "${READER_LIBRARY:-$(tests/library.sh)}" "$made/$here.o"
fi

join "$made/x86_64.bytes" "$made/aarch64.bytes" | sed -E ':a; s/([0-9])([0-9]{3})\>/\1,\2/; ta; s/^([^ ]+) ([^ ]+) ([^ ]+)$/| `\1` | \2 | \3 |/' >"$made/rows"
if [ "$table" = yes ]; then
    printf '| function | x86-64 | aarch64 |\n|---|--:|--:|\n'
    cat "$made/rows"
    exit
fi
for processor in "${processors[@]}"; do
    sed -E "s/^([^ ]+) ([0-9]+) (.*)/stack, \1, $processor: \2 bytes: \3/" "$made/$processor.bound"
done | sort
firmware=$(taken docs/FIRMWARE.md)
grep -E '^\| `styrmflo_' "$firmware" | diff - "$made/rows" >"$made/differ" || {
    sed -nE "s|^< (.*)|$(basename "$firmware"): \1 isn't so|p; s|^> (.*)|$(basename "$firmware"): \1 is missing|p" "$made/differ"
    exit 1
}
