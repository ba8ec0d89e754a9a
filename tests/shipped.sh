#!/usr/bin/env bash
# shipped.sh [ARCHIVE FOLDER]: compiles tests/shipped/caller.c with docs/styrmflo.h, links it with the shipped archive (or ARCHIVE, into FOLDER), and prints the command
# that starts it, a word a line. With the kit's own compiler and linker, for x86-64, whatever this machine is: it is the shipped archive that is called.
set -eu
cd "$(dirname "$0")/.."
archive=${1:-$(tests/archive.sh)}
folder=${2:-$PWD/target/shipped}
# shellcheck source=tests/kit.sh
. tests/kit.sh
mkdir -p "$folder"
tests/c.sh docs/styrmflo.h -O2 -c tests/shipped/caller.c -o "$folder/caller.o"
"$kit/bin/rattle-link" --target x86_64-unknown-linux-gnu --toolchain "$kit/toolchain" -o "$folder/caller" "$folder/caller.o" "$archive" >"$folder/log" 2>&1 || {
    cat "$folder/log" >&2
    exit 1
}
exec tests/start.sh "$folder/caller"
