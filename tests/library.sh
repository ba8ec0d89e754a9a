#!/usr/bin/env bash
# Prints the path of the reader's library for this machine's processor, as ./library writes it, for tests, benchmark and desk. Has it written if it has to. On x86-64 its object
# is the shipped archive's.
set -euo pipefail
cd "$(dirname "$0")/.."
module=$(tests/module.sh)
archive=target/library/$(uname -m)-unknown-linux-gnu/libstyrmflo.a
if [ ! "$archive" -nt "$module" ] || [ ! "$archive" -nt library ]; then
    said=$(./library)
    [ "${said%% *}" = "$archive" ] || { echo "library.sh: ./library wrote ${said%% *}, not $archive" >&2; exit 1; }
fi
echo "$PWD/$archive"
