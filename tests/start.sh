#!/usr/bin/env bash
# start.sh PROGRAM: prints the command that starts a program of rt's, a word a line: by the kit's own loader and C library. Such programs are for x86-64.
set -eu
# shellcheck source=tests/kit.sh
. "$(dirname "$0")/kit.sh"
printf '%s\n' "$kit/toolchain/lib/ld-linux-x86-64.so.2" --library-path "$kit/toolchain/lib" "$1"
