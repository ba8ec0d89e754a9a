#!/usr/bin/env bash
# c.sh HEADER WORDS..: compiles C that includes styrmflo.h, the file HEADER, for x86-64, or for the last --target= of WORDS, with the kit's compiler and every warning an
# error. The header needs stdint.h alone, which the machine's own compiler has.
set -eu
header=$1
shift
# shellcheck source=tests/kit.sh
. "$(dirname "$0")/kit.sh"
exec "$kit/toolchain/bin/clang" --target=x86_64-unknown-linux-gnu -std=c99 -pedantic -Wall -Wextra -Werror -fPIC -ffreestanding -nostdlibinc \
    -isystem "$(cc -print-file-name=include)" -I "$(dirname "$header")" "$@"
