#!/usr/bin/env bash
# bare.sh TARGET PROGRAM OBJECT..: links objects and archives for TARGET, as clang names it, into PROGRAM, without a C library (tests/shipped/bare.c has what they need of one), and
# prints the command that starts it, a word a line: PROGRAM alone where it runs as it is, or behind an emulator, which may not be there. For Linux; a Cortex-M gets the
# layout of an emulated board.
set -euo pipefail
target=$1
program=$2
shift 2
here=$(dirname "$0")
# shellcheck source=tests/kit.sh
. "$here/kit.sh"
layout=()
case $target in thumb*-none-*) layout=(-T "$here/shipped/cortex_m.ld" -e 0) ;; esac
"$here/c.sh" "$here/../docs/styrmflo.h" --target="$target" -fno-pic -fno-builtin -O2 -c "$here/shipped/bare.c" -o "$program.bare.o"
"$kit/toolchain/bin/ld.lld" --fatal-warnings "${layout[@]}" "$@" "$program.bare.o" -o "$program"
case $target in
    i686-*) [ "$(uname -m)" = x86_64 ] || echo qemu-i386 ;;
    aarch64-*) [ "$(uname -m)" = aarch64 ] || echo qemu-aarch64 ;;
    arm*-linux-*) echo qemu-arm ;;
    thumbv7em-none-*) printf '%s\n' qemu-system-arm -machine mps2-an386 -cpu cortex-m4 -display none -monitor none -serial none -semihosting-config enable=on,target=native -kernel ;;
    *) echo "no-emulator-of-$target" ;;
esac
echo "$program"
