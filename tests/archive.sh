#!/usr/bin/env bash
# Prints the path of the shipped archive, which `rt lib` writes in crates/exports: for x86-64. Makes it if it has to, proved first.
set -eu
cd "$(dirname "$0")/.."
archive=$PWD/crates/exports/out/libexports.a
# shellcheck source=tests/kit.sh
. tests/kit.sh
if [ -n "$(newer_than "$archive")" ]; then
    tests/prove.sh archive exports lib
    touch "$archive"
fi
echo "$archive"
