#!/usr/bin/env bash
# Prints the command that starts the console program, a word a line, for ./run and for the comparison. Builds the program if it has to: proved first, as everything here.
set -eu
cd "$(dirname "$0")/.."
# shellcheck source=tests/kit.sh
. tests/kit.sh
program=$PWD/crates/console/out/console
if [ -n "$(newer_than "$program")" ]; then
    tests/prove.sh run console run
    touch "$program" # rt leaves it as it is where only the files' times have changed
fi
exec tests/start.sh "$program"
