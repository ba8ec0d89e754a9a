#!/usr/bin/env bash
# own.sh [FOLDER]: runs the tests of the independent implementation and of the comparison itself (tests/), which need nothing of the proved reader; or those of FOLDER: desk,
# for which READER_LIBRARY (tests/library.sh) is set. All that are written must have passed.
# own.sh --judge LOG [FOLDER] judges what cargo test has said.
set -euo pipefail
cd "$(dirname "$0")/.."

judge() { # LOG FOLDER
    local written passed
    written=$(grep -rhE '^ *#\[test\]' "$2/src" "$2/tests" | wc -l)
    passed=$(sed -nE 's/^test result: ok\. ([0-9]+) passed; 0 failed; 0 ignored; .*/\1/p' "$1" | awk '{ n += $1 } END { print n + 0 }')
    if [ "$written" = 0 ] || [ "$passed" != "$written" ]; then
        echo "own tests of $2: $passed of $written have passed"
        exit 1
    fi
    echo "own tests of $2: $passed, all that are written"
}

if [ "${1:-}" = --judge ]; then
    judge "$2" "${3:-tests}"
    exit
fi
folder=${1:-tests}
mkdir -p "$folder/target"
(cd "$folder" && cargo test --release --offline --quiet --target-dir target/own) >"$folder/target/own.log" 2>&1 || { cat "$folder/target/own.log"; exit 1; }
judge "$folder/target/own.log" "$folder"
