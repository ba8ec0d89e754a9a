#!/usr/bin/env bash
# vectors.sh [FOLDER]: runs every case file of tests/vectors (or FOLDER) through the independent implementation, the linked library and the shipped archive, and compares
# what comes back with the stored file beside it. Needs READER_LIBRARY (tests/library.sh) and READER_SHIPPED (tests/shipped.sh).
set -euo pipefail
folder=vectors
[ $# = 0 ] || folder=$(realpath "$1")
cd "$(dirname "$0")"
for stored in "$folder"/*.stored; do
    [ ! -f "$stored" ] || [ -f "${stored%.stored}.cases" ] || { echo "$stored: no cases"; exit 1; }
done
for cases in "$folder"/*.cases; do
    [ -f "$cases" ] || { echo "$folder: no cases"; exit 1; }
    [ -f "${cases%.cases}.stored" ] || { echo "$cases: nothing is stored"; exit 1; }
    cargo run --release --offline --quiet --features library --bin vectors "$cases" "${cases%.cases}.stored" reference library shipped
done
