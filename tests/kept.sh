#!/usr/bin/env bash
# kept.sh: has rt check every crate, so that what it keeps of each, and its library, stand in crates/*/out. Wrong programs and definitions begin with that. (rt ci proves from
# nothing, and keeps none of it there.) What it says is in target/log/kept; on failure the last lines of it on standard error.
set -euo pipefail
cd "$(dirname "$0")/.."
mkdir -p target/log
rt all check --jobs "$(nproc)" </dev/null >target/log/kept 2>&1 || { tail -n 40 target/log/kept >&2; exit 1; }
crates=$(find crates -mindepth 1 -maxdepth 1 | wc -l)
said=$(tail -n 1 target/log/kept)
[ "$said" = "$crates of $crates crates ok" ] || { echo "rt all check: not all of $crates crates: $said" >&2; exit 1; }
