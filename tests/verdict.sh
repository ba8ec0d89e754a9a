#!/usr/bin/env bash
# verdict.sh LOG: prints the last line of what rt ci said, if all has passed: each folder of crates/, and each wrong program and definition (crates/*/must-fail/*.edit), not one less.
# A crate that crates.txt leaves out would never be proved, and an edit under another name or in another folder never be tried. Each of those edits is refused, none of
# them only by a limit of the prover, and none is bad, as rt calls an edit that it can't try: its own last line has no word for these.
set -euo pipefail
log=$(realpath "$1")
cd "$(dirname "$0")/.."
crates=$(find crates -mindepth 1 -maxdepth 1 | wc -l)
unlisted=$(comm -3 <(sed -nE 's/^([a-z_0-9]+)( staticlib)?:.*/\1/p' crates.txt | sort) <(find crates -mindepth 1 -maxdepth 1 -printf '%f\n' | sort))
edits=$(find crates -regex 'crates/[^/]*/must-fail/[^/]*\.edit' | wc -l)
stray=$(find crates -regex 'crates/[^/]*/must-\(fail\|pass\)/.*' ! -type d ! -regex 'crates/[^/]*/must-\(fail\|pass\)/[^/]*\.edit')
verdict=$(tail -n 1 "$log")
tried=$(sed -nE 's/^rt: ok; .*; must-fail edits: ([^;]*);.*/\1/p' "$log")
if [ -n "$stray" ]; then
    echo "never tried: $stray"
elif [ -n "$unlisted" ]; then
    echo "not both in crates/ and in crates.txt:" $unlisted
elif [ "$crates" = 0 ] || [ "$edits" = 0 ]; then
    echo "$crates crates and $edits edits: nothing is shown"
elif [ "$verdict" != "$((crates + edits)) passed, 0 failed" ]; then
    echo "not all of $crates crates and $edits edits: $verdict"
elif [ "$tried" != "$edits refused" ]; then
    echo "not all of $edits edits are refused: ${tried:-nothing is said of them}"
else
    echo "$verdict"
    exit 0
fi
exit 1
