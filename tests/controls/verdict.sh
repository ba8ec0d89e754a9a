# shellcheck shell=bash
log=$room/verdict
edits=$(find crates -path '*/must-fail/*.edit' ! -path '*/must-fail/*/*' | wc -l)
all=$(($(grep -cE '^[a-z_0-9]+( staticlib)?:' crates.txt) + edits))

# What rt ci says at its end: of the edits, and the verdict.
said() { # REFUSED VERDICT
    printf 'rt: ok; handles allowed: none; must-fail edits: %s; every proof and must-fail edit was done in this run\n%s\n' "$1" "$2" >"$log"
}

said "$edits refused" "$all passed, 0 failed"
passes 'a verdict on all' tests/verdict.sh "$log"
for line in '0 passed, 0 failed' "$((all - 1)) passed, 0 failed" "$((all - 1)) passed, 1 failed" "$all passed, 1 failed" "$all passed, 0 failed (laws and the crates below alone: not the gate)" ''; do
    said "$edits refused" "$line"
    fails "a verdict, $line" 'not all of' tests/verdict.sh "$log"
done
for refused in "$((edits - 1)) refused" "$edits refused, 1 bad" "$edits refused, 1 of them only by a limit" ''; do
    said "$refused" "$all passed, 0 failed"
    fails "a verdict, edits: $refused" "not all of $edits edits are refused" tests/verdict.sh "$log"
done
echo "$all passed, 0 failed" >"$log"
fails 'a verdict that says nothing of the edits' 'nothing is said of them' tests/verdict.sh "$log"
said "$edits refused" "$all passed, 0 failed"
copy crates crates.txt
mv crates/grammar/must-fail/depth_255.edit crates/grammar/must-fail/depth_255.edit.old
fails 'a edit that is never tried' 'never tried' tests/verdict.sh "$log"
for folder in must-fail/code must-pass/more; do
    copy crates crates.txt
    mkdir -p crates/grammar/$folder
    cp crates/grammar/must-fail/depth_255.edit crates/grammar/$folder
    fails "a edit in a folder that nothing tries, $folder" 'never tried' tests/verdict.sh "$log"
done
copy crates crates.txt
rm crates/grammar/must-fail/depth_255.edit
fails 'a edit less than were tried' 'not all of' tests/verdict.sh "$log"
copy crates crates.txt
find crates -path '*/must-fail/*.edit' ! -path '*/must-fail/*/*' -delete
fails 'no edit' 'nothing is shown' tests/verdict.sh "$log"
copy crates crates.txt
change crates.txt '/^console:/d'
fails 'a crate that is not listed' 'not both in crates/ and in crates.txt: console' tests/verdict.sh "$log"
said "$edits refused" "$((all - 1)) passed, 0 failed"
fails 'a crate that is not listed, and a verdict on the others' 'not both in crates/ and in crates.txt: console' tests/verdict.sh "$log"
