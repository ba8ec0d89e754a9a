# shellcheck shell=bash
# One crate, a small one; most of what can be wrong with an edit in one run.
edits=crates/values/must-fail
cases='proofs/Cases.antt'

fresh() { # into a copy with one edit
    copy crates docs/MEANING.md crates.txt
    for crate in crates/*; do ln -s "$top/$crate/out" "$crate/out"; done
    find crates -path '*/must-fail/*.edit' ! -path "$edits/the_empty_part_in_the_literals.edit" -delete
}

edit() { # NAME LINES..
    local name=$1
    shift
    printf '%s\n' "$@" >"$edits/$name.edit"
}

says() { # LINE: the script has said so
    passes "wrong definitions, $1" grep -qF "values/$1" said
}

old='old: s.start) message.ref_ptr'
fresh
passes 'a wrong definition that is refused' tests/wrong_definitions.sh values
printf '\npub also_fit : map (text_place message literals) (text false 1 2 ∷ text true 1 1 ∷ text false 3 0 ∷ []) ≡ (3, 41) ∷ (5, 9) ∷ (3, 43) ∷ []\nalso_fit = parts_that_fit\n' \
    >>crates/values/$cases
edit hollow "refused: $cases no_texts" 'file: specs/Texts.antt' "$old" 'new: s.start)  message.ref_ptr'
edit another_law "refused: $cases no_texts" 'file: specs/Texts.antt' "$old" 'new: s.start) literals.ref_ptr'
edit by_another_law "refused: $cases also_fit" 'file: specs/Texts.antt' 'old: n + x.ref_ptr.1' 'new: x.ref_ptr.1'
edit no_definition "refused: $cases parts_that_fit" 'file: specs/Texts.antt' "$old" 'new: s.start) message'
edit not_there "refused: $cases parts_that_fit" 'file: specs/Texts.antt' 'old: not there' 'new: there'
edit twice_there "refused: $cases parts_that_fit" 'file: specs/Texts.antt' 'old: message.ref_ptr' 'new: literals.ref_ptr'
edit nameless 'file: specs/Texts.antt' "$old" 'new: s.start) literals.ref_ptr'
edit no_file 'refused: proofs/Nothing.antt parts_that_fit' 'file: specs/Texts.antt' "$old" 'new: s.start) literals.ref_ptr'
tests/wrong_definitions.sh values >said 2>&1 && ended=0 || ended=1

passes 'wrong definitions that are none' test "$ended" = 1
says "hollow: NOT REFUSED at $cases no_texts"
says "another_law: NOT REFUSED at $cases no_texts, but at: $cases parts_that_dont_fit"
says "by_another_law: NOT REFUSED at $cases also_fit, but at: $cases parts_that_fit"
says 'no_definition: IT IS NO DEFINITION: span_place is refused itself'
says 'not_there: an old text does not stand in its file just once'
says 'twice_there: an old text does not stand in its file just once'
says 'nameless: it does not name one law, with its file'
says 'no_file: it does not name one law, with its file'
says "the_empty_part_in_the_literals: refused at $cases parts_that_dont_fit"
fresh
change "$edits/the_empty_part_in_the_literals.edit" '/^for: /d'
fails 'a definition of the page that no edit changes' 'values: NO EDIT CHANGES text_place, which docs/MEANING.md names' tests/wrong_definitions.sh values
change docs/MEANING.md '/text_place/d'
fails 'a definition that quotes, and no edit changes it' 'values: NO EDIT CHANGES text_place, whose comment quotes document 01' tests/wrong_definitions.sh values
fresh
change crates/values/$cases 's/\(3, 41\) ∷ \(5, 9\)/(3, 41) ∷ (5, 8)/'
fails 'a law that is not proved as it stands' 'values: without its functions and without any edit it is not proved' tests/wrong_definitions.sh values
fresh
rm "$edits"/*.edit
fails 'a crate without a wrong definition' 'values: there is no wrong definition' tests/wrong_definitions.sh values
fresh
mv "$edits"/*.edit crates/form/must-fail
fails 'wrong definitions of a crate that is not looked at' 'it does not look at form' tests/wrong_definitions.sh values
