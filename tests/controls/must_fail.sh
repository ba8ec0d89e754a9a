# shellcheck shell=bash
# One crate, the smallest that has both a proof in a file and proofs that rattle makes.
edits=crates/stages/must-fail
copy crates crates.txt examples/case-a
for crate in crates/*; do ln -s "$top/$crate/out" "$crate/out"; done
find crates -path '*/must-*/*.edit' ! -path crates/stages/must-pass/control.edit ! -path "$edits/visits_forgotten.edit" -delete

edit() { # NAME LINES..
    local name=$1
    shift
    printf '%s\n' "$@" >"$edits/$name.edit"
}

edit hollow 'refused: Run::stay' 'file: src/lib.rt' 'old:         Run { stage, ..self }' 'new:         Run { stage,  ..self }'
edit names_a_caller 'refused: Run::stay' 'file: src/lib.rt' 'old:             ..self' 'new:             visits: 7,'
edit no_control 'control: Run::move_to' 'file: src/lib.rt' 'old:             ..self' 'new:             visits: 7,'
edit nameless 'file: src/lib.rt' 'old:             ..self' 'new:             visits: 7,'
edit not_there 'refused: Run::stay' 'file: src/lib.rt' 'old: not there' 'new: there'
edit another_shape 'refused: StageFromEnded::from' 'file: src/lib.rt' 'old:             Ending::Deep => Stage::Deep(k),' \
    'new:             Ending::Deep => if k == 0 { Stage::Deep(k) } else { Stage::Stuck(k) },'
edit not_told 'shape: changes' 'told by: examples/case-a/case-a.console' 'refused: StageFromEnded::from' 'file: src/lib.rt' \
    'old:             Ending::Deep => Stage::Deep(k),' 'new:             Ending::Deep => if k == 0 { Stage::Deep(k) } else { Stage::Stuck(k) },'
edit not_lost 'renames: at to' 'refused: Run::move_to' 'file: src/lib.rt' 'old:             ..self' 'new:             visits: 8,'
tests/must_fail.sh >said 2>&1 && ended=0 || ended=1

says() { # LINE: the script has said so
    passes "wrong programs, $1" grep -qF "stages/$1" said
}

passes 'wrong programs that are none' test "$ended" = 1
says 'hollow: NOT REFUSED at Run::stay'
says 'names_a_caller: it changes move_to and not stay alone'
says 'no_control: a control, and it changes more than white space'
says 'nameless: it does not name one function'
says 'not_there: an old text does not stand in its file just once'
says 'another_shape: REFUSED FOR ITS SHAPE ALONE'
says 'not_lost: its names are not those that the proof of Run::move_to has lost'
says 'not_told: NOT TOLD by examples/case-a/case-a.console: as stored'
says 'visits_forgotten: refused at Run::move_to, returns'
says 'control: not refused, as a control must be'
rm "$edits"/[!v]*.edit crates/stages/must-pass/*.edit
fails 'wrong programs without a control' 'stages: there is no control' tests/must_fail.sh stages
rm "$edits"/*.edit
fails 'no wrong program' 'there is no wrong program' tests/must_fail.sh
copy crates crates.txt
fails 'wrong programs of a crate that no check has kept' 'stages: no check has kept anything of it' tests/must_fail.sh stages
