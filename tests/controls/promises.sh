# shellcheck shell=bash disable=SC2016
page=docs/PROMISES.md
unpromised='more has a `requires`, or no `ensures`'

added() { # CONTRACT: a public function more, named on the page
    copy crates docs
    printf '\n`values::numbers::more`\n' >>"$page"
    printf '\npub fn more(x: u8) -> u8%s{\n    x\n}\n' "$1" >>crates/values/src/numbers.rt
}

copy crates docs
passes 'promises as they are' tests/promises.sh
added ' '
fails 'a public function without a contract' "$unpromised" tests/promises.sh
added $'\n    requires { ⌜ x ≡ 1 ⌝ }\n    ensures { λ r. ⌜ r ≡ x ⌝ }\n'
fails 'a public function with a requires' "$unpromised" tests/promises.sh
added $'\n    ensures { λ _. ⊤ₛ }\n'
fails 'a public function whose ensures says nothing' "$unpromised" tests/promises.sh
added $'\n    ensures { λ r. ⌜ r ≡ x ⌝ }\n'
passes 'a public function with a contract' tests/promises.sh
change "$page" '/values::numbers::more/d'
fails 'a public function that the page leaves out' 'values::numbers::more is missing' tests/promises.sh
copy crates docs
forms=('pub const fn more(x: u8) -> u8 {' 'pub unsafe fn more(x: u8) -> u8 {' 'pub use more::more;' 'pub /* more */ fn more(x: u8) -> u8 {' 'mod more {')
printf '%s\n' "${forms[@]}" >>crates/values/src/numbers.rt
fails 'public functions in other forms' "can't be read" tests/promises.sh
tests/promises.sh >said || true
for form in "${forms[@]}"; do passes "told in this form, $form" grep -qF ":$form" said; done
copy crates docs
change "$page" 's/`runs::bench`/`runs::benches`/'
fails 'a function that is not there' 'runs::benches is no public function' tests/promises.sh
copy crates docs
printf '\nimpl From<Stage> for Other {\n    ghost from_gives = { λ stage other. other ≡ other_of stage };\n}\n' >>crates/stages/src/lib.rt
fails 'a conversion that the page leaves out' 'Other::from is missing' tests/promises.sh
copy crates docs
change crates/stages/src/lib.rt '/ghost from_gives/d'
fails 'a conversion that says nothing' 'Stage::from has no `from_gives`' tests/promises.sh
copy crates docs
change "$page" 's/`Kind::from`/`Kinds::from`/'
fails 'a conversion that is not there' 'Kinds::from is no conversion' tests/promises.sh
copy crates docs
forms=('impl TryFrom<u16> for Stage {' 'impl From<Stage> for u16 {' 'impl<T> From<T> for Stage {')
printf '%s\n' "${forms[@]}" >>crates/stages/src/lib.rt
tests/promises.sh >said || true
for form in "${forms[@]}"; do passes "told, an impl in a public module, $form" grep -qF ":$form" said; done
copy crates docs
rm crates/runs/must-fail/does_nothing.edit
fails 'an edit that is not there' 'runs/does_nothing.edit is not there' tests/promises.sh
copy crates docs
cp crates/runs/must-fail/does_nothing.edit crates/runs/must-fail/does_more.edit
fails 'an edit that the page leaves out' 'runs/does_more.edit is not named' tests/promises.sh
copy crates docs
cp crates/text/must-fail/half_a_pair_is_read.edit crates/text/must-fail/a_pair_is_half.edit
fails 'a wrong definition that the page leaves out' 'text/a_pair_is_half.edit is not named' tests/promises.sh
copy crates docs
change "$page" 's|`grammar/specs/Answer.answer`|`grammar/specs/Answer.answers`|'
fails 'a definition that is not there' 'answers is not in crates/grammar/specs/Answer.antt' tests/promises.sh
copy crates docs
rm -rf crates/*
fails 'no crate' 'lib.rt' tests/promises.sh
