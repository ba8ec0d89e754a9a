# shellcheck shell=bash disable=SC2016,SC2154
page=docs/MEANING.md

fresh() {
    copy README.md crates docs examples tests/console tests/tests tests/vectors
}

# The page names something else, in the copy that there is.
renamed() { # NAME TEXT SED-COMMAND
    cp "$top/$page" "$page"
    change "$page" "$3"
    fails "meaning, $1" "$2" tests/meaning.sh
}

fresh
passes 'meaning as it is' tests/meaning.sh
renamed 'a definition that is not there' 'sizesOk is not in crates/grammar/specs/Form' 's/`size_ok`/`sizesOk`/'
renamed 'a definition in another file' 'size_ok is not in crates/grammar/specs/Types' 's/Form: `size_ok`/Types: `size_ok`/'
renamed 'a definition of another crate' 'read_rest is not in crates/text/specs/Found' 's/crate listing, Reading: `read_rest`/crate text, Found: `read_rest`/'
renamed 'a definition in the file of its column' 'rounded is not in crates/grammar/specs/Run' 's/\| `rounds` \|/| `rounded` |/'
renamed 'a file of definitions that is not there' 'crates/grammar/specs/Forms.antt is not there' 's/Form: `start_check`/Forms: `start_check`/'
renamed 'a law that is not there' 'ran-to is not in crates/machine/proofs/Entry' 's/`ran_is`/`ran-to`/'
renamed 'a fact of a proof that is not there' 'records-held is not in crates/form/proofs/fields/first_bad' 's/`records-init`/`records-held`/'
renamed 'a function that is not there' 'steps is not in crates/machine/src' 's/machine `step`/machine `steps`/'
renamed 'a function of another crate' 'limits is not in crates/form/src' 's/runs `limits`/form `limits`/'
renamed 'a function without a file that the head leaves out' 'crates/listing/proofs/read is not there' 's/; listing `read`, `fill_words`; console_text/; listing `fill_words`; console_text/'
renamed 'a function with a file that the head has among those without' 'crates/table/proofs/sizes/size_ok is there' 's/(No file.*: table )/\1`size_ok`, /'
renamed 'a wrong definition that is not there' 'crates/grammar/must-fail/not_restores.edit is not there' 's/`not_restores_slots`/`not_restores`/'
renamed 'a wrong program that is not there' 'crates/runs/must-fail/does_more.edit is not there' 's/`does_nothing`/`does_more`/'
renamed 'a group that is not there' 'table has no group and no case "2 FIELDS"' 's/"2 FIELD"/"2 FIELDS"/'
renamed 'a sentence without a group' 'typing has no group "Constraints: Bool"' 's/^\| Constraint: Bool/| Constraints: Bool/'
renamed 'a console input that is not there' 'tests/console/line-99-*.console is not there' 's/`line-11-\*`/`line-99-*`/'
renamed 'a file that is not there' 'examples/destinations is not there' 's|`examples/destination`|`examples/destinations`|'
renamed 'a test that is not there' 'the_most_nodes is not in tests/tests/bench_cases.rs' 's/`the_most_rules`/`the_most_nodes`/'
renamed 'a name in no form' 'size_ok stands in none of the forms' 's/Form: `size_ok`/`size_ok`/'
renamed 'a file to believe with other lines' 'crates/grammar/specs/Run.antt: 184 lines, not 183' '/Run.antt` \|/s/184/183/'
renamed 'a file to believe that is not there' 'crates/grammar/specs/Runs.antt' 's,(crates/grammar/specs/Run)[.]antt`,\1s.antt`,'
renamed 'no table' 'nothing of this kind was found' '/^\|/d'
renamed 'empty' 'nothing of this kind was found' d

# What it names has moved.
fresh
mv crates/form/proofs/fields/first_bad crates/form/proofs/first_bad
fails 'meaning, a proof in another folder' 'crates/form/proofs/fields/first_bad is not there' tests/meaning.sh
fresh
change tests/vectors/runs.cases 's/^both M: /both MM: /'
fails 'meaning, a bench case that is not there' 'runs has no case M' tests/meaning.sh
fresh
cp crates/machine/src/steps.rt crates/machine/src/more.rt
fails 'meaning, a function in two files' 'drive is in more than one file' tests/meaning.sh
fresh
change docs/DECISIONS.md 's/"LONG before WORK"/"LONG after WORK"/'
fails 'meaning, a reading that nothing tries so' 'docs/DECISIONS.md' tests/meaning.sh
fresh
change README.md '/^\| `crates/d'
fails 'meaning, a page that says nothing of what to believe' 'README.md: no files that must be believed were found' tests/meaning.sh
fresh
rm -rf crates/*
fails 'meaning, no crate' 'nothing of this kind was found' tests/meaning.sh
