#!/usr/bin/env bash
# figures.sh [LOG]: prints docs/FIGURES.md. What can be counted is counted; the seconds and the number of controls are taken from the log of a run of ./test, if one is given
# (`time ./test 2>&1 | tee LOG`: tests/must_fail.sh and tests/wrong_definitions.sh tell how long each crate took, and `real` is the whole).
set -euo pipefail
if [ -n "${1:-}" ]; then log=$(realpath "$1"); else log=/dev/null; fi
cd "$(dirname "$0")/.."

# Lines that are neither blank nor a comment.
lines() { # FILE..
    [ $# -gt 0 ] || { echo 0; return; }
    cat "$@" | grep -cvE '^ *($|//|--( |$))' || true
}

# Of Rattle: what only the prover reads, contracts and the names they use.
contract_lines() { # FILE..
    awk '
        /^ *ghost use .*\{$/ { inside = 1 }
        inside || /^ *(ghost use|requires|ensures) / { n++ }
        inside && /\};/ { inside = 0 }
        END { print n + 0 }' "$@"
}

files() { # FOLDER PATTERN
    [ ! -d "$1" ] || find "$1" -type f -name "$2" | sort
}

# A control is no wrong program.
edits() { # FOLDER: those that change code
    files "$1" '*.edit' | xargs -r grep -lE '^file: src/' | grep -c . || true
}

edits_of_code() {
    files crates '*.edit' | grep /must-fail/ | xargs -r grep -lE '^file: src/' | grep -c . || true
}

ratio() { # A B
    awk -v a="$1" -v b="$2" 'BEGIN { if (b) printf "%.1f", a / b; else printf "–" }'
}

crates=$(sed -nE 's/^([a-z_0-9]+)( staticlib)?:.*/\1/p' crates.txt)

by_crate() {
    echo '| crate | code | contracts | specs | proofs | proof lines a code line | wrong programs |'
    echo '|---|--:|--:|--:|--:|--:|--:|'
    local crate code contracts specs proofs wrong
    local all_code=0 all_contracts=0 all_specs=0 all_proofs=0 all_wrong=0
    for crate in $crates; do
        # shellcheck disable=SC2046
        contracts=$(contract_lines $(files "crates/$crate/src" '*.rt'))
        # shellcheck disable=SC2046
        code=$(($(lines $(files "crates/$crate/src" '*.rt')) - contracts))
        # shellcheck disable=SC2046
        specs=$(lines $(files "crates/$crate/specs" '*.antt'))
        # shellcheck disable=SC2046
        proofs=$(lines $(files "crates/$crate/proofs" '*.antt'))
        wrong=$(edits "crates/$crate/must-fail")
        echo "| $crate | $code | $contracts | $specs | $proofs | $(ratio "$proofs" "$code") | $wrong |"
        all_code=$((all_code + code)) all_contracts=$((all_contracts + contracts)) all_specs=$((all_specs + specs)) all_proofs=$((all_proofs + proofs))
        all_wrong=$((all_wrong + wrong))
    done
    echo "| all | $all_code | $all_contracts | $all_specs | $all_proofs | $(ratio "$all_proofs" "$all_code") | $all_wrong |"
}

nonzero() { # NUMBER
    if [ "$1" = 0 ]; then echo '–'; else echo "$1"; fi
}

# A line of a stored file with bars has an answer for each value that was tried.
answers() { # FILE..
    grep -hvE '^(#|$)' "$@" | awk '{ n += gsub(/ \| /, " | ") + 1 } END { print n + 0 }'
}

default_count() { # FILE PATTERN: the number in a line of Rust
    [ ! -f "$1" ] || sed -nE "s/.*$2.*/\1/p" "$1" | tr -d _ | head -n 1
}

logged() { # PATTERN: the number in a line of the log
    sed -nE "s/$1/\\1/p" "$log" | tail -n 1 | grep . || echo '–'
}

# Of the kit's libraries, by what rt ci has said of the program (nothing, where it took it as proved).
assumed() {
    awk '
        /^== / { inside = $2 == "console" }
        inside && match($0, /^axioms [a-z_]+: .*\([0-9]+ of the /) {
            count = $0; sub(/ of the .*/, "", count); sub(/.*\(/, "", count)
            library = $2; sub(/:.*/, "", library)
            if ($3 != "none") said = said (said ? ", " : "") count " of " library
        }
        END { print said ? said : "–" }' "$log"
}

tried() {
    local random shipped consoles
    shipped=$(default_count tests/src/bin/shipped_comparison.rs 'asked\(0, ([0-9_]+)\)')
    random=$(default_count tests/src/bin/library_comparison.rs 'asked\(0, ([0-9_]+)\)')
    consoles=$(default_count tests/src/compare/consoles.rs 'FEW: u64 = ([0-9_]+)')
    echo '| what | how many |'
    echo '|---|--:|'
    echo "| functions, each proved | $(grep -hcE '^ *(pub |pub\(crate\) )?(extern "C" )?fn ' crates/*/src/*.rt | awk '{ n += $1 } END { print n }') |"
    echo "| public functions of libraries (docs/PROMISES.md) | $(tests/promises.sh --list | wc -l) |"
    echo "| axioms in our files | $(find crates -path 'crates/*/out' -prune -o \( -name '*.antt' -o -name '*.rt' \) -print | xargs cat | grep -cE '^ *axiom |Prim\.Axiom' || true) |"
    echo "| C functions of the kit whose contracts the program \`console\` assumes | $(assumed) |"
    echo "| wrong definitions, each refused | $(($(edits crates) - $(edits_of_code))) |"
    echo "| wrong programs, each refused | $(edits_of_code) |"
    echo "| controls, each failing or passing as it must: a crate's edit of white space; the gate's scripts | $(files crates control.edit | wc -l); $(nonzero "$(grep -cE '^control, .*, as it must$' "$log" || true)") |"
    echo "| bench cases A to O with their variants, proved about the written meaning | $(grep -cE '^ *(∷ )?record \{ mode = ' crates/grammar/proofs/Bench.antt) |"
    local vectors
    for vectors in table typing runs listing; do
        [ ! -f "tests/vectors/$vectors.stored" ] || echo "| vectors \`$vectors\`: stored answers | $(answers "tests/vectors/$vectors.stored") |"
    done
    echo "| console inputs with a stored answer | $(files tests/console '*.console' | wc -l) |"
    echo "| examples with a stored answer | $(files examples '*.console' | wc -l) |"
    echo "| tests of the independent implementation | $(grep -rh --include='*.rs' '#\[test\]' tests/src tests/tests | wc -l) |"
    echo "| random cases, compared through the library | ${random:-–} |"
    echo "| random cases, compared through the shipped archive, called from C | ${shipped:-–} |"
    echo "| kinds tried as a node's first word | 65536 |"
    echo "| random inputs, compared through the console program | ${consoles:-–} |"
    echo "| deep tables and random trees, through each exported function on 24 KB of stack; through the console program | $(logged '^([0-9]+) tables, [0-9]+ trials on 24576 .*'); $(logged '^([0-9]+) deep tables through the console program.*') |"
}

gate() {
    local whole verdict wrong definitions
    whole=$(sed -nE 's/^real[[:space:]]+([0-9]+)m([0-9]+).*/\1 min \2 s/p' "$log" | tail -n 1)
    verdict=$(grep -E '^[0-9]+ passed, [0-9]+ failed' "$log" | tail -n 1 || true)
    wrong=$(awk -F '[: ]+' 'NF == 3 && $2 ~ /^[0-9]+$/ && $3 == "s" { n += $2 } END { print n + 0 }' "$log")
    definitions=$(sed -nE 's/^[a-z_0-9]+: [0-9]+ wrong definitions, ([0-9]+) s$/\1/p' "$log" | awk '{ n += $1 } END { print n + 0 }')
    echo '| what | |'
    echo '|---|--:|'
    echo "| wrong programs, one crate after the other | $(nonzero "$wrong") s |"
    echo "| wrong definitions that rt ci does not try itself, one crate after the other | $(nonzero "$definitions") s |"
    echo "| the whole of ./test | ${whole:-–} |"
    echo "| rt ci | ${verdict:-–} |"
}

cat <<'END'
# Figures

Printed by `docs/figures.sh LOG >docs/FIGURES.md`, where LOG is what `time ./test 2>&1 | tee LOG` left. Without a log the seconds and the controls are left out.

## By crate

Lines that are neither blank nor a comment. *Code* is what the compiler reads of a crate; *contracts* what only the prover reads of it (`ensures`, `requires`, `ghost use`). *Specs* are
definitions, *proofs* the rest; those of `grammar` are about the written meaning itself, `laws` has its laws beside its definitions, and both have no function.

END
by_crate
printf '\n## What is tried\n\n'
tried
printf '\n## The gate\n\n'
gate
