#!/usr/bin/env bash
# prove.sh NAME CRATE WORDS..: runs rt WORDS.. (check, lib or run) in the crate's folder, what it says into target/log/NAME. The first time this takes minutes: so a line on
# standard error says what is done and how long it usually takes, and a line comes as each crate is proved that was not proved before. Where READER_QUIET is set there is neither.
# On failure the last 20 lines of what rt said, but for its counts of libraries, are on standard error, and the status is 2 where rt's was (the toolchain failed), else 1. An rt that says nothing of the crate
# has failed too.
set -euo pipefail
cd "$(dirname "$0")/.."
name=$1
crate=$2
shift 2
mkdir -p target/log
log=$PWD/target/log/$name

tell() { # TEXT
    [ -n "${READER_QUIET:-}" ] || echo "$1" >&2 || true
}

# Of the crates that the crate rests on, and itself, a line each: its name, and those that it rests on. All of them are to be proved.
rests() {
    awk -F: -v crate="$crate" '
        /^[a-z_0-9]+( staticlib)?:/ { name = $1; sub(/ .*/, "", name); sub(/#.*/, "", $2); rests[name] = $2 }
        function need(c, seen, parts, n, i) {
            if (!(c in rests) || (c in seen)) return
            seen[c] = 1
            n = split(rests[c], parts, " ")
            for (i = 1; i <= n; i++) need(parts[i], seen)
        }
        END {
            need(crate, all)
            for (c in all) {
                delete below
                need(c, below)
                line = c
                for (b in below) if (b != c) line = line " " b
                print line
            }
        }' crates.txt
}

# What rt says: all of it into the log, and of the crates that it proves now one line each. What a crate rests on is proved before it: rt passes over in silence what is
# unchanged since it was proved.
follow() {
    local line one below began=$SECONDS seconds checked=0 all=0
    local -A on=() proved=()
    while read -r one below; do on[$one]=$below; all=$((all + 1)); done < <(rests)
    one=
    while IFS= read -r line; do
        printf '%s\n' "$line"
        if [[ $line =~ ^crate\ ([a-z_0-9]+):\ modules\ loaded=[0-9]+\ checked=([0-9]+)$ ]]; then
            one=${BASH_REMATCH[1]} checked=${BASH_REMATCH[2]}
        elif [[ $line == logic=proved\ * && -n $one && -n ${on[$one]+there} ]]; then
            for below in $one ${on[$one]}; do proved[$below]=1; done
            seconds=$((SECONDS - began)) began=$SECONDS
            [ "$checked" = 0 ] || tell "proved: ${#proved[@]} of $all, $one ($seconds s)"
            one=
        fi
    done >"$log"
}

tell "proving and building the reader, rt $* in crates/$crate: the first time this usually takes about 7 minutes on two processors, less where most is proved already; what rt says is in target/log/$name"
# the console program reads an input of its own, should it be run
input=/dev/null
[ "$*" != run ] || [ ! -f "crates/$crate/stdin" ] || input=$PWD/crates/$crate/stdin
status=0
(cd "crates/$crate" && rt "$@") <"$input" 2>&1 | follow || status=${PIPESTATUS[0]}
# a program that was built and started has a status of its own
! grep -q "^rt: running out/$crate;" "$log" || status=0
if [ "$status" = 0 ]; then
    if awk -v crate="crate $crate: modules " 'index($0, crate) == 1 { here = 1 } here && /^logic=proved / || /^rt: nothing has changed since the last proved build, / { told = 1 } END { exit !told }' "$log"; then exit; fi
    echo "rt $* says nothing of $crate" >&2
fi
grep -vE '^(statements|logic|library) |^rt: note: must-fail/' "$log" | tail -n 20 >&2 || true
[ "$status" != 2 ] || exit 2
exit 1
