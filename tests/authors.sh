#!/usr/bin/env bash
# authors.sh [PAGE]: tries every table of docs/AUTHORS.md (or of PAGE) with the console program. Tables stand in fenced blocks, and the words behind a fence say what is tried:
#   console         a console input; the next block is its answer
#   answer          what the console prints for it, byte for byte
#   listing NAME    a listing that passes the type check; NAME is for later blocks
#   tried [NAME]    what is tried with the listing NAME, or with the last one; a line is one of:
#       MODE BUDGET MESSAGE  answer=..    a run and what the console prints, its lines in one and absent values left out; MESSAGE is "text" or N times "text"
#       line N: TEXT                      the listing with this line instead; several such lines, one under the other, go together
#       line N: TEXT  VERDICT             the same, and what ./check prints for it: 'passed', or as '5 TYPE, place 0'; runs below are of this table
# A verdict is tried by a display run with budget 0 and no message, which is BUDGET at once for a table that passes; the place of LINE counts from the listing's first line. One line a
# block; exit 1 at the first that isn't as said, and where a fence has other words, a block is empty or not closed, an answer, a verdict or a table is missing, a change changes
# nothing, or there is no block at all.
# READER_CONSOLE is the command that starts the program, a word a line; without it, tests/console_command.sh tells.
set -euo pipefail
page=$(realpath "${1:-$(dirname "$0")/../docs/AUTHORS.md}")
cd "$(dirname "$0")/.."
room=$(mktemp -d)
trap 'rm -rf "$room"' EXIT
if [ -z "${READER_CONSOLE:-}" ]; then READER_CONSOLE=$(tests/console_command.sh); fi
mapfile -t program <<<"$READER_CONSOLE"
at=$(basename "$page")

wrong() { # TEXT..
    echo "authors, $at: $*"
    exit 1
}

[ -f "$page" ] || wrong 'no such page'

# Each block into a file of its own, named by the line of its fence; the fences into the file fences: line, words.
take_out() {
    : >"$room/fences"
    awk -v room="$room" '
        !inside && /^```/ { inside = NR; file = room "/" NR; printf "" >file; print NR, substr($0, 4) >(room "/fences"); next }
        inside && /^```$/ { close(file); inside = 0; next }
        inside { print >file }
        END { if (inside) { print "line " inside ": not closed"; exit 1 } }' "$page" >"$room/told" || wrong "$(cat "$room/told")"
    [ -s "$room/fences" ] || wrong 'no block'
}

# What the program prints for standard input, into the file answer.
ask() {
    "${program[@]}" >"$room/answer" || wrong "the program ended with $?"
}

# What was printed last, in one line, without absent values.
in_one_line() {
    paste -sd ' ' "$room/answer" | sed -E 's/( value=0)+( |$)/\2/g'
}

bytes_in_hex() { # MESSAGE
    local times=1 text=${1#*\"}
    case $1 in *' times '*) times=${1%% *} ;; esac
    text=$(printf '%s' "${text%\"}" | od -An -v -tx1 | tr -d ' \n')
    awk -v text="$text" -v times="$times" 'BEGIN { while (times-- > 0) printf "%s", text }'
}

# The table at hand is $room/table.
judge() { # VERDICT
    local said number name place
    { printf 'mode=display\nbudget=0\nmessage=\n'; cat "$room/table"; } | ask
    said=$(in_one_line)
    if [ "$1" = passed ]; then
        [[ $said =~ ^answer=9\ place=[0-9]+\ consumed=0\ visits=0$ ]] || wrong "it doesn't pass: $said"
        return
    fi
    read -r number name _ place <<<"$1"
    case "$number $name" in
    '2 FIELD,' | '3 USE,' | '4 START,' | '5 TYPE,') ;;
    '20 LINE,') place=$((place + 3)) ;;
    *) wrong "no such verdict: $1" ;;
    esac
    [ "$said" = "answer=$number place=$place consumed=0 visits=0" ] || wrong "not $1: $said"
}

run_table() { # MODE BUDGET MESSAGE EXPECTED
    { printf 'mode=%s\nbudget=%s\nmessage=%s\n' "$1" "$2" "$(bytes_in_hex "$3")"; cat "$room/table"; } | ask
    [ "$(in_one_line)" = "$4" ] || wrong "$1 $2 $3: not as said: $(in_one_line)"
}

change_line() { # NUMBER TEXT
    awk -v number="$1" -v text="$2" 'NR == number { changed = $0 != text; $0 = text } { print } END { exit !changed }' "$room/table" >"$room/new" ||
        wrong "it changes nothing: line $1: $2"
    mv "$room/new" "$room/table"
}

try_lines() { # FILE LISTING
    local line number text verdict pending=''
    local run='^(bench|display) ([0-9]+) (([0-9]+ times )?"[^"]*") +(answer=.*)$'
    local judged='^line ([0-9]+): (.*[^ ])  +(passed|[0-9]+ [A-Z]+, place [0-9]+)$'
    cp "$2" "$room/table"
    while IFS= read -r line; do
        if [[ $line =~ $run ]]; then
            [ -z "$pending" ] || wrong "no verdict: $pending"
            run_table "${BASH_REMATCH[1]}" "${BASH_REMATCH[2]}" "${BASH_REMATCH[3]}" "${BASH_REMATCH[5]}"
        elif [[ $line =~ ^line\ ([0-9]+):\ (.*)$ ]]; then
            [ -n "$pending" ] || cp "$2" "$room/table"
            number=${BASH_REMATCH[1]} text=${BASH_REMATCH[2]} verdict=''
            if [[ $line =~ $judged ]]; then text=${BASH_REMATCH[2]} verdict=${BASH_REMATCH[3]}; fi
            change_line "$number" "$text"
            pending=$line
            if [ -n "$verdict" ]; then
                judge "$verdict"
                pending=''
            fi
        else
            wrong "neither a run nor a changed line: $line"
        fi
    done <"$1"
    [ -z "$pending" ] || wrong "no verdict: $pending"
}

try_block() { # FILE WORDS
    case $2 in
    console) ask <"$1" ;;
    answer) cmp -s "$1" "$room/answer" || { diff "$1" "$room/answer" || true; wrong 'not this answer'; } ;;
    'listing '[a-z]*)
        last="$room/${2#listing }.listing"
        [ ! -f "$last" ] || wrong "a second listing of this name: ${2#listing }"
        cp "$1" "$last"
        cp "$1" "$room/table"
        judge passed
        ;;
    tried) try_lines "$1" "$last" ;;
    'tried '[a-z]*)
        [ -f "$room/${2#tried }.listing" ] || wrong "no listing before it: ${2#tried }"
        try_lines "$1" "$room/${2#tried }.listing"
        ;;
    *) wrong "unknown fence: $2" ;;
    esac
}

take_out
blocks=0
before=none
last=''
while read -r line words; do
    at="$(basename "$page"), line $line"
    [ -s "$room/$line" ] || wrong 'an empty block'
    [ "$before" != console ] || [ "$words" = answer ] || wrong 'a console input without an answer before it'
    [ "$words" != answer ] || [ "$before" = console ] || wrong 'an answer without a console input'
    [ "$words" != tried ] || [ -n "$last" ] || wrong 'no listing before it'
    try_block "$room/$line" "$words"
    echo "authors, $at, $words: as said"
    before=$words
    blocks=$((blocks + 1))
done <"$room/fences"
[ "$before" != console ] || wrong 'a console input without an answer'
echo "authors: $blocks blocks, all as said"
