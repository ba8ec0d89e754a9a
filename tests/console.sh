#!/usr/bin/env bash
# console.sh [FOLDER..]: runs the console program on every input of the folders (tests/console, the large ones that tests/console/large.sh makes, and examples/*) and
# compares what it prints with the stored answer, byte for byte. One line an input; exit 1 at the first difference, and where an input or an answer is missing or empty.
# READER_CONSOLE is the command that starts the program, a word a line; without it, tests/console_command.sh tells.
set -euo pipefail
cd "$(dirname "$0")/.."
room=$(mktemp -d)
trap 'rm -rf "$room"' EXIT
if [ -z "${READER_CONSOLE:-}" ]; then READER_CONSOLE=$(tests/console_command.sh); fi
mapfile -t program <<<"$READER_CONSOLE"

# An answer without its input would never be looked at.
complete() { # FOLDER
    local input answer
    for input in "$1"/*.console; do
        [ -f "$input" ] || { echo "console, $1: no input"; exit 1; }
        [ -s "${input%.console}.answer" ] || { echo "console, $input: no stored answer"; exit 1; }
    done
    for answer in "$1"/*.answer; do
        [ -f "${answer%.answer}.console" ] || { echo "console, $answer: no input"; exit 1; }
    done
}

# What was printed last is the stored answer.
compare() { # NAME STORED
    if ! cmp -s "$room/answer" "$2"; then
        echo "console, $1: not the stored answer"
        diff "$2" "$room/answer" | cut -c 1-200 || true
        exit 1
    fi
    echo "console, $1: as stored"
}

all_of() { # FOLDER
    local input name
    complete "$1"
    for input in "$1"/*.console; do
        name=${1##*/}/$(basename "$input" .console)
        "${program[@]}" <"$input" >"$room/answer" || { echo "console, $name: ended with $?"; exit 1; }
        compare "$name" "${input%.console}.answer"
    done
}

if [ $# -gt 0 ]; then
    for folder in "$@"; do all_of "$folder"; done
    exit
fi
mkdir "$room/large"
tests/console/large.sh "$room/large"
for folder in tests/console "$room/large" examples/*/; do
    # programs, which tests/firmware.sh tries
    [ "$folder" = examples/firmware/ ] || all_of "${folder%/}"
done

# README's command, with a file and with standard input.
./run examples/floor-direction-name/up.console >"$room/answer"
compare './run FILE' examples/floor-direction-name/up.answer
./run <examples/floor-direction-name/up.console >"$room/answer"
compare './run' examples/floor-direction-name/up.answer

# Standard input may come in pieces: here the second after a pause.
for input in tests/console/done-display.console "$room"/large/input-65536-bytes.console "$room"/large/input-65537-bytes.console; do
    { head -c 30 "$input"; sleep 0.2; tail -c +31 "$input"; } | "${program[@]}" >"$room/answer"
    compare "$(basename "$input" .console), in two pieces" "${input%.console}.answer"
done

# An answer that can't be written is no success: the program says so on standard error, and ends with 1.
for lost in '>/dev/full' '>&-'; do
    eval "\"\${program[@]}\" <tests/console/done-display.console $lost" 2>"$room/said" || true
    grep -qx 'console: the answer could not be written' "$room/said" || { echo "console, standard output lost ($lost): not told"; exit 1; }
    echo "console, standard output lost ($lost): told"
done
