#!/usr/bin/env bash
# large.sh FOLDER: writes the large inputs of the console's tests, and what must come back, into FOLDER. Document 01: "INPUT: console input over 65,536 bytes";
# "Head values keep SIZE's ranges, else LINE"; the greatest table and the greatest literals have room.
set -euo pipefail
cd "$1"

# repeated COUNT TEXT
repeated() { printf "%$1s" '' | sed "s/ /$2/g"; }

# answer NAME NUMBER PLACE CONSUMED VISITS [VALUE]: only the first value can be present
answer() {
    printf 'answer=%s\nplace=%s\nconsumed=%s\nvisits=%s\nvalue=%s\nvalue=0\nvalue=0\nvalue=0\n' "$2" "$3" "$4" "$5" "${6:-0}" >"$1.answer"
}

# size NAME BYTES: the input is as long as it has to be
size() { [ "$(wc -c <"$1.console")" -eq "$2" ] || { echo "large.sh: $1 isn't $2 bytes" >&2; exit 1; }; }

# ones DIGITS BUDGET: x = '1'*, returning x, on a message of DIGITS hex digits
ones() {
    printf 'mode=display\nbudget=%s\nmessage=%s\nrules=1\nnodes=4\nliterals=\n' "$2" "$(repeated $(($1 / 2)) 31)"
    printf 'rule=2 0 0 0 0 0 1 3 0 0 0 3 0 0 0\nnode=2 49 0 0 0 0 0 0 0 0\nnode=5 0 0 0 0 0 0 0 0 0\nnode=8 0 1 0 0 0 0 0 0 0\nnode=19 0 0 0 0 0 0 0 0 0\n'
}

# Without budget and message the lines are 193 bytes: with a budget of five digits, 65,338 hex digits fill the input to 65,536 bytes. Visits: the bind, the repeat,
# 32,669 full rounds and the one that fails.
ones 65338 99999 >input-65536-bytes.console
size input-65536-bytes 65536
answer input-65536-bytes 0 0 32669 32672 "3 $(repeated 32669 31)"

ones 65338 999999 >input-65537-bytes.console
size input-65537-bytes 65537
echo answer=23 >input-65537-bytes.answer

{ cat input-65536-bytes.console; echo; } >input-65537-bytes-the-first-65536-right.console
echo answer=23 >input-65537-bytes-the-first-65536-right.answer

head -c 65536 /dev/zero >input-65536-bytes-0.console
answer input-65536-bytes-0 20 1 0 0
head -c 65537 /dev/zero >input-65537-bytes-0.console
echo answer=23 >input-65537-bytes-0.answer
repeated 65536 '\n' >input-65536-bytes-10.console
answer input-65536-bytes-10 20 1 0 0
head -c 1000000 /dev/zero >input-1000000-bytes.console
echo answer=23 >input-1000000-bytes.answer

# literals COUNT: empty, returning all the literals
literals() {
    printf 'mode=bench\nbudget=1\nmessage=\nrules=1\nnodes=2\nliterals=%s\n' "$(repeated "$1" 61)"
    printf 'rule=0 0 0 0 0 0 1 1 0 0 0 3 0 0 0\nnode=1 0 0 0 0 0 0 0 0 0\nnode=18 0 %s 0 0 0 0 0 0 0\n' "$1"
}
literals 4096 >literals-4096.console
answer literals-4096 0 0 0 1 "3 $(repeated 4096 61)"
literals 4097 >literals-4097.console
answer literals-4097 20 6 0 0

# greatest RULES NODES: every rule but the last is one empty node; the last is a tower of nots over the rest. Rule 0 is run.
greatest() {
    printf 'mode=display\nbudget=1\nmessage=\nrules=%s\nnodes=%s\nliterals=\n' "$1" "$2"
    for rule in $(seq 0 $(($1 - 2))) $(($2 - 1)); do echo "rule=$rule 0 0 0 0 0 0 0 0 0 0 0 0 0 0"; done
    for node in $(seq 0 $(($1 - 1))); do echo 'node=1 0 0 0 0 0 0 0 0 0'; done
    for node in $(seq "$1" $(($2 - 1))); do echo "node=6 $((node - 1)) 0 0 0 0 0 0 0 0"; done
}
greatest 64 1024 >greatest-table.console
answer greatest-table 0 0 0 1
greatest 65 1024 >rules-65.console
answer rules-65 20 4 0 0
greatest 64 1025 >nodes-1025.console
answer nodes-1025 20 5 0 0
