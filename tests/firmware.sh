#!/usr/bin/env bash
# firmware.sh [PART..]: tries examples/firmware and ./array as a firmware engineer would. The parts, all of them if none is named:
# warnings: every C file compiles without a warning, by each of cc, gcc and clang that is there; header and array as C++11 too; the Rust file with warnings denied.
# console: display, in C and in Rust, on the table and message of every display input of examples/ and tests/console: what is printed is the stored answer in words.
# use: messages as files and of every length that matters, wrong use, files that can't be read, output that is lost, another version. With console: every number that display
# can come to is reached.
# rows: numbers and tags that no run gives and such as have no row, through the functions of display (tests/firmware/rows.c, rows.rs), also where an enum is one byte.
# array: ./array's arrays, written back by styrmflo_write, are the listing; what it refuses, and its exit statuses.
# readme: the commands of examples/firmware/README.md, 'At the desk', print what stands there.
# fitted: a table turned into C, compiled into fitted.c, gives the example's values. cross: the same for thumbv7em, run where an emulator of a Cortex-M4 is.
# C runs with the address and undefined-behaviour sanitizers where cc has them. READER_LIBRARY is the library (tests/library.sh).
set -euo pipefail
cd "$(dirname "$0")/.."
room=$(mktemp -d)
trap 'rm -rf "$room"' EXIT
library=${READER_LIBRARY:-$(tests/library.sh)}
parts=("$@")
[ $# -gt 0 ] || parts=(warnings console use rows array fitted cross readme)
strict=(-std=c99 -pedantic -Wall -Wextra -Wconversion -Werror)
rust=(rustc --edition 2021 -D warnings -L "$(dirname "$library")" -l static=styrmflo)
up=examples/floor-direction-name/up

wrong() { echo "firmware, $*"; exit 1; }

# The sanitizers, if cc has them. What they find ends a program with 99.
export ASAN_OPTIONS=exitcode=99:detect_leaks=0 UBSAN_OPTIONS=exitcode=99
sanitizers=(-g "-fsanitize=address,undefined" -fno-sanitize-recover=all)
echo 'int main(void) { return 0; }' >"$room/probe.c"
if ! { cc "${sanitizers[@]}" "$room/probe.c" -o "$room/probe" && "$room/probe"; } >/dev/null 2>&1; then
    sanitizers=()
    echo 'firmware: cc has no address and undefined-behaviour sanitizers here: C runs without them'
fi

# A C program with the library and every warning an error.
program() { # NAME FILE WORDS..
    local name=$1 file=$2
    shift 2
    cc "${strict[@]}" -O1 "${sanitizers[@]}" -I docs -I "$room" "$@" "$file" "$library" -o "$room/$name" >"$room/log" 2>&1 || { cat "$room/log"; wrong "$file: not compiled"; }
}

# Runs a program, which ends with 0; what it printed is in said.
run() { # NAME
    local came=0
    "$room/$1" >"$room/said" 2>"$room/told" || came=$?
    [ "$came" = 0 ] || { cat "$room/told"; wrong "$1: ended with $came"; }
}

rust_program() { # NAME FILE
    "${rust[@]}" "$2" -o "$room/$1" >"$room/log" 2>&1 || { cat "$room/log"; wrong "$2: not compiled"; }
}

# Display, in both languages.
programs() {
    [ ! -f "$room/display_c" ] || return 0
    program display_c examples/firmware/display.c
    rust_program display_rs examples/firmware/display.rs
}

# Runs both with these words: they end alike and print the same. Then status and the files said and told have what came.
both() {
    status=0
    "$room/display_c" "$@" >"$room/said" 2>"$room/told" || status=$?
    local other=0
    "$room/display_rs" "$@" >"$room/said_rs" 2>"$room/told_rs" || other=$?
    case $status:$other in [012]:[012]) ;; *) cat "$room/told" "$room/told_rs"; wrong "display $*: ended with $status in C, with $other in Rust" ;; esac
    if [ "$status" != "$other" ] || ! cmp -s "$room/said" "$room/said_rs" || ! cmp -s "$room/told" "$room/told_rs"; then
        diff "$room/said" "$room/said_rs" || true
        diff "$room/told" "$room/told_rs" || true
        wrong "display $*: C and Rust differ (ended with $status and $other)"
    fi
}

# What is said of a number: as rows.stored has it, with its own place.
words_of() { # NUMBER PLACE
    awk -v "number=$1" -v "place=$2" '/^\(/ { on = 0 } /^answer / { on = $2 == number } on { sub(/, place 7:/, ", place " place ":"); print }' tests/firmware/rows.stored
}

# A Text's bytes as display shows them.
shown() { # HEX
    local i c text=
    for ((i = 0; i < ${#1}; i += 2)); do
        c=$((16#${1:i:2}))
        if ((c >= 32 && c <= 126 && c != 34 && c != 92)); then printf -v c '%b' "\\x${1:i:2}"; else c="\\x${1:i:2}"; fi
        text+=$c
    done
    echo "$text"
}

# A stored value in words. Where a Text stands, its line in said tells: there its bytes must be.
value() { # I STORED
    local hex of from line
    case $2 in
        0) echo "value $1: absent" ;;
        '1 0') echo "value $1: Bool false" ;;
        '1 1') echo "value $1: Bool true" ;;
        2\ *) echo "value $1: Integer ${2#2 }" ;;
        *)
            hex=${2#3}
            hex=${hex# }
            line=$(grep "^value $1: Text " "$room/said" || true)
            from=${line##*from byte }
            of=${line%" from byte "*}
            of=${of##*", in the "}
            case $of$from in message[0-9]* | literals[0-9]*) ;; *) of=message from=0 ;; esac
            [ "${!of:2*from:${#hex}}" = "$hex" ] || echo "(value $1: not the bytes of the $of from byte $from)"
            echo "value $1: Text \"$(shown "$hex")\", in the $of from byte $from"
            ;;
    esac
}

# What display must print where the console prints the stored answer.
expected() { # ANSWER
    local -a lines values
    local number place consumed visits i
    mapfile -t lines <"$1"
    number=${lines[0]#*=} place=${lines[1]#*=} consumed=${lines[2]#*=} visits=${lines[3]#*=}
    values=("${lines[@]:4}")
    case $number in
        2 | 3 | 4 | 5) words_of "$number" "$place"; return ;;
        20) words_of 20 $((place - 3)); return ;;
    esac
    echo "table of $((3 + 15 * rules + 10 * nodes)) words and $((${#literals} / 2)) literal bytes: passes the type check"
    words_of "$number" "$place"
    [ "$number" = 0 ] || { echo "visits $visits"; return; }
    echo "visits $visits, consumed $consumed of $((${#message} / 2)) bytes"
    [ "$consumed" = $((${#message} / 2)) ] || echo "a rest is left, from byte $consumed"
    for i in 0 1 2 3; do value "$i" "${values[i]#*=}"; done
}

# The value of the first line with this key, without a byte that no line has.
line_of() { # FILE KEY
    tr -d '\000' <"$1" | sed -n "s/^$2=//p;T;q" || true
}

declare -A reached=()
one_input() { # CONSOLE-INPUT
    local answer=${1%.console}.answer number budget
    number=$(sed -n 's/^answer=//p' "$answer")
    budget=$(line_of "$1" budget) message=$(line_of "$1" message) rules=$(line_of "$1" rules) nodes=$(line_of "$1" nodes) literals=$(line_of "$1" literals)
    tail -n +4 "$1" >"$room/listing"
    both "$room/listing" "$message" "$budget"
    expected "$answer" >"$room/expected"
    if ! cmp -s "$room/said" "$room/expected"; then
        diff "$room/expected" "$room/said" || true
        wrong "$1: not the stored answer"
    fi
    [ "$status" = $((number > 0)) ] || wrong "$1: ended with $status"
    reached[$number]=1
    inputs=$((inputs + 1))
}

# Inputs whose first three lines are right: the rest is a listing, right or wrong.
console() {
    local input inputs=0
    for input in examples/*/*.console tests/console/*.console; do
        head -n 1 "$input" | grep -aqx mode=display || continue
        ! { grep -qx answer=20 "${input%.console}.answer" && grep -qxE 'place=[123]' "${input%.console}.answer"; } || continue
        one_input "$input"
    done
    [ "$inputs" -gt 80 ] || wrong "console: only $inputs inputs"
    echo "firmware, console: $inputs inputs, the stored answers in words, C and Rust the same"
}

# Both end so and say this.
says() { # STATUS TEXT WORDS..
    local must=$1 text=$2
    shift 2
    both "$@"
    [ "$status" = "$must" ] || wrong "display $*: ended with $status, not with $must"
    grep -qF -e "$text" "$room/said" "$room/told" || { cat "$room/said" "$room/told"; wrong "display $*: doesn't say: $text"; }
}

# Output that is lost is told.
lost() { # PROGRAM WORDS..
    local came=0
    "$@" >/dev/full 2>"$room/told" || came=$?
    [ "$came" = 2 ] || wrong "${1##*/}, to a full device: ended with $came"
}

wrong_use() {
    local budget
    says 2 'display LISTING MESSAGE [BUDGET]'
    says 2 'display LISTING MESSAGE [BUDGET]' "$room/listing"
    says 2 'display LISTING MESSAGE [BUDGET]' "$room/listing" 00 1 1
    says 2 "cannot read $room/not-there" "$room/not-there" 00
    says 2 "cannot read $room" "$room" 00
    says 2 "cannot read $room/not-there" "$room/listing" "@$room/not-there"
    for message in 4 4g 4G 471 '47 31' 4A x; do says 2 'the message is lower-case hex pairs' "$room/listing" "$message"; done
    for budget in '' 00 01 -1 +1 4294967296 99999999999 18446744073709551617 1x ' 1'; do says 2 'the budget is a decimal' "$room/listing" 00 "$budget"; done
    lost "$room/display_c" "$room/listing" 00
    lost "$room/display_rs" "$room/listing" 00
}

# The header of another version, and the archive.
versions() {
    mkdir -p "$room/other"
    sed 's/^#define STYRMFLO_VERSION .*/#define STYRMFLO_VERSION 4711/' docs/styrmflo.h >"$room/other/styrmflo.h"
    sed 's/VERSION: u32 = [0-9]*/VERSION: u32 = 4711/' examples/firmware/display.rs >"$room/other/display.rs"
    cc "${strict[@]}" -I "$room/other" examples/firmware/display.c "$library" -o "$room/display_c"
    rust_program display_rs "$room/other/display.rs"
    says 2 'the header is version 4711, the archive ' "$room/listing" 00
    rm "$room/display_c" "$room/display_rs"
}

use() {
    local number
    tail -n +4 "$up.console" >"$room/listing"
    printf 'F12^Roof garden.' >"$room/message"
    says 0 'Text "Roof garden", in the message from byte 4' "$room/listing" "@$room/message"
    says 1 'answer 8 NOMATCH' "$room/listing" ''
    says 1 'answer 9 BUDGET' "$room/listing" "@$room/message" 0
    says 0 'visits 998' "$room/listing" "@$room/message" 998
    says 0 'visits 998' "$room/listing" "@$room/message" 4294967295
    head -c 65535 /dev/zero >"$room/message"
    says 1 'answer 8 NOMATCH' "$room/listing" "@$room/message"
    head -c 65536 /dev/zero >"$room/message"
    says 1 'answer 6 LONG' "$room/listing" "@$room/message"
    says 1 'answer 6 LONG' "$room/listing" @/dev/zero
    reached[6]=1
    says 1 'answer 20 LINE, place 1:' /dev/null 00
    says 1 'answer 20 LINE, place 1:' /dev/zero 00
    # a listing and then something that is far longer than a listing can be
    { cat "$room/listing"; head -c 200000 /dev/zero; } >"$room/longer"
    says 1 "answer 20 LINE, place $(($(wc -l <"$room/listing") + 1)):" "$room/longer" 00
    wrong_use
    versions
    for number in 0 2 3 4 5 6 8 9 10 12 20; do
        [[ " ${parts[*]} " != *' console '* ]] || [ -n "${reached[$number]:-}" ] || wrong "answer $number is never reached"
    done
    echo 'firmware, use: messages, wrong use, lost output and another version, C and Rust the same'
}

rows() {
    local name
    program rows_c tests/firmware/rows.c
    program rows_short tests/firmware/rows.c -fshort-enums
    rust_program rows_rs tests/firmware/rows.rs
    for name in rows_c rows_short rows_rs; do
        run "$name"
        cmp -s "$room/said" tests/firmware/rows.stored || { diff tests/firmware/rows.stored "$room/said" || true; wrong "$name: not what tests/firmware/rows.stored says"; }
    done
    echo 'firmware, rows: numbers and tags, those without a row too, as stored'
}

warnings() {
    local compiler file count=0
    ./array "$up.console" >"$room/table.h" || wrong './array: no table'
    for compiler in cc gcc clang; do
        command -v "$compiler" >/dev/null || continue
        for file in examples/firmware/*.c; do
            "$compiler" "${strict[@]}" -O2 -I docs -I "$room" -c "$file" -o "$room/object" >"$room/log" 2>&1 || { cat "$room/log"; wrong "$file: $compiler has a warning"; }
            count=$((count + 1))
        done
    done
    if command -v c++ >/dev/null; then
        printf '#include "styrmflo.h"\n#include "table.h"\nint main() { return styrmflo_type_check(table_words, table_words_count, table_literals, table_literals_count) != 0; }\n' >"$room/held.cc"
        c++ -std=c++11 -pedantic -Wall -Wextra -Wconversion -Werror -I docs -I "$room" "$room/held.cc" "$library" -o "$room/held" || wrong 'C++11: a warning'
        "$room/held" || wrong 'C++11: ended with another status'
    else
        echo 'firmware: no c++ here: header and array are not tried as C++'
    fi
    rust_program display_rs examples/firmware/display.rs
    echo "firmware, warnings: none, in $count compilations of C; Rust with warnings denied"
}

# ./array ends so, and what it wrote and said is in said and told.
array_ends() { # STATUS TEXT WORDS..
    local must=$1 text=$2 came=0
    shift 2
    ./array "$@" >"$room/said" 2>"$room/told" || came=$?
    [ "$came" = "$must" ] || { cat "$room/told"; wrong "./array $*: ended with $came, not with $must"; }
    if [ "$must" != 0 ] && [ -s "$room/said" ]; then wrong "./array $*: refused, and written all the same"; fi
    [ -z "$text" ] || grep -qF -e "$text" "$room/told" || { cat "$room/told"; wrong "./array $*: doesn't say: $text"; }
    # what the script itself answers, and what can be read only once
    case $#:${1:-} in 1:-* | [12]:/dev/fd/*) ;; [12]:*) array_again "$came" "$1" "${2-table}" ;; esac
}

# The program behind ./array with the sanitizers: the same.
array_again() { # STATUS LISTING NAME
    local came=0
    [ -f "$room/array_c" ] || program array_c examples/firmware/array.c
    "$room/array_c" "$2" "$3" >"$room/said_again" 2>"$room/told_again" || came=$?
    [ "$came" = "$1" ] || { cat "$room/told_again"; wrong "array.c, $2: ended with $came"; }
    cmp -s "$room/said" "$room/said_again" || wrong "array.c, $2: not what ./array writes"
}

# The greatest table: 64 rules, of which each calls the next, and a chain of nodes; all literals.
greatest() {
    local i
    printf 'rules=64\nnodes=1024\nliterals=%s\n' "$(printf '%4096s' '' | sed 's/ /ff/g')"
    for ((i = 0; i < 63; i++)); do echo "rule=$i 0 0 0 0 0 0 0 0 0 0 0 0 0 0"; done
    echo 'rule=1022 0 0 0 0 0 1 1023 0 0 0 3 0 0 0'
    for ((i = 0; i < 64; i++)); do echo 'node=1 0 0 0 0 0 0 0 0 0'; done
    for ((i = 63; i < 1022; i++)); do echo "node=6 $i 0 0 0 0 0 0 0 0"; done
    echo 'node=18 0 4096 0 0 0 0 0 0 0'
}

# The table in C, as a listing again.
round_trip() { # LISTING
    array_ends 0 '' "$1"
    mv "$room/said" "$room/table.h"
    program back tests/firmware/back.c
    "$room/back" >"$room/listing_again" || wrong "./array $1: what it wrote can't be written as a listing"
}

arrays() {
    local input first
    for input in examples/{case-a/case-a,basement/street,destination/museum}.console "$up.console"; do
        round_trip "$input"
        cp "$room/table.h" "$room/first.h"
        tail -n +4 "$input" >"$room/listing"
        cmp -s "$room/listing" "$room/listing_again" || wrong "./array $input: another table"
        array_ends 0 '' "$room/listing"
        cmp -s "$room/said" "$room/first.h" || wrong "./array $input: a listing and a console input give different tables"
    done
    greatest >"$room/listing"
    round_trip "$room/listing"
    cmp -s "$room/listing" "$room/listing_again" || wrong './array: the greatest table is another'
    first=$(printf 'n%.0s' {1..48})
    array_ends 0 '' "$room/listing" "$first"
    grep -q "^static const uint16_t ${first}_words\[11203\] = {\$" "$room/said" || wrong './array: not the name that it was told'
    grep -q "^static const uint8_t ${first}_literals\[4096\] = {\$" "$room/said" || wrong './array: not the name that it was told'
}

# Of a listing in a console input the place is the stored answer's: lines count from the file's first.
refusals() {
    local input answer count=0
    for input in examples/half-finished/display.console tests/console/{field,use,start,type}-display.console tests/console/line-{0[4-9],1}*.console; do
        answer=${input%.console}.answer
        tr -d '\000' <"$input" | head -n 1 | grep -aqx 'mode=.*' || continue
        grep -qxE 'answer=(2|3|4|5|20)' "$answer" || wrong "$input: no refusal is stored"
        array_ends 1 " $(sed -n 's/^answer=//p' "$answer") " "$input"
        grep -qE ": [0-9]+ [A-Z]+, place $(sed -n 's/^place=//p' "$answer")\$" "$room/told" || { cat "$room/told"; wrong "./array $input: another place than is stored"; }
        count=$((count + 1))
    done
    [ "$count" -gt 20 ] || wrong "array: only $count refusals"
    array_ends 1 '5 TYPE, place 0' examples/half-finished/bench-up.console
    array_ends 1 '20 LINE, place 1' /dev/zero
    printf 'mode=bench\n' >"$room/short"
    array_ends 1 '20 LINE, place 4' "$room/short"
}

# A tool that isn't on the path is told in one line.
without() { # TOOL
    local tool came=0 told
    rm -rf "$room/without"
    mkdir "$room/without"
    for tool in bash env dirname; do ln -s "$(type -P "$tool")" "$room/without/$tool"; done
    for tool in rt cc; do [ "$tool" = "$1" ] || ln -s "$(type -P true)" "$room/without/$tool"; done
    told=$(env "PATH=$room/without" ./array "$up.console" 2>&1) || came=$?
    if [ "$came" != 2 ] || [ "$told" != "array: $1 is not on the path, and it is needed" ]; then wrong "./array without $1: ended with $came and said: $told"; fi
}

array() {
    local name came
    arrays
    refusals
    array_ends 2 'array LISTING [NAME]'
    array_ends 2 'array LISTING [NAME]' "$up.console" table more
    array_ends 2 'array LISTING [NAME]' --help
    for name in '' 1x a-b 'a b' _x é 'x;' "$(printf 'n%.0s' {1..49})"; do array_ends 2 'NAME is a letter' "$up.console" "$name"; done
    array_ends 2 'cannot read' "$room/not-there"
    array_ends 2 'cannot read' "$room"
    # no line ends here: the first three, which are left out, would have no end
    array_ends 2 'cannot read' <(printf mode=; exec cat /dev/zero)
    came=0
    ./array "$up.console" >&- 2>"$room/told" || came=$?
    [ "$came" = 2 ] || wrong "./array, standard output closed: ended with $came"
    lost ./array "$up.console"
    grep -qF 'array: the table could not be written' "$room/told" || wrong './array, to a full device: does not say so'
    without rt
    without cc
    echo "firmware, array: tables as they were listed, refusals, exit statuses"
}

# The lines that fitted prints for the first message, from the example's stored answer.
example_values() {
    local i stored
    mapfile -t stored < <(sed -n 's/^value=//p' "$up.answer")
    for i in "${stored[@]}"; do
        case $i in
            0) ;;
            2\ *) echo "    ${i#2 }" ;;
            3\ *) echo "    $(shown "${i#3 }")" ;;
            *) wrong 'fitted: the example has a value that has no row here' ;;
        esac
    done
}

fitted() {
    ./array "$up.console" >"$room/table.h" || wrong './array: no table'
    program fitted examples/firmware/fitted.c
    run fitted
    cmp -s "$room/said" tests/firmware/fitted.stored || { diff tests/firmware/fitted.stored "$room/said" || true; wrong 'fitted: not what tests/firmware/fitted.stored says'; }
    { shown "$(line_of "$up.console" message)"; example_values; } >"$room/expected"
    cmp -s "$room/expected" <(head -n 4 "$room/said") || wrong "fitted: not the values of $up.answer"
    lost "$room/fitted"
    # flash has changed: node 0 is of a kind that has no row
    sed -E -i 's|^    [0-9]+,(.* /\* node 0 \*/)$|    99,\1|' "$room/table.h"
    program fitted examples/firmware/fitted.c
    if [ "$("$room/fitted" || true)" != 'nothing is shown: no table' ]; then wrong 'fitted: shows something by a table that fails the type check'; fi
    echo 'firmware, fitted: a table in flash, the values as stored'
}

# Without a C library, for a small ARM processor.
cross() {
    local archive words status=0
    ./array "$up.console" >"$room/table.h" || wrong './array: no table'
    archive=$(./library thumbv7em | sed -n '1s/ .*//p')
    tests/c.sh docs/styrmflo.h --target=thumbv7em-none-eabi -fno-pic -Wconversion -I "$room" -Os -c examples/firmware/fitted.c -o "$room/fitted.o" || wrong 'fitted.c, thumbv7em: a warning'
    tests/c.sh docs/styrmflo.h --target=thumbv7em-none-eabi -fno-pic -Os -c tests/firmware/board.c -o "$room/board.o"
    words=$(tests/bare.sh thumbv7em-none-eabi "$room/fitted" "$room/fitted.o" "$room/board.o" "$archive") || wrong 'fitted.c, thumbv7em: not linked'
    mapfile -t words <<<"$words"
    { "${words[@]}" </dev/null >"$room/said"; } 2>/dev/null || status=$?
    case $status in
        0) cmp -s "$room/said" tests/firmware/fitted.stored || wrong 'fitted, thumbv7em: not what tests/firmware/fitted.stored says' ;;
        126 | 127) echo "firmware, cross: thumbv7em compiled and linked, not run: no ${words[0]} here"; return ;;
        *) wrong "fitted, thumbv7em: ended with $status" ;;
    esac
    echo "firmware, cross: thumbv7em, by ${words[0]}, the values as stored"
}

readme() {
    local page=examples/firmware/README.md
    sed -n '/^## At the desk/,/^## For/s/^    //p' "$page" >"$room/commands"
    sed -n '/^## At the desk/,/^## For/{/^```/,/^```/{/^```/!p}}' "$page" >"$room/expected"
    [ -s "$room/commands" ] || wrong "$page: no command"
    bash -euo pipefail "$room/commands" >"$room/said" 2>"$room/told" || { cat "$room/told"; wrong "$page: its commands fail"; }
    cmp -s "$room/said" "$room/expected" || { diff "$room/expected" "$room/said" || true; wrong "$page: its commands print something else"; }
    [ ! -s "$room/told" ] || { cat "$room/told"; wrong "$page: its commands have a warning"; }
    target/firmware/display_rs target/firmware/floor.listing 4631325e526f6f662067617264656e2e | cmp -s - "$room/expected" || wrong "$page: display_rs prints something else"
    target/firmware/fitted | cmp -s - tests/firmware/fitted.stored || wrong "$page: fitted prints something else"
    echo 'firmware, readme: the commands print what stands there'
}

for part in "${parts[@]}"; do
    case $part in
        console | use) programs; "$part" ;;
        warnings | rows | array | fitted | cross | readme) "$part" ;;
        *) wrong "$part: no such part" ;;
    esac
done
