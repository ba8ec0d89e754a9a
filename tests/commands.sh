#!/usr/bin/env bash
# commands.sh [PART..]: tries ./run and ./check as their users would (all parts: answers, unreadable, unwritable, unready, progress, verdicts, hints): each exit status,
# what is on standard output, byte for byte where it is document 01's, and what is said on standard error, by words of it. Inputs are examples/, tests/commands/ and changes of these.
# One line a part; exit 1 at the first thing that is not as it must be. Needs what ./test has built before it, or builds it.
set -euo pipefail
cd "$(dirname "$0")/.."
top=$PWD
room=$(mktemp -d)
trap 'rm -rf "$room"' EXIT
sample=examples/case-a/case-a
whole=tests/commands/whole.listing
operators=tests/commands/operators.listing
order=tests/commands/order.listing
tried=0

wrong() { # NAME TEXT
    printf 'commands, %s: %s\n' "$1" "$2"
    for stream in out err; do [ ! -s "$room/$stream" ] || sed "s/^/    $stream: /" "$room/$stream" | head -n 20 | cut -c 1-300; done
    exit 1
}

# Runs a command, whose words may hold redirections; it must end so.
try() { # NAME STATUS COMMAND
    local status=0
    : >"$room/out"
    : >"$room/err"
    tried=$((tried + 1))
    eval "{ $3; } >\"$room/out\" 2>\"$room/err\"" || status=$?
    [ "$status" = "$2" ] || wrong "$1" "it ended with $status, not with $2"
}

prints() { # NAME FILE: on standard output, byte for byte
    cmp -s "$room/out" "$2" || wrong "$1" "standard output is not $2"
}

prints_line() { # NAME TEXT
    printf '%s\n' "$2" | cmp -s "$room/out" - || wrong "$1" "standard output is not one line: $2"
}

says() { # NAME TEXT: on standard error
    grep -qF -e "$2" "$room/err" || wrong "$1" "standard error does not say: $2"
}

says_one_line() { # NAME TEXT: that, and nothing else, and nothing on standard output
    says "$1" "$2"
    [ "$(wc -l <"$room/err")" = 1 ] || wrong "$1" 'standard error is not one line'
    [ ! -s "$room/out" ] || wrong "$1" 'something is on standard output'
}

says_only() { # NAME TEXT: that, in one line, and nothing else on standard error
    says "$1" "$2"
    [ "$(wc -l <"$room/err")" = 1 ] || wrong "$1" 'standard error is not one line'
}

says_nothing() { # NAME
    [ ! -s "$room/err" ] || wrong "$1" 'something is on standard error'
}

# The line and the kind of the node at which a run ended, or where else to ask; nothing for DONE and NOMATCH.
says_the_place() { # NAME INPUT NUMBER
    local place line kind
    case $3 in
    0 | 8) says_nothing "$1" ;;
    2 | 3 | 4 | 5) says_only "$1" './check says where' ;;
    *)
        place=$(sed -n 's/^place=//p' "${2%.console}.answer")
        line=$(($(sed -n 's/^rules=//p' "$2") + 7 + place))
        kind=$(sed -n "${line}s/^node=\\([0-9]*\\) .*/\\1/p" "$2")
        says_only "$1" "node $place (line $line), $(kind_name "$kind"), in rule "
        ;;
    esac
}

kind_name() { # KIND
    local names=(- empty terminal sequence choice repeat not call bind update constraint - - - - - Bool Integer Text slot add subtract multiply divide equal greater and or not)
    echo "${names[$1]}"
}

# ./run's status is 0 for DONE alone, and standard output is the stored answer; beside it the place of a run's end is told in words.
answers() {
    local input name number status
    for input in examples/*/*.console tests/console/{done,budget-0,deep,fault,field,nomatch,start,stuck,type,use}-display*.console; do
        name="./run $input"
        number=$(sed -n 's/^answer=//p' "${input%.console}.answer")
        status=$((number == 0 ? 0 : 1))
        try "$name" "$status" "./run $input"
        prints "$name" "${input%.console}.answer"
        says_the_place "$name" "$input" "$number"
    done
    rules_of_places
    without_a_row
    try 'standard input' 0 "./run <$sample.console"
    prints 'standard input' "$sample.answer"
    try 'standard input, as -' 0 "./run - <$sample.console"
    prints 'standard input, as -' "$sample.answer"
    try 'from another folder' 0 "(cd / && '$top/run' '$top/$sample.console')"
    prints 'from another folder' "$sample.answer"
    try 'a closed standard input that is not read' 0 "./run $sample.console <&-"
    prints 'a closed standard input that is not read' "$sample.answer"
    try 'a closed standard error' 0 "./run $sample.console 2>&-"
    prints 'a closed standard error' "$sample.answer"
    try 'an endless input' 1 './run /dev/zero'
    prints_line 'an endless input' 'answer=23'
    says_only 'an endless input' 'at most 65536 bytes'
    for command in run check; do
        ln -s "$top/$command" "$room/$command-by-a-link"
        try "$command, by a link" 0 "'$room/$command-by-a-link' $sample.console"
    done
}

# A number and a node that have no row: nothing is said of them.
without_a_row() {
    try 'the place, a number without a row' 0 "desk/place.sh $sample.console 13 0"
    says_nothing 'the place, a number without a row'
    [ ! -s "$room/out" ] || wrong 'the place, a number without a row' 'something is said'
    try 'the place, a node that is not there' 0 "desk/place.sh $sample.console 9 3"
    says_nothing 'the place, a node that is not there'
    [ ! -s "$room/out" ] || wrong 'the place, a node that is not there' 'something is said'
}

# Nodes of rule 0, and of others through parts, operands, arguments and returned nodes.
rules_of_places() {
    place_told examples/floor-direction-name/small-budget 'node 54 (line 65), sequence, in rule 2: no visit was left'
    place_told examples/basement/too-large 'node 48 (line 58), multiply, in rule 1: 32-bit overflow'
    place_told examples/recursion/too-deep 'in rule 1: a visit of it was due at depth 257'
    place_told tests/console/stuck-bench 'in rule 0: it reads an unset slot'
    # an operand of an argument of a call
    sed -e 's/^/node=/' >"$room/nodes" <<'END'
17 0 1 0 0 0 0 0 0 0
17 0 0 0 0 0 0 0 0 0
23 0 1 0 0 0 0 0 0 0
7 1 2 0 0 0 0 0 0 0
19 0 0 0 0 0 0 0 0 0
1 0 0 0 0 0 0 0 0 0
END
    made_of() { # RULE-1
        printf 'mode=bench\nbudget=9\nmessage=\nrules=2\nnodes=6\nliterals=\nrule=3 0 0 0 0 0 0 0 0 0 0 0 0 0 0\nrule=%s\n' "$1"
        cat "$room/nodes"
    }
    made_of '5 1 2 0 0 0 1 4 0 0 0 2 0 0 0' >"$room/made.console"
    try 'a fault in an argument' 1 "./run $room/made.console"
    says_only 'a fault in an argument' 'node 2 (line 11), divide, in rule 0: 32-bit overflow, or a divisor of zero'
}

place_told() { # NAME TEXT
    try "the place, $1" 1 "./run $1.console"
    says_only "the place, $1" "$2"
}

# What can't be read: one line, and 2. Both commands.
unreadable() {
    local command
    : >"$room/locked"
    chmod 0 "$room/locked"
    for command in run check; do
        try "$command, a directory" 2 "./$command examples"
        says_one_line "$command, a directory" "$command: 'examples' is a directory"
        try "$command, no such file" 2 "./$command no/such-file"
        says_one_line "$command, no such file" "$command: there is no file 'no/such-file'"
        try "$command, an empty name" 2 "./$command ''"
        says_one_line "$command, an empty name" "$command: there is no file ''"
        # root may read every file
        if [ ! -r "$room/locked" ]; then
            try "$command, a file that may not be read" 2 "./$command '$room/locked'"
            says_one_line "$command, a file that may not be read" 'may not be read'
        fi
        try "$command, a file whose reading fails" 2 "./$command /proc/self/mem"
        says_one_line "$command, a file whose reading fails" "$command: '/proc/self/mem' cannot be read"
        try "$command, standard input is a directory" 2 "./$command <examples"
        says_one_line "$command, standard input is a directory" "$command: standard input is a directory"
        try "$command, standard input is closed" 2 "./$command <&-"
        says_one_line "$command, standard input is closed" "$command: standard input is closed"
        try "$command, standard input is only written" 2 "./$command 0>'$room/only-written'"
        says_one_line "$command, standard input is only written" "$command: standard input cannot be read"
        try "$command, two words" 2 "./$command $sample.console $sample.console"
        says_one_line "$command, two words" "$command: usage: ./$command [FILE]"
        try "$command, an option" 2 "./$command --help"
        says_one_line "$command, an option" "$command: usage: ./$command [FILE]"
        try "$command, no room" 2 "TMPDIR=/no/such-folder ./$command $sample.console"
        says_one_line "$command, no room" "$command: there is no room for temporary files in /no/such-folder"
        try "$command, an error that nobody hears" 2 "./$command no/such-file 2>&-"
    done
    try 'check, an endless input' 2 './check /dev/zero'
    says_one_line 'check, an endless input' 'check: over 1048576 bytes'
}

unwritable() {
    local command
    for command in run check; do
        try "$command, standard output is full" 2 "./$command $sample.console >/dev/full"
        says_one_line "$command, standard output is full" 'could not be written'
        try "$command, standard output is closed" 2 "./$command $sample.console >&-"
        says_one_line "$command, standard output is closed" "$command: standard output is closed"
    done
    # the advice is lost, the verdict is not
    try 'check, standard error is full' 1 './check examples/half-finished/display.console 2>/dev/full'
    prints_line 'check, standard error is full' '5 TYPE, place 0'
}

# A path with what the commands need beside rt and cargo, and with what is named.
path_with() { # COMMAND..
    local tool
    rm -rf "$room/path"
    mkdir "$room/path"
    for tool in awk bash cat cut dirname env find grep head mkdir mktemp od readlink rm sed tail touch tr uname wc "$@"; do ln -s "$(type -P "$tool")" "$room/path/$tool"; done
}

unready() {
    path_with
    try 'run without rt' 2 "PATH='$room/path' ./run $sample.console"
    says_one_line 'run without rt' 'rt, the command of the Rattle kit, is not on the path'
    path_with rt
    try 'check without cargo' 2 "PATH='$room/path' ./check $sample.console"
    says_one_line 'check without cargo' 'check: cargo, the command of Rust, is not on the path'
    path_with cargo
    try 'check without rt' 2 "PATH='$room/path' ./check $sample.console"
    says_one_line 'check without rt' 'rt, the command of the Rattle kit, is not on the path'
    ln -s "$(type -P true)" "$room/path/rt"
    try 'run with another rt' 2 "PATH='$room/path' ./run $sample.console"
    says_one_line 'run with another rt' "the rt on the path is not the Rattle kit's"
}

# What rt says of a crate that is proved, with so many of its modules checked now.
proved() { # CRATE CHECKED
    printf '%s\n' "rt: chose --jobs 1 for $1" "fn $1::first: proved" 'library lowest: modules loaded=9 checked=0' "crate $1: modules loaded=1 checked=$2" 'logic=proved functions=1 sum=0'
}

# A copy of the commands with a stand-in for the kit: what its rt says and how it ends is in said and status, and what the console program does in program.
stand_in() {
    local kit=$room/kit
    rm -rf "$room/copy" "$kit"
    mkdir -p "$room/copy/crates/console" "$kit/bin" "$kit/toolchain/lib"
    cp -R --parents run check desk/*.sh tests/*.sh crates.txt "$sample.console" "$sample.answer" "$room/copy"
    touch "$kit/guide" "$kit/KIT-ID"
    printf '%s\n' '#!/bin/sh' 'shift 2' 'exec "$@"' >"$kit/toolchain/lib/ld-linux-x86-64.so.2"
    cat >"$kit/bin/rt" <<END
#!/bin/sh
[ "\$1" != doc ] || { echo "$kit/guide"; exit; }
cat "$room/said"
[ "\$(cat "$room/status")" = 0 ] || exit "\$(cat "$room/status")"
mkdir -p out
cp "$room/program" out/console
END
    printf '#!/bin/sh\ncat >"%s/taken"\ncat "%s.answer"\n' "$room" "$sample" >"$room/program"
    { proved laws 7; proved grammar 0; proved console 2; } >"$room/said"
    echo 0 >"$room/status"
    chmod +x "$kit/bin/rt" "$kit/toolchain/lib/ld-linux-x86-64.so.2" "$room/program"
}

in_copy() { # WORDS: with the stand-in's rt
    echo "(cd '$room/copy' && PATH='$room/kit/bin':\$PATH $1)"
}

progress() {
    local run
    run=$(in_copy "./run $sample.console")
    stand_in
    try 'the first time' 0 "$run"
    prints 'the first time' "$sample.answer"
    says 'the first time' 'usually takes about 7 minutes on two processors'
    says 'the first time' 'proved: 1 of 18, laws ('
    says 'the first time' 'proved: 18 of 18, console ('
    ! grep -q 'grammar' "$room/err" || wrong 'the first time' 'a crate is told that was proved before'
    cmp -s "$room/taken" "$sample.console" || wrong 'the first time' 'the console program was given something else'
    try 'the second time' 0 "$run"
    says_nothing 'the second time'
    stand_in
    try 'the first time, in the gate' 0 "$(in_copy "READER_QUIET=1 ./run $sample.console")"
    says_nothing 'the first time, in the gate'
    failing_proofs "$run"
    failing_programs "$run"
}

failing_proofs() { # RUN
    stand_in
    echo 1 >"$room/status"
    printf '%s\n' 'fn laws::first: not proved' 'logic=not-proved' >"$room/said"
    try 'a crate that is not proved' 2 "$1"
    says 'a crate that is not proved' 'fn laws::first: not proved'
    [ ! -s "$room/out" ] || wrong 'a crate that is not proved' 'something is on standard output'
    echo 2 >"$room/status"
    seq -f 'rt: line %g' 30 >"$room/said"
    try 'a kit that fails' 2 "$1"
    says 'a kit that fails' 'rt: line 11'
    ! grep -qx 'rt: line 10' "$room/err" || wrong 'a kit that fails' 'more than the last 20 lines are told'
    stand_in
    : >"$room/said"
    try 'an rt that says nothing' 2 "$1"
    says 'an rt that says nothing' 'rt run says nothing of console'
    stand_in
    proved laws 7 >"$room/said"
    try 'an rt that says nothing of the program' 2 "$1"
    says 'an rt that says nothing of the program' 'rt run says nothing of console'
    # where rt was not at work for it, a program that is there is no newer than its sources
    stand_in
    echo 'rt: nothing has changed since the last proved build, by out/console.stamp, so nothing is checked now' >"$room/said"
    try 'a program that was built before' 0 "$1"
    prints 'a program that was built before' "$sample.answer"
}

# Whatever else than an answer comes from the console program is told, and so is another end than with 0.
failing_programs() { # RUN
    stand_in
    printf '#!/bin/sh\ncat "%s.answer"\necho "console: the answer could not be written" >&2\n' "$sample" >"$room/program"
    try 'a console program that could not write' 2 "$1"
    says 'a console program that could not write' 'console: the answer could not be written'
    [ ! -s "$room/out" ] || wrong 'a console program that could not write' 'something is on standard output'
    stand_in
    printf '#!/bin/sh\ncat "%s.answer"\nexit 3\n' "$sample" >"$room/program"
    try 'a console program that fails' 2 "$1"
    says 'a console program that fails' 'the console program failed (status 3)'
    stand_in
    printf '#!/bin/sh\n' >"$room/program"
    try 'a console program that prints nothing' 2 "$1"
    says 'a console program that prints nothing' 'run: the console program printed nothing'
    stand_in
    printf '#!/bin/sh\necho "cannot open"\n' >"$room/program"
    try 'a console program that prints no answer' 2 "$1"
    says 'a console program that prints no answer' 'run: the console program printed no answer'
}

# A listing, changed by sed: the verdict, and words of the advice.
judged() { # LISTING SED VERDICT ADVICE..
    local listing=$1 change=$2 verdict=$3 name text
    shift 3
    name="./check, $(basename "$listing") with $change"
    sed -E "$change" "$listing" >"$room/listing"
    ! cmp -s "$room/listing" "$listing" || wrong "$name" 'nothing is changed'
    try "$name" 1 "./check '$room/listing'"
    prints_line "$name" "$verdict"
    for text in "$@"; do says "$name" "$text"; done
}

verdicts() {
    local listing
    for listing in "$whole" "$operators" "$order"; do
        try "./check $listing" 0 "./check $listing"
        prints_line "./check $listing" passed
        says_nothing "./check $listing"
    done
    try './check' 0 "./check <$whole"
    prints_line './check' passed
    try './check -' 0 "./check - <$whole"
    prints_line './check -' passed
    try 'a console input' 0 "./check $sample.console"
    prints_line 'a console input' passed
    try 'from another folder' 0 "(cd / && '$top/check' '$top/$whole')"
    rule_fields
    node_fields
    uses
    types
    smallest
    operand_types
    in_console_input
    longest
}

rule_fields() {
    judged $whole '4s/=8 /=3 /' '2 FIELD, place 3' 'word 3 is the body of rule 0, line 4 of the file, the 1st number there: 3 stands there' \
        'a parsing node was wanted, and node 3 is an expression (kind 19, slot)' 'was a line put in or taken out?'
    judged $whole '4s/=8 /=99 /' '2 FIELD, place 3' 'there is no node 99 (the table has 20 nodes)'
    judged $whole '14s/=3/=29/' '2 FIELD, place 3' 'node 8 has kind 29, which there is not'
    judged $whole '4s/=8 0/=8 5/' '2 FIELD, place 4' 'n, how many are inherited, of rule 0' '0 to 4 was wanted'
    judged $whole '5s/=17 2 2/=17 2 4/' '2 FIELD, place 20' 'the type of inherited 1 of rule 1, line 5' 'a type was wanted: 1 Bool, 2 Integer, 3 Text'
    judged $whole '5s/=17 2 2 3 0/=17 2 2 3 1/' '2 FIELD, place 22' 'the type of inherited 3' '0 was wanted, since the rule inherits 2'
    judged $whole '4s/ 1 9/ 5 9/' '2 FIELD, place 9' 'm, how many are returned, of rule 0' '0 to 4 was wanted'
    judged $whole '4s/ 1 9/ 1 8/' '2 FIELD, place 10' 'returned node 1 of rule 0' 'an expression was wanted, and node 8 is a parsing node (kind 3, sequence)'
    judged $whole '4s/ 1 9 0/ 1 9 1/' '2 FIELD, place 11' 'returned node 2' '0 was wanted, since the rule returns 1'
    judged $whole '4s/3 0 0 0$/0 0 0 0/' '2 FIELD, place 14' 'the type of returned 1' 'a type was wanted'
    judged $whole '4s/3 0 0 0$/3 1 0 0/' '2 FIELD, place 15' 'the type of returned 2' '0 was wanted, since the rule returns 1'
}

node_fields() {
    judged $whole '18s/=1 /=11 /' '2 FIELD, place 153' 'the kind of node 12, line 18 of the file, the 1st number there: 11 stands there' \
        '1 empty, 2 terminal,' '10 constraint; of an expression 16 Bool,' '28 not'
    judged $whole '12s/71/256/' '2 FIELD, place 94' 'field a of node 6 (kind 2, terminal), line 12 of the file, the 2nd number there: 256 stands there; a byte, 0 to 255'
    judged $whole '12s/71 0/71 1/' '2 FIELD, place 95' 'field b of node 6' '0 was wanted, since kind 2, terminal, does not use this field'
    judged $whole '13s/8 0 6/8 16 6/' '2 FIELD, place 104' 'a slot, 0 to 15, was wanted'
    judged $whole '14s/5 7/5 8/' '2 FIELD, place 115' 'a parsing node with a number under 8 was wanted, and that is the node itself'
    judged $whole '14s/5 7/5 15/' '2 FIELD, place 115' '15 is not smaller than 8'
    judged $whole '14s/5 7/5 3/' '2 FIELD, place 115' 'node 3 is an expression'
    judged $whole '14s/5 7/5 50/' '2 FIELD, place 115' 'there is no node 50'
    judged $whole '6s/17 0 5/28 0 0/' '2 FIELD, place 34' 'node 0 can have none'
    judged $whole '8s/=7 1/=7 2/' '2 FIELD, place 54' 'a rule was wanted, and there is no rule 2 (the table has 2 rules)'
    judged $whole '8s/=7 1 0 1/=7 1 0 4/' '2 FIELD, place 56' 'argument 2 of rule 1, which inherits 2: an expression with a number under 2 was wanted, and node 4 is a parsing node'
    judged $whole '8s/=7 1 0 1 0/=7 1 0 1 1/' '2 FIELD, place 57' '0 was wanted, since rule 1 inherits 2'
    judged $whole '8s/2 3 0 0$/16 3 0 0/' '2 FIELD, place 59' 'receiving slot 1 of rule 1, which returns 2: a slot, 0 to 15'
    judged $whole '8s/2 3 0 0$/2 3 4 0/' '2 FIELD, place 61' '0 was wanted, since rule 1 returns 2'
    judged $whole '16s/=16 1/=16 2/' '2 FIELD, place 134' '0 (false) or 1 (true) was wanted'
    judged $whole '7s/=18 1/=18 5/' '2 FIELD, place 44' 'a start of at most 4 was wanted (the table has 4 literal bytes)'
    judged $whole '7s/=18 1 2/=18 1 4/' '2 FIELD, place 45' 'a length of at most 3 was wanted (the start is 1'
}

uses() {
    judged $whole '14s/5 7/5 6/' '3 USE, place 6' 'node 6 (line 12), terminal: it is used 2 times' 'the 3rd number of node 7 (line 13), bind; the 3rd number of node 8 (line 14), sequence' 'node 7 (line 13), bind: nobody uses it'
    judged $whole '5s/ 2 18 19 0 0 1 3/ 1 18 0 0 0 1 0/; 8s/2 3 0 0$/2 0 0 0/' '3 USE, place 19' 'node 19 (line 25), slot: nobody uses it'
    judged $whole '5s/18 19/18 9/' '3 USE, place 9' 'returned node 1 of rule 0 (line 4); returned node 2 of rule 1 (line 5)'
    judged $whole '5s/=17 /=8 /' '3 USE, place 8' 'the body of rule 0 (line 4); the body of rule 1 (line 5)'
    judged $whole '8s/=7 1 0 1/=7 1 0 0/' '3 USE, place 0' 'the 3rd number of node 2 (line 8), call; the 4th number of node 2 (line 8), call'
    judged $whole '4s/=8 0 0/=8 1 2/' '4 START, place 0' 'rule 0 (line 4), the start, inherits 1'
}

types() {
    judged $whole '15s/19 0/19 5/' '5 TYPE, place 0' 'rule 0 (line 4): node 9 (line 15), slot: slot 5 is unset here (after the body, for returned node 1)'
    judged $whole '9s/19 2/19 6/' '5 TYPE, place 0' 'rule 0 (line 4): node 3 (line 9), slot: slot 6 is unset here'
    judged $whole '9s/19 2/17 0/' '5 TYPE, place 0' 'node 4 (line 10), constraint: its expression is Integer, Bool was wanted'
    judged $whole '13s/8 0 6/8 2 6/' '5 TYPE, place 0' 'node 7 (line 13), bind of slot 2: it is Bool after its part, and gets Text'
    judged $whole '6s/17 0 5/16 0 0/' '5 TYPE, place 0' 'node 2 (line 8), call of rule 1: argument 1 is Bool, rule 1 inherits Integer there'
    judged $whole '8s/2 3 0 0$/2 2 0 0/' '5 TYPE, place 0' 'receiving slot 2, slot 2, is Bool, rule 1 returns Text there'
    judged $whole '17s/9 4 10/9 1 10/' '5 TYPE, place 1' 'rule 1 (line 5): node 11 (line 17), update of slot 1: it is Text already, and gets Bool'
    judged $whole '20s/6 13 0/8 5 13/' '5 TYPE, place 1' 'node 16 (line 22), choice: the first arm leaves slot 5 Text, the second leaves it unset'
    judged $whole '19s/5 12 0/8 5 12/' '5 TYPE, place 1' 'node 14 (line 20), not: slot 5 is unset before its part and Text after it: set it before'
    judged $whole '19s/5 12 0/8 5 12/; 20s/6 13/5 13/' '5 TYPE, place 1' 'node 14 (line 20), repeat: slot 5 is unset before its part and Text after it: set it before'
    judged $whole '4s/3 0 0 0$/2 0 0 0/' '5 TYPE, place 0' 'node 9 (line 15), slot: returned node 1 is Text, the rule declares Integer'
}

# Of several nodes that fail the smallest is told; but what would start from the slots that a failing part has not left is not judged.
smallest() {
    judged $whole '6s/17 0 5/19 7 0/; 7s/18 1 2/19 8 0/' '5 TYPE, place 0' 'node 0 (line 6), slot: slot 7 is unset here'
    judged $order '6s/16 1/17 1/; 8s/16 1/17 1/' '5 TYPE, place 0' 'node 4 (line 9), constraint'
    judged $order '6s/16 1/17 1/; 8s/16 1/17 1/; 10s/=3/=4/' '5 TYPE, place 0' 'node 2 (line 7), constraint'
    judged $order '8s/16 1/17 1/; 5s/16 0/19 5/' '5 TYPE, place 0' 'node 4 (line 9), constraint'
}

operand_types() {
    local kind
    for kind in 20 21 22 23 25; do
        judged $operators "5s/17 0 1/18 0 0/; 7s/25/$kind/" '5 TYPE, place 0' 'node 2 (line 7)' 'its operands are Text and Integer, two Integers were wanted'
    done
    judged $operators '5s/17 0 1/18 0 0/; 7s/25/24/' '5 TYPE, place 0' 'equal: its operands are Text and Integer, two of one type were wanted'
    judged $operators '7s/25/26/' '5 TYPE, place 0' 'and: its operands are Integer and Integer, two Bools were wanted'
    judged $operators '7s/25/27/' '5 TYPE, place 0' 'or: its operands are Integer and Integer, two Bools were wanted'
    judged $operators '7s/25/20/' '5 TYPE, place 0' 'node 3 (line 8), not: its operand is Integer, Bool was wanted'
}

# Lines count from the file's first, and the three before the listing are not judged.
in_console_input() {
    { printf '%s\n' mode=bench budget=-1 message=ABC && cat $whole; } >"$room/whole.console"
    try 'a console input, its first lines wrong' 0 "./check '$room/whole.console'"
    prints_line 'a console input, its first lines wrong' passed
    judged "$room/whole.console" '2d' '20 LINE, place 4' 'line 4: "nodes=20" stands there; wanted here: rules=' 'the listing begins in line 3 already: of mode=, budget= and message= before it one is missing'
    judged "$room/whole.console" '15s/71/256/' '2 FIELD, place 94' 'line 15 of the file'
    judged "$room/whole.console" '18s/19 0/19 5/' '5 TYPE, place 0' 'rule 0 (line 7): node 9 (line 18)'
}

# Longer than any input of the console.
longest() {
    {
        printf '%s\n' rules=64 nodes=1024
        printf 'literals=%08192d\n' 0
        yes "rule=$(printf '65535 %.0s' {1..14})65535" | head -n 64
        yes "node=$(printf '65535 %.0s' {1..9})65535" | head -n 1024
    } >"$room/listing" || true
    [ "$(wc -c <"$room/listing")" = 80862 ] || wrong 'the longest listing' 'it has another length'
    try 'the longest listing' 1 "./check '$room/listing'"
    prints_line 'the longest listing' '2 FIELD, place 3'
    says 'the longest listing' 'there is no node 65535 (the table has 1024 nodes)'
}

# A console input, changed by a command that reads it: ./run's answer is LINE with this line, and words of the hint. Where the line is one of the listing's, ./check says the same
# of the input, and of the listing alone with its own line numbers.
hint() { # NAME LINE COMMAND TEXT..
    local name=$1 line=$2 change=$3 text
    shift 3
    eval "$change" <$sample.console >"$room/input"
    ! cmp -s "$room/input" $sample.console || wrong "$name" 'nothing is changed'
    printf '%s\n' answer=20 "place=$line" consumed=0 visits=0 value=0 value=0 value=0 value=0 >"$room/line"
    try "run, $name" 1 "./run '$room/input'"
    prints "run, $name" "$room/line"
    one_or_two "run, $name" "$line"
    for text in "$@"; do says "run, $name" "$text"; done
    [ "$line" -gt 3 ] || return 0
    cp "$room/err" "$room/hints"
    try "check, $name" 1 "./check '$room/input'"
    prints_line "check, $name" "20 LINE, place $line"
    cmp -s "$room/err" "$room/hints" || wrong "check, $name" 'the hint is another than that of ./run'
    tail -n +4 "$room/input" >"$room/listing"
    try "check, listing, $name" 1 "./check '$room/listing'"
    prints_line "check, listing, $name" "20 LINE, place $((line - 3))"
    one_or_two "check, listing, $name" $((line - 3))
    for text in "$@"; do says "check, listing, $name" "${text//line $((line - 1))/line $((line - 4))}"; done
}

# A hint is one or two lines, each of the line that is told.
one_or_two() { # NAME LINE
    local lines
    lines=$(grep -c "^line $2: ." "$room/err" || true)
    case $lines/$(wc -l <"$room/err") in
    1/1 | 2/2) ;;
    *) wrong "$1" "the hint is not one or two lines of line $2" ;;
    esac
}

hints() {
    head_hints
    hex_hints
    number_hints
    line_hints
    file_hints
}

head_hints() {
    hint 'an unknown mode' 1 "sed 's/display/fast/'" '"fast" stands after mode=, bench or display was wanted'
    hint 'no mode' 1 "sed 1d" '"budget=2" stands there; wanted here: mode=bench or mode=display'
    hint 'a listing alone' 1 "tail -n +4" 'a listing alone'
    hint 'an upper-case key' 2 "sed s/budget/Budget/" 'the key is budget=, in lower case'
    hint 'no budget' 2 "sed s/budget=2/budget=/" 'no number stands after budget='
    hint 'a budget that is too large' 2 "sed s/budget=2/budget=4294967296/" '"4294967296" is over 4294967295'
    hint 'a budget below 0' 2 "sed s/budget=2/budget=-2/" '"-2" has a minus sign'
    hint 'a budget with a plus sign' 2 "sed s/budget=2/budget=+2/" '"+2" has a plus sign'
    hint 'a budget with a leading zero' 2 "sed s/budget=2/budget=02/" '"02" has a leading zero'
    hint 'a budget with a space' 2 "sed 's/budget=2/budget= 2/'" 'a space stands after budget='
    hint 'rules=0' 4 "sed s/rules=1/rules=0/" '"0" stands there, rules= is 1 to 64'
    hint 'rules=65' 4 "sed s/rules=1/rules=65/" '"65" stands there, rules= is 1 to 64'
    hint 'no number' 4 "sed s/rules=1/rules=/" 'no number stands after rules='
    hint 'a head with a leading zero' 4 "sed s/rules=1/rules=01/" '"01" has a leading zero'
    hint 'a head with a plus sign' 4 "sed s/rules=1/rules=+1/" '"+1" has a plus sign'
    hint 'a head below 0' 4 "sed s/rules=1/rules=-1/" '"-1" has a minus sign'
    hint 'a head with a space' 4 "sed 's/rules=1/rules= 1/'" 'a space stands after rules='
    hint 'nodes=1025' 5 "sed s/nodes=3/nodes=1025/" '"1025" stands there, nodes= is 1 to 1024'
    hint 'no digit' 5 "sed s/nodes=3/nodes=x/" '"x" is no decimal digit'
    hint 'an unknown key' 5 "sed s/nodes=3/knots=3/" '"knots=3" stands there; wanted here: nodes= and a decimal, 1 to 1024'
    hint 'an upper-case key of a record' 8 "sed 8s/node/Node/" 'the key is node=, in lower case'
    hint 'another key' 5 "sed s/nodes=3/rules=3/" '"rules=3" stands there; wanted here: nodes= and a decimal, 1 to 1024'
}

hex_hints() {
    hint 'upper-case hex in the message' 3 "sed s/4731/4A3b/" 'upper-case hex ("A", the 2nd behind message=)'
    hint 'an odd number of hex digits in the message' 3 "sed s/4731/473/" 'an odd number of hex digits, 3'
    hint 'a character that is no hex digit in the message' 3 "sed s/4731/47g1/" '"g", the 3rd behind message=, is no hex digit'
    hint 'upper-case hex' 6 "sed s/literals=/literals=4F/" 'upper-case hex ("F", the 2nd behind literals=)'
    hint 'an odd number of hex digits' 6 "sed s/literals=/literals=4f1/" 'an odd number of hex digits, 3'
    hint 'a character that is no hex digit' 6 "sed s/literals=/literals=0x4f/" '"x", the 2nd behind literals=, is no hex digit'
    hint 'a space between hex digits' 6 "sed 's/literals=/literals=4f 4f/'" 'a space, the 3rd behind literals=, is no hex digit'
    hint 'too many literal bytes' 6 "sed s/literals=/literals=$(printf %08194d 0)/" '4097 literal bytes: at most 4096 can be'
}

number_hints() {
    hint 'a leading zero' 8 "sed s/71/071/" 'the 2nd number: "071" has a leading zero'
    hint 'a number over 65535' 9 "sed 's/=8 0/=8 65536/'" 'the 2nd number: "65536" is over 65535'
    hint 'a number of many digits' 9 "sed 's/=8 0/=8 99999999999999999999999/'" 'the 2nd number: "99999999999999999999.." is over 65535'
    hint 'a minus sign' 9 "sed 's/=8 0/=8 -1/'" 'the 2nd number: "-1" has a minus sign'
    hint 'two spaces' 8 "sed 's/71 0/71  0/'" 'two spaces stand after the 2nd number'
    hint 'a tab' 8 "sed 's/71 0/71\t0/'" 'a tab stands after the 2nd number'
    hint 'a comma' 8 "sed 's/71 0/71, 0/'" 'a comma: single spaces stand between the numbers'
    hint 'a space after the key' 8 "sed 's/node=2 71/node= 2 71/'" 'a space stands after node='
    hint 'too few numbers' 7 "sed 's/^rule=1 0/rule=1/'" '14 numbers stand there, 15 were wanted'
    hint 'too many numbers' 8 "sed 's/^node=2 71/node=2 71 0/'" '11 numbers stand there, 10 were wanted'
    hint 'one number' 8 "sed 's/^node=2 71.*/node=2/'" '1 number stands there, 10 were wanted'
    hint 'a byte 0' 8 "sed 's/71/7\x001/'" 'the 2nd number: byte 0 is no decimal digit'
    hint 'a byte past ASCII' 8 "sed 's/71/7\xe41/'" 'the 2nd number: byte 228 is no decimal digit'
}

line_hints() {
    hint 'carriage returns' 1 "sed 's/\$/\r/'" 'it ends with a carriage return (byte 13)'
    hint 'a carriage return' 8 "sed '8s/\$/\r/'" 'it ends with a carriage return (byte 13)'
    hint 'carriage returns alone' 1 "tr '\n' '\r'" 'carriage returns (byte 13) stand in it'
    hint 'a space at the end' 8 "sed '8s/\$/ /'" 'a space stands at its end'
    hint 'a tab at the end' 6 "sed '6s/\$/\t/'" 'a tab stands at its end'
    hint 'a space at the end, and a leading zero' 8 "sed '8s/71/071/; 8s/\$/ /'" 'a space stands at its end' 'has a leading zero'
    hint 'a space at the beginning' 8 "sed '8s/^/ /'" 'a space stands at its beginning'
    hint 'an empty line' 9 "sed '9s/^/\n/'" 'it is empty; wanted here: node 1, node= and 10 decimals'
    hint 'a line of spaces' 9 "sed '9s/^/  \n/'" 'a space stands at its end' 'it is empty; wanted here: node 1, node='
    hint 'a key alone, with a space' 9 "sed '9s/=.*/= /'" 'a space stands at its end' '0 numbers stand there, 10 were wanted'
    hint 'a rule for a node' 8 "sed '8s/node/rule/'" 'stands there; wanted here: node 0, node=' 'the head says 1 rule and 3 nodes: is that so?'
    hint 'no line end' 10 "head -c -1" 'its line end is missing: every line ends with byte 10'
    hint 'a line that breaks off' 10 "head -c -11" 'its line end is missing' '5 numbers stand there, 10 were wanted'
    hint 'a long line' 8 "sed '8s/71/$(printf %09999d 0)/'" 'has a leading zero'
}

file_hints() {
    hint 'a byte order mark' 1 "sed '1s/^/\xef\xbb\xbf/'" 'the file begins with a byte order mark (UTF-8'
    hint 'UTF-16' 1 "{ printf '\xff\xfe'; sed 's/./&\x00/g'; }" 'the file begins with a byte order mark of UTF-16'
    hint 'UTF-16 without its mark' 1 "sed 's/./&\x00/g'" 'stands there; wanted here: mode='
    hint 'nothing' 1 true 'the file is empty; wanted here: mode='
    hint 'a file that ends early' 10 "sed '\$d'" 'the file ends before it, and the head says 1 rule and 3 nodes; wanted here: node 2, node='
    hint 'a file that ends in its head' 5 "head -n 4" 'the file ends before it; wanted here: nodes='
    hint 'a line too many' 11 "sed '\$s/\$/\nnode=1 0 0 0 0 0 0 0 0 0/'" 'nothing may stand after line 10, the last: the head says 1 rule and 3 nodes; "node=1 0'
    hint 'an empty line too many' 11 "sed '\$s/\$/\n/'" 'it is empty, and nothing may stand after line 10, the last'
    marked_listing '\xef\xbb\xbf' 'the file begins with a byte order mark (UTF-8'
    marked_listing '\xff\xfe' 'the file begins with a byte order mark of UTF-16'
    try 'check, nothing' 1 './check </dev/null'
    prints_line 'check, nothing' '20 LINE, place 1'
    says 'check, nothing' 'the file is empty; wanted here: rules='
    try 'check, a million bytes 0' 1 'head -c 1048576 /dev/zero | ./check'
    prints_line 'check, a million bytes 0' '20 LINE, place 1'
    says 'check, a million bytes 0' 'wanted here: rules='
}

marked_listing() { # MARK TEXT
    # shellcheck disable=SC2059
    { printf "$1" && cat $whole; } >"$room/listing"
    try 'check, a byte order mark' 1 "./check '$room/listing'"
    prints_line 'check, a byte order mark' '20 LINE, place 1'
    says 'check, a byte order mark' "$2"
}

# built before anything is tried, so that no progress comes between
tests/console_command.sh >/dev/null
READER_LIBRARY=$(tests/library.sh)
export READER_LIBRARY
(cd desk && cargo build --release --offline --quiet)
unset READER_QUIET
[ $# -gt 0 ] || set -- answers unreadable unwritable unready progress verdicts hints
for part in "$@"; do
    tried=0
    "$part"
    [ "$tried" -gt 0 ] || wrong "$part" 'nothing was tried'
    echo "commands, $part: $tried tried, all as they must be"
done
