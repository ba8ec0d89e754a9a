#!/usr/bin/env bash
# place.sh FILE NUMBER PLACE: where a run of a console input has ended at a node (9 BUDGET, 10 DEEP, 11 STUCK, 12 FAULT), says in a line which node that is: its line in the
# file, its kind, the rule that it belongs to, and why the run ended there. For the checks' answers (2 to 5) it names the command that says where, for 23 INPUT how much is too
# much. It is advice, nothing of it is proved. The input is one that the reader has taken, so its lines are right; each node of a table of sound form has one user.
set -euo pipefail
export LC_ALL=C
case $2 in
2 | 3 | 4 | 5) echo "./check says where, and what was wanted there" ;;
23) echo "the console takes at most 65536 bytes, message and table together; the functions for C and Rust take a message of 65535" ;;
9 | 10 | 11 | 12)
    awk -v number="$2" -v at="$3" '
        BEGIN {
            split("empty terminal sequence choice repeat not call bind update constraint", parsing, " ")
            split("Bool Integer Text slot add subtract multiply divide equal greater and or not", expression, " ")
            why[9] = "no visit was left for it: a larger budget, or a repeat or a rule that goes in circles"
            why[10] = "a visit of it was due at depth 257: a rule that calls itself without end, or a nest that is too deep"
            why[11] = "it reads an unset slot, or gets a value of the wrong type: ./check finds all such"
            why[12] = "32-bit overflow, or a divisor of zero: guard it by a constraint"
        }
        function uses(part) { user[part] = node }
        function owns(part) { owner[part] = rule }
        sub(/^rule=/, "") {
            rule = rules++
            inherited[rule] = $2
            owns($1)
            for (i = 1; i <= $7; i++) owns($(7 + i))
        }
        sub(/^node=/, "") {
            node = nodes++
            kind[node] = $1
            line[node] = NR
            if ($1 == 3 || $1 == 4 || $1 >= 20 && $1 <= 27) { uses($2); uses($3) }
            else if ($1 == 5 || $1 == 6 || $1 == 10 || $1 == 28) uses($2)
            else if ($1 == 8 || $1 == 9) uses($3)
            else if ($1 == 7) for (i = 1; i <= inherited[$2]; i++) uses($(2 + i))
        }
        END {
            # a node that the table has not
            if (!(at in kind)) exit
            for (top = at; !(top in owner) && top in user; top = user[top]) continue
            name = kind[at] < 16 ? parsing[kind[at]] : expression[kind[at] - 15]
            print "node " at " (line " line[at] "), " name ", in rule " owner[top] ": " why[number]
        }' "$1"
    ;;
esac
