#!/usr/bin/env bash
# unproved.sh TREE INPUT: compiles the console program from the crates of TREE without any proof, and runs it on INPUT (a .console file with its .answer beside it), by
# `rt try`: compiled with checks, and on the kit's interpreter where that can run it. Prints `as stored` if it printed the stored answer, `something else` if it ended and
# printed another; anything else is an error. No verdict on a program that is right: it shows what a wrong one prints.
set -euo pipefail
tree=$(cd "$1" && pwd)
input=$2
room=$(mktemp -d)
trap 'rm -rf "$room"' EXIT
mkdir "$room/cases"
cp "$input" "$room/cases/input"
cp "${input%.console}.answer" "$room/cases/input.stdout"
(cd "$tree/crates/console" && rt try --cases "$room/cases") </dev/null >"$room/log" 2>&1 || true
case $(grep '^case=input ' "$room/log" || true) in
'case=input run=ended '*' output=expected proved=no') echo 'as stored' ;;
'case=input run=ended '*' output=differs proved=no') echo 'something else' ;;
*)
    cat "$room/log" >&2
    exit 1
    ;;
esac
