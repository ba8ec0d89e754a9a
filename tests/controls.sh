#!/usr/bin/env bash
# controls.sh [NAME..]: shows that the gate's scripts fail. controls/NAME.sh breaks one thing after the other in a copy of what tests/NAME.sh looks at, and there the script
# must fail and say what is wrong; the copy as it stands must pass (archive: of library, module, console_command and prove too; commands: of ./run, ./check, desk/*.sh, kit and prove; test: of ./test itself). So a script that looks at nothing any more is told. One line a control; exit 1 if one isn't as it must,
# and where a file of controls isn't there, breaks off or shows nothing.
# (That a wrong proof is refused is rt ci's own. The wrong programs have a control in every crate besides those here.) Those of console, authors, commands, vectors, shipped, targets, stack, firmware, must_fail and wrong_definitions need
# what ./test has built before them and set: READER_CONSOLE, READER_LIBRARY, READER_SHIPPED.
set -euo pipefail
cd "$(dirname "$0")/.."
if [ "${1:-}" != --one ]; then
    failed=0
    names=${*:-$(basename -s .sh tests/controls/*.sh)}
    # each in a shell of its own, which ends at its first error
    for name in $names; do
        tests/controls.sh --one "$name" || { echo "tests/controls/$name.sh: NOT AS IT MUST BE"; failed=1; }
    done
    exit "$failed"
fi

top=$PWD
# outside the checkout, in which rt ci refuses a second crates.txt, and sources where no crate has them
room=$(mktemp -d)
trap 'rm -rf "$room"' EXIT
failed=0
shown=0

# The command must fail and say this.
fails() { # NAME TEXT COMMAND..
    local name=$1 text=$2 said
    shift 2
    if said=$("$@" 2>&1); then
        echo "control, $name: PASSED"
    elif ! grep -qF -e "$text" <<<"$said"; then
        printf 'control, %s: fails, and does NOT SAY: %s\n%s\n' "$name" "$text" "$said"
    else
        echo "control, $name: fails, as it must"
        shown=$((shown + 1))
        return
    fi
    failed=1
}

passes() { # NAME COMMAND..
    local name=$1 said
    shift
    if said=$("$@" 2>&1); then
        echo "control, $name: passes, as it must"
        return
    fi
    printf 'control, %s: FAILS\n%s\n' "$name" "$said"
    failed=1
}

# Into a fresh copy of the scripts and of these parts of the repository, without what rt has made there.
copy() { # PATH..
    cd "$top"
    rm -rf "$room/copy"
    mkdir "$room/copy"
    tar -c --exclude='crates/*/out' tests/*.sh "$@" | tar -x -C "$room/copy"
    cd "$room/copy"
}

# Changes a file by a command of sed; a control that changes nothing shows nothing.
change() { # FILE COMMAND
    cp "$1" "$room/before"
    sed -i -E "$2" "$1"
    if cmp -s "$1" "$room/before"; then
        echo "control, $1: '$2' CHANGES NOTHING"
        failed=1
    fi
}

# shellcheck source=/dev/null
. "tests/controls/$2.sh"
[ "$shown" -gt 0 ] || { echo 'it shows nothing'; failed=1; }
exit "$failed"
