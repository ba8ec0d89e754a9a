# shellcheck shell=bash
# The controls themselves: what is not as it must be is told, and so is a file of controls that isn't there, breaks off or shows nothing.
file=tests/controls/one.sh
copy
mkdir -p tests/controls
right="fails 'a control' 'it is wrong' sh -c 'echo it is wrong; exit 1'"

broken() { # NAME TEXT LINE..
    local name=$1 text=$2
    shift 2
    printf '%s\n' "$@" >"$file"
    fails "controls, $name" "$text" tests/controls.sh one
}

echo "$right" >"$file"
passes 'controls, a script that fails and says why' tests/controls.sh one
broken 'a script that passes' 'PASSED' "$right" "fails 'a control' '' true" "$right"
broken 'a script that fails and says something else' 'does NOT SAY' "fails 'a control' 'it is wrong' sh -c 'echo it is right; exit 1'" "$right"
broken 'a script that fails where all is right' 'FAILS' "passes 'a control' false" "$right"
broken 'a change that changes nothing' 'CHANGES NOTHING' 'change tests/controls.sh s/set/set/' "$right"
broken 'one that breaks off' 'NOT AS IT MUST BE' 'cp not_there there' "$right"
broken 'one that is no script' 'NOT AS IT MUST BE' 'if' "$right"
broken 'none in its file' 'it shows nothing' "passes 'a control' true"
rm "$file"
fails 'controls, no such file' 'NOT AS IT MUST BE' tests/controls.sh one
fails 'controls, no file' 'NOT AS IT MUST BE' tests/controls.sh
