# shellcheck shell=bash
# To be read in by ./run and ./check: how they take their input and hand out what they have to say. command is the command's name, which begins each of its own lines.
# Where nothing can be read, run or written, one line on standard error says why, and the status is 2.

stop() { # TEXT
    # shellcheck disable=SC2154
    echo "$command: $1" >&2 || true
    exit 2
}

# More words than a file, or one that begins like an option: a file of such a name is ./-NAME.
usage() { # WHAT WORDS..
    local what=$1
    shift
    [ $# -le 1 ] || stop "usage: ./$command [FILE] ($what; without it, or with -, standard input)"
    case ${1:-} in -?*) stop "usage: ./$command [FILE] ($what; without it, or with -, standard input)" ;; esac
}

# A stream that is closed is told, or, where nobody asks for it, opened: else the next file that is opened would stand in its place.
streams() { # INPUT
    # (where standard error is closed, bash has opened the script there)
    if [ /dev/stderr -ef "$0" ] || ! true 3>&2; then exec 2>/dev/null; fi
    { true 3>&1; } 2>/dev/null || stop 'standard output is closed'
    { true 3<&0; } 2>/dev/null || {
        [ "$1" != - ] || stop 'standard input is closed'
        exec </dev/null
    }
}

# The first bytes of the input, - for standard input, into a file; however long it is, no more than these are read.
take() { # INPUT BYTES FILE
    local why
    if [ "$1" = - ]; then
        [ ! -d /dev/stdin ] || stop 'standard input is a directory'
        why=$(head -c "$2" 2>&1 >"$3") || stop "standard input cannot be read: ${why##*: }"
        return
    fi
    [ ! -d "$1" ] || stop "'$1' is a directory"
    [ -e "$1" ] || stop "there is no file '$1'"
    [ -r "$1" ] || stop "'$1' may not be read"
    why=$(head -c "$2" -- "$1" 2>&1 >"$3") || stop "'$1' cannot be read: ${why##*: }"
}

# A folder of its own for what is in between, which goes with the command.
make_room() {
    room=$(mktemp -d 2>/dev/null) || stop "there is no room for temporary files in ${TMPDIR:-/tmp}"
    trap 'rm -rf "$room"' EXIT
}

# A file to standard output: all of it, or the status is 2.
hand_out() { # FILE WHAT
    cat "$1" 2>/dev/null || stop "$2 could not be written"
}
