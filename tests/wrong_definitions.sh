#!/usr/bin/env bash
# wrong_definitions.sh [CRATE..]: tries the wrong definitions of the crates that say sentences of document 01, the edits of crates/CRATE/must-fail that change specs. Each is
# an edit of the crate's specs in the form of rt's must-fail edits, with a line `refused: FILE LAW`: a law of the meaning, or a case that the prover computes, in that
# file. With the edit the prover must refuse this law, by its own words. Not enough are: that the law isn't proved because another that it names isn't; and that the wrong
# definition is none, since the prover doesn't take it.
#
# That the code doesn't meet its contract any more says nothing here: definition and code could slip together. So the crate is tried bare: without its functions, with the
# types that it declares, its specs, and the laws that stand in proofs/ itself (what is proved of a function stands in a folder of its own); with an edit, only the law's
# file and those that it rests on. It is some seconds an edit, too: rt, which tries the edits that stand in must-fail/, would check all that rests on the definition again for
# each.
#
# Controls, without which the script fails: the bare crate as it stands is proved, before the first edit and after the last.
#
# And no definition is missed: each of these crates but grammar that docs/MEANING.md names for a sentence, or whose comment quotes one, is changed by an edit. Its old text stands in
# the definition (its signature and clauses), or in one that the definition is made of; then a line `for: NAME..` names the definition. Needs what
# tests/kept.sh leaves in crates/*/out.
set -euo pipefail
here=$(cd "$(dirname "$0")" && pwd)
top=$(dirname "$here")
# shellcheck source=tests/kit.sh
. "$here/kit.sh"
page=docs/MEANING.md
# those that this script looks at, the longest first
believed='console_text listing exports grammar text laws values'

# The wrong definitions of the crate. Of grammar's, those that name no law are for rt ci alone.
definitions() { # CRATE
    local edit
    for edit in $(grep -slE '^file: specs/' "$top/crates/$1/must-fail"/*.edit); do
        [ "$1" = grammar ] && ! grep -q '^refused: ' "$edit" || echo "$edit"
    done
}

# The crate without its functions.
prepare() { # CRATE FOLDER
    local file
    (cd "$top/crates/$1" && find src -name '*.rt') | while read -r file; do
        mkdir -p "$(dirname "$2/$1/$file")"
        declared <"$top/crates/$1/$file" >"$2/$1/$file"
    done
    unedited "$1" "$2"
    with_laws "$1" "$2"
}

# What a source file declares: modules, types, and the names of other types.
declared() {
    awk '
        # a use of several names stands in braces, which may go over several lines
        function types_of(text,    path, names, count, each, i, types) {
            gsub(/ +/, " ", text)
            path = text; sub(/\{.*/, "", path); sub(/[A-Za-z_0-9]+;$/, "", path)
            names = substr(text, length(path) + 1); gsub(/[{};]/, "", names)
            count = split(names, each, /, */)
            for (i = 1; i <= count; i++) {
                gsub(/ /, "", each[i])
                if (each[i] ~ /^[A-Z]/ && each[i] !~ /^[A-Z][A-Z_0-9]+$/) types = types (types ? ", " : "") each[i]
            }
            if (types) print path "{" types "};"
        }
        /^ *(pub )?mod [a-z_0-9]+;$/ { print }
        /^ *use / { using = 1; text = "" }
        using { text = text $0; if (/;$/) { using = 0; types_of(text) } next }
        /^(pub |pub\(crate\) )?(enum|struct) / { inside = 1 }
        inside { print }
        /^\}/ { inside = 0 }'
}

# The specs without any edit.
unedited() { # CRATE FOLDER
    rm -rf "$2/$1/specs"
    cp -R "$top/crates/$1/specs" "$2/$1"
}

# The checked modules of the bare crate as it stands: with an edit only what rests on it is checked again.
as_checked() { # FOLDER
    rm -rf "$1/checked"
    cp -R "$1/unedited" "$1/checked"
}

# The laws of this file with those that they rest on; all of them where no file is named.
with_laws() { # CRATE FOLDER [FILE]
    local module from=$top/crates/$1/proofs to=$2/$1/proofs todo
    rm -rf "$to"
    case ${3:-all}-$([ -d "$from" ] && echo there) in
    *-) return 0 ;;
    all-*) todo=$(sed -n 's/^pub mod //p' "$from/Lib.antt" | tr '\n' ' ') ;;
    specs/*) return 0 ;;
    *) todo=$(basename "$3" .antt) ;;
    esac
    mkdir "$to"
    while read -r module todo <<<"$todo" && [ -n "$module" ]; do
        [ ! -f "$to/$module.antt" ] || continue
        cp "$from/$module.antt" "$to" || return 1
        echo "pub mod $module" >>"$to/Lib.antt"
        todo="$todo $(sed -nE "s/^(pub )?use Rattle\.$1\.proofs\.([A-Za-z]+).*/\2/p" "$from/$module.antt" | tr '\n' ' ')"
    done
}

# Puts the new text in the place of the old one, which stands just once in its file, and prints the definition that it stands in: the last that begins before its end.
replace() { # FILE OLD NEW
    OLD=$2 NEW=$3 awk -v edited="$1.edited" '
        { line[NR] = $0; begins[NR] = length(text) + 1; text = text $0 "\n" }
        function around(last,    i, name, found) {
            for (i = 1; i <= NR && begins[i] <= last; i++) {
                name = line[i]
                if (sub(/^ *(unfoldable |abbrev )?(pub )?(record |data )?/, "", name) && match(name, /^[^ ()]+ +(\(.*)?:/)) {
                    sub(/ .*/, "", name)
                    found = name
                }
            }
            return found
        }
        END {
            old = ENVIRON["OLD"]
            at = index(text, old)
            rest = substr(text, at + length(old))
            if (old == "" || !at || index(rest, old)) exit 1
            printf "%s%s%s", substr(text, 1, at - 1), ENVIRON["NEW"], rest >edited
            print around(at + length(old) - 1)
        }' "$1" && mv "$1.edited" "$1"
}

# Makes the edit, and prints the definitions that it changes, a line each.
apply() { # EDIT CRATE-FOLDER
    local line file='' old=''
    while IFS= read -r line || [ -n "$line" ]; do
        case $line in
        'file: '*) file=${line#file: } ;;
        'old: '*) old=${line#old: } ;;
        'new:'*)
            line=${line#new:}
            replace "$2/$file" "$old" "${line# }" || return 1
            ;;
        esac
    done <"$1"
}

# What the edit says under a key; nothing if it has no such line.
said_of() { # EDIT KEY
    sed -nE "s/^$2: //p" "$1"
}

failed=0
fail() { # MESSAGE
    echo "$1"
    failed=1
}

# Whether the crate is proved as it stands in the folder; the log is left there.
check() { # CRATE FOLDER
    (cd "$2/$1" && "$kit/bin/rattle" check "${words[@]}" --incremental "$2/checked") >"$2/log" 2>&1 || true
    grep -q '^logic=proved ' "$2/log"
}

# The laws and definitions that the prover refuses for their own sake, a line each: file and name. A file that it can't read has a dash for the name. What rests on others that
# are refused is told in lines of its own.
refusals() { # LOG
    awk '
        /^(\.\/)?(specs|proofs)\/[^ ]*\.antt:[0-9]+:[0-9]+: error: / {
            file = $0; sub(/^\.\//, "", file); sub(/:[0-9]+:[0-9]+: error: .*/, "", file)
            name = $0; sub(/^[^:]*:[0-9]+:[0-9]+: error: /, "", name)
            if (name ~ /^[0-9]+ declarations? that depends? on / || name ~ /was not admitted/) next
            print file, match(name, /^`[^`]+`:/) ? substr(name, 2, RLENGTH - 3) : "-"
        }' "$1" | sort -u
}

# Tries an edit, whose specs are as they stand; the definitions that it changes, or says that it is for, are added to the list.
try() { # CRATE FOLDER EDIT
    local name law changed refused definition
    name=$1/$(basename "$3" .edit)
    law=$(said_of "$3" refused)
    if ! changed=$(apply "$3" "$2/$1") || [ -z "$changed" ]; then
        fail "$name: an old text does not stand in its file just once"
        return
    elif [ "$(wc -w <<<"$law")" != 2 ] || ! [ -f "$top/crates/$1/${law% *}" ]; then
        fail "$name: it does not name one law, with its file"
        return
    elif ! with_laws "$1" "$2" "${law% *}"; then
        fail "$name: the laws of ${law% *} rest on some that are not there"
        return
    elif check "$1" "$2"; then
        fail "$name: NOT REFUSED at $law"
        return
    fi
    refused=$(refusals "$2/log")
    for definition in $changed; do
        if grep -qE "^specs/.* ($definition|-)\$" <<<"$refused"; then fail "$name: IT IS NO DEFINITION: $definition is refused itself"; fi
    done
    if grep -qxF "$law" <<<"$refused"; then
        echo "$name: refused at $law"
    else
        fail "$name: NOT REFUSED at $law, but at: $(tr '\n' ';' <<<"$refused")"
    fi
    for definition in $changed $(said_of "$3" for); do echo "$definition" >>"$2/changed"; done
}

# The definitions of the crate that the page names for a sentence: in a column `definition`, as "crate NAME, File: `one`, `other`; File: `third`".
named() { # CRATE
    awk -F '|' -v wanted="$1" '
        /^\| *document 01 *\| *definition/ { inside = 1; next }
        !/^\|/ { inside = 0 }
        inside {
            crate = ""
            count = split($3, part, /`/)
            for (i = 1; i <= count; i++) {
                if (i % 2 && match(part[i], /crate [a-z_]+/)) crate = substr(part[i], RSTART + 6, RLENGTH - 6)
                else if (!(i % 2) && crate == wanted) print part[i]
            }
        }' "$top/$page" | sort -u
}

# Those whose comment quotes document 01, in single quotes: the first that is defined behind the comment.
quoting() { # CRATE
    cat "$top/crates/$1/specs"/*.antt | awk '
        /^ *--/ { if (/(^| )\047[A-Za-z0-9`]/) quotes = 1; next }
        quotes && sub(/^ *(unfoldable |abbrev )?pub (record |data )?/, "") { sub(/ .*/, ""); print }
        { quotes = 0 }' | sort -u
}

one_crate() { # CRATE
    local folder edit definition words=() count=0 began=$SECONDS
    # outside the checkout, where rt wants no second copy of a source
    folder=$(mktemp -d)
    mapfile -t words < <(rattle_words "$top" "$1")
    mkdir "$folder/checked"
    # shellcheck disable=SC2064
    trap "rm -rf '$folder'" EXIT
    prepare "$1" "$folder"
    : >"$folder/changed"
    if ! check "$1" "$folder"; then
        grep -E 'error' "$folder/log" || tail -n 5 "$folder/log"
        echo "$1: without its functions and without any edit it is not proved"
        exit 1
    fi
    mv "$folder/checked" "$folder/unedited"
    [ -n "$(definitions "$1")" ] || { echo "$1: there is no wrong definition"; exit 1; }
    for edit in $(definitions "$1"); do
        unedited "$1" "$folder"
        as_checked "$folder"
        try "$1" "$folder" "$edit"
        count=$((count + 1))
    done
    unedited "$1" "$folder"
    with_laws "$1" "$folder"
    as_checked "$folder"
    check "$1" "$folder" || fail "$1: after the last edit it is not proved as it stands"
    for definition in $(named "$1"); do
        grep -qxF "$definition" "$folder/changed" || fail "$1: NO EDIT CHANGES $definition, which $page names"
    done
    [ "$1" = grammar ] || for definition in $(quoting "$1"); do
        grep -qxF "$definition" "$folder/changed" || fail "$1: NO EDIT CHANGES $definition, whose comment quotes document 01"
    done
    echo "$1: $count wrong definitions, $((SECONDS - began)) s"
    exit "$failed"
}

[ "${1:-}" != --one ] || one_crate "$2"
crates=${*:-$believed}
for crate in $(cd "$top/crates" && echo *); do
    [ -n "$(definitions "$crate")" ] || continue
    case " $believed " in *" $crate "*) ;; *) echo "wrong_definitions.sh: it does not look at $crate, which has wrong definitions"; exit 1 ;; esac
done
# shellcheck disable=SC2086
printf '%s\n' $crates | xargs -P "$(nproc)" -n 1 "$0" --one
