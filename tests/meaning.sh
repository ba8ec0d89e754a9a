#!/usr/bin/env bash
# meaning.sh: holds docs/MEANING.md to the repository, and the readings of docs/DECISIONS.md. What a cell points to must be there: a definition in the file it is said to be in, a function
# in its crate with its proof where the page's head says, a law, a wrong definition or program, a group or a case of the vectors, a console input, a file. How a pointer
# is written, the page's head says; a name in code font that a definition, proof, code or test column has in no such form is told. And the files that must be believed,
# there and in README.md, have as many lines as is said.
# (That the left column has document 01's words can't be looked at here: document 01 is not in the repository.)
set -euo pipefail
cd "$(dirname "$0")/.."
page=docs/MEANING.md
readings=docs/DECISIONS.md

# A line a cell: where it stands, its column and what the column's header has in brackets, document 01's words, the cell. Of the page's head: the functions without a file.
cells() {
    awk '
        function column(header) {
            sub(/ \(.*/, "", header)
            return header ~ /^(definition|proof|code|test|as a definition|as a program)$/ ? header : "where"
        }
        function bracket(header) {
            if (header !~ /\(/) return ""
            gsub(/^[^(]*\(|[,)].*$|`/, "", header)
            return header
        }
        BEGIN { OFS = "\t" }
        /^- / { fileless = /^- \*\*No file\*\*/ }
        /^$/ { fileless = 0 }
        fileless { print FILENAME ":" NR, "no file", "", "", $0 }
        /^## / { head_over = 1 }
        head_over && /^[A-Za-z(`]/ { print FILENAME ":" NR, "where", "", "", $0 }
        !/^\|/ { inside = 0; next }
        /^\|-/ { next }
        { count = split(substr($0, 3, length($0) - 4), cell, / \| |\| /) }
        !inside { inside = 1; for (i = 1; i <= count; i++) header[i] = cell[i]; next }
        { for (i = 2; i <= count; i++) if (cell[i] != "") print FILENAME ":" NR, column(header[i]), bracket(header[i]), cell[1], cell[i] }' "$page"
}

# The same of the readings: of each what stands behind the words that it reads.
reading_cells() {
    awk '
        function tell() { if (item != "") print FILENAME ":" from "\twhere\t\t\t" item; item = "" }
        /^[0-9]+\. / { tell(); from = NR; item = $0; sub(/^.*\*\*/, "", item); next }
        /^ / && item != "" { sub(/^ */, " "); item = item $0; next }
        { tell() }
        /^## Choices/ { exit }' "$readings"
}

# The cells in pieces, a line each: a name in code font, words in quotes, `;`, or a word.
pieces() {
    awk -F '\t' '
        BEGIN { OFS = "\t" }
        {
            rest = $5 " ;"
            print $1, $2, $3, $4, "cell"
            while (match(rest, /`[^`]*`|"[^"]*"|;|[^ `";]+/)) {
                print $1, $2, $3, $4, substr(rest, RSTART, RLENGTH)
                rest = substr(rest, RSTART + RLENGTH)
            }
        }'
}

# A line a pointer: where it stands, its kind, what it must be in, the name. A name goes with what was named before it, up to the next `;` (a crate up to the cell's end), and in a
# column that isn't of one kind up to the next word.
pointers() {
    awk -F '\t' -v folders="$(basename -a crates/*)" '
        function point(kind, place, name) { print $1 "\t" kind "\t" (place == "" ? "-" : place) "\t" name }
        function within(a, b) { kind = a; place = b }
        function path(name) { point("path", "", name); within("declared", name) }
        function begin() {
            if (group_due) point("sentence", vectors, $4)
            group_due = every = 0
            said = ""
            vectors = $2 == "test" ? $3 : ""
            if ($2 == "definition" && $3 != "") within("definition", "grammar/specs/" $3)
            else if ($2 == "code" && $3 != "") within("function", $3)
            else if ($2 == "as a definition") within("edit", "grammar/must-fail")
            else within("", "")
        }
        function named(name) {
            if (name ~ /\//) path(name)
            else if ($2 ~ /^(test|where)$/ && name ~ /^(table|typing|runs|listing)$/) { vectors = name; group_due = $2 == "test" && !every }
            else if ($2 ~ /^(test|where)$/ && name == "console") within("console", "")
            else if (name ~ /^[A-Za-z][^ =]*$/) {
                if (said in is_crate) within(programs ? "edit" : $2 == "no file" ? $2 : "function", said (programs ? "/must-fail" : ""))
                if (kind != "") point(kind, place, name)
                else if ($2 != "where") point("unread", "", name)
            }
            said = ""
        }
        function word(text, bare, before) {
            before = said; said = ""
            gsub(/^\(|[,.:)]+$/, "", bare)
            if (before == "crate") crate = bare
            else if (bare == "crate" || bare in is_crate) said = bare
            else if (text ~ /^[Dd]efinitions?:$/) within("edit", "grammar/must-fail")
            else if (text ~ /^[Pp]rograms?:$/) programs = 1
            else if (bare ~ /^([a-z_]+\/)?proofs(\/[A-Za-z_]+)+$/) { within("law", (bare ~ /^proofs/ ? "grammar/" : "") bare); point("file", place, "") }
            else if (bare ~ /^(tests|docs|examples)\//) path(bare)
            else if (bare ~ /^[a-z_]+\/src\//) path("crates/" bare)
            else if (text ~ /^[A-Z][a-zA-Z]*:$/) { within("definition", crate "/specs/" bare); point("file", place, "") }
            else if ($2 == "test" && text ~ /^[A-O],?$/) point("case", "runs", bare)
            else if ($2 == "test" && bare == "group") group_due = 1
            else if ($2 == "test" && bare == "every") every = 1
            else if ($2 == "where" && bare ~ /[A-Za-z0-9]/ && bare != "and") { kind = ""; vectors = "" }
            if ($2 == "where" && text ~ /[.)]$/) kind = ""
        }
        BEGIN { count = split(folders, each, "\n"); for (i = 1; i <= count; i++) is_crate[each[i]] = 1 }
        $5 == "cell" { crate = "grammar"; programs = $2 == "as a program"; group_due = 0; begin(); next }
        $5 == ";" { begin(); next }
        $5 ~ /^`/ { named(substr($5, 2, length($5) - 2)); next }
        $5 ~ /^"/ && vectors != "" { point("group", vectors, substr($5, 2, length($5) - 2)); group_due = 0; next }
        $5 ~ /^"/ { if ($2 == "test") point("unread", "", $5); next }
        { word($5, $5) }'
}

# What stands in the files of definitions and laws, a line each: the file, without crates/ and .antt (and of a function's proof its folder alone), and the name of a definition, law,
# constructor, field or goal.
standing() {
    find crates -path 'crates/*/out' -prune -o -name '*.antt' -exec awk '
        FNR == 1 { file = FILENAME; gsub(/^crates\/|\.antt$/, "", file); if (file ~ /^[a-z_0-9]+\/proofs\/.*\//) sub(/\/(Answers|Invariants|Proof)$/, "", file); print file "\t" }
        /^ *((pub|abbrev|unfoldable|data|record) )*[^ ]+( [({].*)? :( |$)/ {
            name = $0; gsub(/^ *((pub|abbrev|unfoldable|data|record) )*/, "", name); sub(/ .*/, "", name)
            print file "\t" name
        }' {} +
}

# The functions and constants of the crates, a line each: crate, name, `fn` or `const`, and a function's folder of proofs: of lib.rt and main.rt that of the crate, else of its module; of a method, that of its type there (of a From, TYPEFromTYPE).
written() {
    awk '
        FNR == 1 { split(FILENAME, part, "/"); module = part[4]; sub(/\.rt$/, "/", module); if (module ~ /^(lib|main)\/$/) module = ""; type = "" }
        /^impl [A-Za-z0-9_]+ \{$/ { type = $2 "/" }
        /^impl From<[A-Za-z0-9_]+> for [A-Za-z0-9_]+ \{$/ { from = $2; gsub(/^From<|>$/, "", from); type = $4 "From" toupper(substr(from, 1, 1)) substr(from, 2) "/" }
        /^\}/ { type = "" }
        /^ *(pub |pub\(crate\) )?(extern "C" )?(fn|const) / {
            name = $0; sub(/^ *(pub |pub\(crate\) )?(extern "C" )?/, "", name)
            sort = name; sub(/ .*/, "", sort)
            sub(/^[a-z]+ /, "", name); sub(/[^A-Za-z0-9_].*/, "", name)
            print part[2] "\t" name "\t" sort "\t" part[2] "/proofs/" module type name
        }' crates/*/src/*.rt
}

# What is wrong with a pointer.
antt_wrong() { # PLACE NAME
    if [ -z "${there[$1 ]:-}" ]; then
        said="crates/$1.antt is not there"
    elif [ -z "${there[$1 $2]:-}" ]; then
        said="$2 is not in crates/$1"
    fi
}

function_wrong() { # KIND CRATE NAME
    local folder=${proofs[$2 $3]:-}
    case $folder in
        '') said="$3 is not in crates/$2/src" ;;
        const) ;;
        *' '*) said="$3 is in more than one file of crates/$2/src" ;;
        *)
            if [ -n "${there[$folder ]:-}" ]; then
                [ "$1" = function ] || said="crates/$folder is there, and the page's head says that it isn't"
            elif [ -z "${fileless[$2 $3]:-}" ]; then
                said="crates/$folder is not there, and the page's head doesn't say so"
            fi
            ;;
    esac
}

wrong() { # KIND PLACE NAME
    said=
    case $1 in
        definition | law | file) antt_wrong "$2" "$3" ;;
        function | 'no file') function_wrong "$@" ;;
        edit) [ -f "crates/$2/$3.edit" ] || said="crates/$2/$3.edit is not there" ;;
        path) compgen -G "$3" >/dev/null || said="$3 is not there" ;;
        declared) grep -qsE "\b(fn|const|struct|enum) $3\b" "$2" || said="$3 is not in $2" ;;
        console) compgen -G "tests/console/$3.console" >/dev/null || said="tests/console/$3.console is not there" ;;
        case) [[ ${cases[$2]} == *$'\n'"both $3: "* ]] || said="$2 has no case $3" ;;
        group) [[ ${headlines[$2]}${cases[$2]} == *"$3"* ]] || said="$2 has no group and no case \"$3\"" ;;
        sentence) [[ ${headlines[$2]} == *"$(cut -d ' ' -f 1-4 <<<"$3")"* ]] || said="$2 has no group \"$3\"" ;;
        *) said="$3 stands in none of the forms that the page's head has" ;;
    esac
}

# The files that must be believed, a line a row: where it stands, how many lines are said, the files: one; a folder's, or those that it names in brackets.
believed() {
    awk -F ' *[|] *' '
        /^\| `crates\// {
            gsub(/[`,]/, "", $2); gsub(/,/, "", $3)
            files = $2
            if (files ~ /\/$/) files = files "*.antt"
            count = split(files, part, /[ ()]+/)
            if (count > 1) files = ""
            for (i = 2; i < count; i++) files = files part[1] part[i] ".antt "
            print FILENAME ":" FNR "\t" $3 "\t" files
        }' "$page" README.md
}

all=$({ cells; reading_cells; } | pieces | pointers)
for kind in definition law function 'no file' edit path console case group sentence; do
    grep -qF $'\t'"$kind"$'\t' <<<"$all" || { echo "meaning.sh: nothing of this kind was found: $kind"; exit 1; }
done
declare -A there proofs fileless headlines cases
while IFS=$'\t' read -r place name; do there[$place $name]=1; done < <(standing)
while IFS=$'\t' read -r crate name sort folder; do
    [ "$sort" = fn ] || folder=const
    proofs[$crate $name]=${proofs[$crate $name]:+${proofs[$crate $name]} }$folder
done < <(written)
while IFS=$'\t' read -r _ kind crate name; do [ "$kind" != 'no file' ] || fileless[$crate $name]=1; done <<<"$all"
for file in table typing runs listing; do
    headlines[$file]=$'\n'$(grep '^## ' "tests/vectors/$file.cases" || true)
    cases[$file]=$'\n'$(grep -E '^(check|type|both|bench|display|text|read|write) ' "tests/vectors/$file.cases" || true)
done
failed=0
while IFS=$'\t' read -r at kind place name; do
    wrong "$kind" "$place" "$name"
    [ -z "$said" ] || { echo "$at: $said"; failed=1; }
done <<<"$all"
rows=$(believed)
for file in "$page" README.md; do grep -q "^$file:" <<<"$rows" || { echo "$file: no files that must be believed were found"; exit 1; }; done
while IFS=$'\t' read -r at lines files; do
    # shellcheck disable=SC2086
    counted=$(cat $files | wc -l) || failed=1
    [ "$lines" = "$counted" ] || { echo "$at: $files: $counted lines, not $lines"; failed=1; }
done <<<"$rows"
[ "$failed" = 0 ] || exit 1
echo "$page: $(cut -f 2- <<<"$all" | sort -u | wc -l) pointers, each to what is there"
