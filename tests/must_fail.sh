#!/usr/bin/env bash
# must_fail.sh [CRATE..]: tries the wrong programs: the edits of crates/CRATE/must-fail that change the crate's code, in the form of rt's must-fail edits, each with a
# line `refused: FUNCTION` or `refused: FUNCTION FACT`. rt ci refuses each too, wherever that may be. It changes the body of that function and nothing else (or, with a line `constant: NAME`, a constant), and it is
# refused where a fact of that function's own does not close: one of its goals, which has no proof or whose answer is refused, by the prover's own words. Not enough are: that
# the function isn't proved because one that it calls isn't; and that its proof has lost its shape, since it names what the edit has taken out of the function.
#
# Goals are named by the code that they are about, so that another value there can be another name: then the shape is lost, and with it nothing else. Such an edit says by a line
# `renames: OLD NEW` (or by several) how the proof's names go on, as counts-k-ne1, counts-k-eq0. Where the shape is lost, and the prover misses a name with OLD in it, the proof of
# that function is tried once more with NEW in the place of OLD, and a fact must be refused.
#
# A wrong program that is another order of calls or branches can't but change the shape. Its edit says so, `shape: changes`, and names a console input,
# `told by: FILE`: the console program with the edit, compiled without a proof and run on that input, must print something else than the stored answer.
#
# rt ci tries each by a check of its own. Two things make it less here. As rt does, what `rt check` has kept of the crate as it stands
# is taken over, and only what the edits change is checked again. And edits of different functions are tried together: a proof knows of other
# functions only their contracts, which no edit touches, so that each is judged by its own facts. What is not refused together is tried again alone.
#
# Controls, without which the script fails: each crate has, in crates/CRATE/must-pass, an edit with a line `control: FUNCTION` that changes nothing but white space, of a function that calls what
# other edits break (in stages none calls another). It must not be refused among the others; and where another is tried alone, it must not be refused alone, and leaves the crate proved. Nowhere may a
# function be refused that no edit changes. And the program as it stands, compiled without a proof, prints what is stored. Needs what tests/kept.sh leaves in crates/*/out.
set -euo pipefail
here=$(cd "$(dirname "$0")" && pwd)
top=$(dirname "$here")
# shellcheck source=tests/kit.sh
. "$here/kit.sh"

# The edits of the crate's code: its wrong programs, and its controls.
programs() { # CRATE
    grep -slE '^file: src/' "$top/crates/$1/must-fail"/*.edit "$top/crates/$1/must-pass"/*.edit || true
}

# The crate as it stands, in a folder of its own; what an edit changes is put back by `unedited`.
prepare() { # CRATE FOLDER
    local part
    mkdir -p "$2/crates/$1"
    for part in src specs proofs; do [ ! -d "$top/crates/$1/$part" ] || cp -R "$top/crates/$1/$part" "$2/crates/$1"; done
    mapfile -t words < <(rattle_words "$top" "$1")
}

# The code without any edit.
unedited() { # CRATE FOLDER
    rm -rf "$2/crates/$1/src"
    cp -R "$top/crates/$1/src" "$2/crates/$1"
}

# What a check kept of the crate as it stands. It is a copy: a check writes there what it checks.
as_checked() { # CRATE FOLDER
    rm -rf "$2/kept"
    cp -R "$top/crates/$1/out/incremental" "$2/kept"
}

# Puts the new text in the place of the old one, which stands just once in its file, and prints the function in whose body that is, or a dash.
replace() { # FILE OLD NEW
    OLD=$2 NEW=$3 awk -v edited="$1.edited" '
        { text = text $0 "\n"; line[NR] = $0; ends[NR] = length(text) }
        function around(first, last,    i, indent, margin, name, body) {
            for (i = 1; i <= NR; i++) {
                indent = line[i]; sub(/[^ ].*/, "", indent)
                if (line[i] ~ /^ *(pub |pub\(crate\) )?(extern "C" )?fn [a-z_0-9]+/) {
                    name = line[i]; sub(/^.*fn /, "", name); sub(/[^a-z_0-9].*/, "", name)
                    margin = indent
                    body = line[i] ~ /\{$/ ? ends[i] + 1 : 0
                }
                else if (name && !body && (line[i] == margin "{" || index(line[i], margin ")") == 1 && line[i] ~ /\{$/)) body = ends[i] + 1
                else if (name && body && line[i] == margin "}") {
                    if (body <= first && last <= ends[i - 1]) return name
                    name = ""
                }
            }
            return "-"
        }
        END {
            old = ENVIRON["OLD"]
            at = index(text, old)
            rest = substr(text, at + length(old))
            if (old == "" || !at || index(rest, old)) exit 1
            printf "%s%s%s", substr(text, 1, at - 1), ENVIRON["NEW"], rest >edited
            print around(at, at + length(old) - 1)
        }' "$1" && mv "$1.edited" "$1"
}

# Makes the edit, and prints the functions that it changes, a line each.
apply() { # EDIT CRATE-FOLDER
    local line file='' old='' function module
    while IFS= read -r line || [ -n "$line" ]; do
        case $line in
        'file: '*) file=${line#file: } ;;
        'old: '*) old=${line#old: } ;;
        'new:'*)
            line=${line#new:}
            function=$(replace "$2/$file" "$old" "${line# }") || return 1
            module=${file#src/}
            module=${module%.rt}
            case $module/$function in lib/* | */-) ;; *) function=${module//\//::}::$function ;; esac
            echo "$function"
            ;;
        esac
    done <"$1"
}

# What the edit says under a key; nothing if it has no such line.
said_of() { # EDIT KEY
    sed -nE "s/^($2): //p" "$1"
}

# The function that the edit names, and the fact if it names one.
named() { # EDIT
    said_of "$1" 'refused|control'
}

function_of() { # EDIT
    local function
    function=$(named "$1")
    echo "${function%% *}"
}

is_control() { # EDIT
    [ -n "$(said_of "$1" control)" ]
}

failed=0
fail() { # MESSAGE
    echo "$1"
    failed=1
}

# Says what is wrong with the edit itself, if something is.
unsound() { # CRATE FOLDER EDIT
    local changed wanted file
    unedited "$1" "$2"
    wanted=$(function_of "$3")
    # a method is named by its impl too, as rt tells it
    wanted=$(sed -E 's/[A-Z][A-Za-z0-9]*:://g' <<<"${wanted//+/}")
    [ -z "$(said_of "$3" constant)" ] || wanted=-
    if ! changed=$(apply "$3" "$2/crates/$1" | sort -u) || [ -z "$changed" ]; then
        echo 'an old text does not stand in its file just once'
    elif [ "$(named "$3" | grep -c .)" != 1 ]; then
        echo 'it does not name one function'
    elif [ "$changed" != "$wanted" ]; then
        echo "it changes $(tr '\n' ' ' <<<"$changed")and not $wanted alone"
    elif is_control "$3"; then
        for file in $(said_of "$3" file); do
            cmp -s <(tr -d ' \n' <"$top/crates/$1/$file") <(tr -d ' \n' <"$2/crates/$1/$file") || echo 'a control, and it changes more than white space'
            ! cmp -s "$top/crates/$1/$file" "$2/crates/$1/$file" || echo 'a control, and it changes nothing at all'
        done
    fi
}

# The functions that the prover refuses for a fact of their own, a line each: the function and the fact, or a dash where the proof has lost its shape. Where a goal is
# answered in a file, an error there tells it, at an answer that the file states as one of the function's goals; where rattle looks for the proof itself, the line about the
# function tells it. The shape is lost where the file names a goal, a field or a variable that is not there, or where one of its invariants is refused.
refusals() { # CRATE FOLDER
    awk -v crate="fn $1::" -v folder="$2/crates/$1/" '
        function is_goal(file, name,    text, found) {
            while ((getline text <(folder file)) > 0) if (index(text, " " name " : goal.") || index(text, name " : goal.") == 1) found = 1
            close(folder file)
            return found
        }
        /^(\.\/)?proofs\/.*\/(Answers|Invariants|Proof)\.antt:[0-9]+:[0-9]+: error: / {
            file = $0; sub(/^\.\//, "", file); sub(/:[0-9]+:[0-9]+: error: .*/, "", file)
            of = file; sub(/^proofs\//, "", of); sub(/\/[^\/]*$/, "", of); gsub(/\//, "::", of)
            said = $0; sub(/^[^:]*:[0-9]+:[0-9]+: error: /, "", said)
            name = ""
            if (match(said, /^`[^`]+`: /)) { name = substr(said, 2, RLENGTH - 4); said = substr(said, RLENGTH + 1) }
            # what rests on another that is refused
            if (said ~ /was not admitted|was rejected|which (was|were) not /) next
            if (name == "" || file ~ /\/Invariants\.antt$/ || said ~ / has no (`|field )| is not in scope/) print of, "-"
            else if (is_goal(file, name)) print of, name
        }
        index($0, crate) == 1 && /: no proof: expected [^;]* in [^;]*\/Invariants\.antt/ {
            of = substr($0, length(crate) + 1); sub(/: no proof: .*/, "", of)
            print of, "-"
        }
        index($0, crate) == 1 && /: no proof: .*`search` did not prove `/ {
            of = substr($0, length(crate) + 1); sub(/: no proof: .*/, "", of)
            facts = $0; sub(/^.*`search` did not prove /, "", facts); sub(/;.*/, "", facts)
            for (; match(facts, /`[^`]+`/); facts = substr(facts, RSTART + RLENGTH)) print of, substr(facts, RSTART + 1, RLENGTH - 2)
        }' "$2/log" | sort -u
}

# The names that the proof of the function names and the prover doesn't find, in one line.
lost_names() { # FOLDER FUNCTION
    awk -v from="proofs/${2//:://}/" '
        /\.antt:[0-9]+:[0-9]+: error: / && (index($0, from) == 1 || index($0, "./" from) == 1) {
            if (match($0, / has no (field )?`[^`]+`/)) { name = substr($0, RSTART, RLENGTH); sub(/^[^`]*/, "", name) }
            else if (match($0, /`[^`]+` is not in scope/)) { name = substr($0, RSTART, RLENGTH); sub(/ is.*/, "", name) }
            else next
            gsub(/`/, "", name)
            if (!seen[name]++) names = names (names ? " " : "") name
        }
        END { print names }' "$1/log"
}

# Brings the names in the proof of the edit's function to what the edit makes of them, all at once, so that two can be exchanged. Each that is to be renamed must be among those
# that the prover has missed.
rename() { # CRATE FOLDER EDIT
    local old new function missed number=0 away=() back=()
    function=$(function_of "$3")
    missed=$(lost_names "$2" "$function")
    while read -r old new; do
        # missed, or a name that another takes
        [[ $missed == *"$old"* ]] || said_of "$3" renames | grep -qE " $old\$" || return 1
        number=$((number + 1))
        # twice, since what stands between two names is part of both
        for _ in 1 2; do away+=(-e "s/(^|[^A-Za-z0-9_])$old([^A-Za-z0-9_]|\$)/\1@$number@\2/g"); done
        back+=(-e "s/@$number@/$new/g")
    done < <(said_of "$3" renames)
    sed -i -E "${away[@]}" "${back[@]}" "$2/crates/$1/proofs/${function//:://}"/*.antt
}

# The proofs without any renamed name.
unrenamed() { # CRATE FOLDER
    rm -rf "$2/crates/$1/proofs"
    [ ! -d "$top/crates/$1/proofs" ] || cp -R "$top/crates/$1/proofs" "$2/crates/$1"
}

# Makes these edits in the code as it stands; the first that doesn't fit beside those before it is left in `unfit`.
make() { # CRATE FOLDER EDIT..
    local crate=$1 folder=$2
    shift 2
    unedited "$crate" "$folder"
    for unfit in "$@"; do apply "$unfit" "$folder/crates/$crate" >/dev/null || return 1; done
}

# Checks the crate with these edits, which were made, and leaves the refusals in `refused`. A function that none of them changes must not be among these.
check() { # CRATE FOLDER EDIT..
    local crate=$1 folder=$2 edit function functions=' '
    shift 2
    for edit in "$@"; do is_control "$edit" || functions+="$(function_of "$edit") "; done
    (cd "$folder/crates/$crate" && "$kit/bin/rattle" check "${words[@]}" --incremental "$folder/kept") >"$folder/log" 2>&1 || true
    refused=$(refusals "$crate" "$folder")
    for function in $(cut -d ' ' -f 1 <<<"$refused"); do
        case $functions in *" $function "*) ;; *) fail "$crate: REFUSED, AND NO EDIT CHANGES IT: $function" ;; esac
    done
}

# The facts of the edit's function that do not close, in one line: all of them, or the one that the edit names; a dash where the proof has lost its shape.
facts_of() { # EDIT
    local function fact
    read -r function fact <<<"$(named "$1")"
    awk -v of="$function" -v fact="$fact" '
        $1 == of && $2 == "-" { lost = 1 }
        $1 == of && (fact == "" || $2 == fact) { facts = facts (facts ? ", " : "") $2 }
        END { print lost ? "-" : facts }' <<<"$refused"
}

# The pending edits that go together, at most one of a function, in `taken`; the others stay pending.
take() {
    local edit function functions=' ' left=()
    taken=()
    for edit in "${pending[@]}"; do
        function=$(function_of "$edit")
        case $functions in
        *" $function "*) left+=("$edit") ;;
        *) functions+="$function " taken+=("$edit") ;;
        esac
    done
    pending=(${left[@]+"${left[@]}"})
}

# Tries the edits that are taken, together. What is not refused is left in `open`, and so is what doesn't fit beside the others; what changes the shape, in `shaped`.
together() { # CRATE FOLDER
    local edit facts unfit others
    while ! make "$1" "$2" "${taken[@]}"; do
        open+=("$unfit")
        others=()
        for edit in "${taken[@]}"; do [ "$edit" = "$unfit" ] || others+=("$edit"); done
        taken=("${others[@]}")
    done
    check "$1" "$2" "${taken[@]}"
    for edit in "${taken[@]}"; do
        facts=$(facts_of "$edit")
        case $facts/$(said_of "$edit" shape) in
        -/changes) shaped+=("$edit") ;;
        /* | -/*) open+=("$edit") ;;
        *) judge "$1" "$2" "$edit" "$facts" ;;
        esac
    done
}

alone() { # CRATE FOLDER EDIT
    as_checked "$1" "$2"
    make "$1" "$2" "$3"
    check "$1" "$2" "$3"
    if [ -n "$(said_of "$3" renames)" ]; then
        if [ "$(facts_of "$3")" != - ] || ! rename "$1" "$2" "$3"; then fail "$1/$(basename "$3" .edit): its names are not those that the proof of $(function_of "$3") has lost"; unrenamed "$1" "$2"; return; fi
        check "$1" "$2" "$3"
        unrenamed "$1" "$2"
    fi
    judge "$1" "$2" "$3" "$(facts_of "$3")"
}

# What is to be said of an edit of whose function these facts do not close.
judge() { # CRATE FOLDER EDIT FACTS
    local name function others
    name=$1/$(basename "$3" .edit)
    function=$(function_of "$3")
    if is_control "$3"; then
        judge_control "$name" "$2/log" "$4"
    elif [ -z "$4" ]; then
        others=$(awk -v of="$function" '$1 == of { print $2 }' <<<"$refused" | paste -sd ' ')
        fail "$name: NOT REFUSED at $(named "$3")${others:+, but at: $others}"
    elif [ "$4" = - ]; then
        fail "$name: REFUSED FOR ITS SHAPE ALONE: the proof of $function names what is not there: $(lost_names "$2" "$function")"
    elif [ -n "$(said_of "$3" shape)" ]; then
        fail "$name: says that its shape changes, and is refused at $function, $4"
    else
        echo "$name: refused at $function, $4"
    fi
}

judge_control() { # NAME LOG FACTS
    if [ -n "$3" ]; then
        fail "$1: REFUSED, AND IT IS A CONTROL: $3"
    elif ! grep -q '^logic=proved ' "$2"; then
        fail "$1: a control, and the crate is not proved with it"
    else
        echo "$1: not refused, as a control must be"
    fi
}

# An edit that changes the shape: the input must tell it. (tests/console.sh holds the program as it stands to the stored answer.)
told() { # CRATE FOLDER EDIT
    local name input printed
    name=$1/$(basename "$3" .edit)
    input=$(said_of "$3" 'told by')
    rm -rf "$2/tree"
    mkdir "$2/tree"
    (cd "$top" && cp -R --parents crates.txt crates/*/src "$2/tree")
    apply "$3" "$2/tree/crates/$1" >/dev/null
    printed=$("$here/unproved.sh" "$2/tree" "$top/$input") || printed='it could not be run'
    case $printed in
    'something else') echo "$name: refused for its shape, and told by $input" ;;
    *) fail "$name: NOT TOLD by $input: $printed" ;;
    esac
}

one_crate() { # CRATE
    local folder edit wrong control began=$SECONDS words=() pending=() taken=() open=() shaped=() refused=''
    [ -d "$top/crates/$1/out/incremental" ] || { echo "$1: no check has kept anything of it: tests/kept.sh"; exit 1; }
    # outside the checkout, where rt wants no second copy of a source
    folder=$(mktemp -d)
    # shellcheck disable=SC2064
    trap "rm -rf '$folder'" EXIT
    prepare "$1" "$folder"
    for edit in $(programs "$1"); do
        wrong=$(unsound "$1" "$folder" "$edit")
        if [ -n "$wrong" ]; then fail "$1/$(basename "$edit" .edit): $wrong"; continue; fi
        # a control goes first, so that it is tried with as many others as there can be; who else reads a constant isn't known, so that its edit is tried alone
        if is_control "$edit"; then pending=("$edit" ${pending[@]+"${pending[@]}"})
        elif [ -n "$(said_of "$edit" 'constant|renames')" ]; then open+=("$edit")
        else pending+=("$edit"); fi
    done
    if [ ${#pending[@]} -lt 2 ] || ! is_control "${pending[0]}"; then
        echo "$1: there is no control, or no edit beside it"
        exit 1
    fi
    control=${pending[0]}
    as_checked "$1" "$folder"
    while [ ${#pending[@]} -gt 0 ]; do
        take
        together "$1" "$folder"
    done
    # a control that was refused isn't open
    if [ "${open[*]-}" = "$control" ]; then
        echo "$1/$(basename "$control" .edit): not refused, as a control must be"
    else
        for edit in ${open[@]+"${open[@]}"}; do alone "$1" "$folder" "$edit"; done
    fi
    for edit in ${shaped[@]+"${shaped[@]}"}; do told "$1" "$folder" "$edit"; done
    echo "$1: $((SECONDS - began)) s"
    exit "$failed"
}

if [ "${1:-}" = --one ]; then one_crate "$2"; fi
# those with the most edits first, so that no processor is left with a long one at the end
crates=${*:-$(cd "$top/crates" && for crate in *; do programs "$crate" | sed "s/.*/$crate/"; done | sort | uniq -c | sort -rn | awk '{ print $2 }')}
[ -n "$crates" ] || { echo 'must_fail.sh: there is no wrong program'; exit 1; }
# shellcheck disable=SC2086
printf '%s\n' $crates | xargs -P "$(nproc)" -n 1 "$0" --one
[ "$("$here/unproved.sh" "$top" "$top/examples/case-a/case-a.console")" = 'as stored' ] || { echo 'must_fail.sh: without a proof the console program prints something else'; exit 1; }
