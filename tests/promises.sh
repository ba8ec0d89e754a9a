#!/usr/bin/env bash
# promises.sh: holds docs/PROMISES.md to the code. Every public function of a library crate stands there by its full name, `crate::module::function`, and no other does;
# every wrong program or definition (`crate/name.edit`) stands there, and each that it names is there; every definition or law (`crate/specs/Module.name`) that it names
# is there. And each public function has a contract of the kind that the page speaks of: no `requires`, and an `ensures` that is an equation or names a definition of the
# page. A conversion in a public module (`impl From<..> for TYPE`, where TYPE is the repository's) stands there as `TYPE::from`, and the line behind, its `from_gives`, is an
# equation. What is public in a form that this script can't read, another trait's impl in a public module too, is told.
# promises.sh --list prints the public functions.
set -euo pipefail
cd "$(dirname "$0")/.."
page=docs/PROMISES.md

# A function is public where every module around it is: a file's own functions, then those of the modules that it opens with `pub mod`.
public_in() { # FILE PATH
    local file=$1 path=$2 module inside
    sed -nE "s/^ *pub (extern \"C\" )?fn ([a-z_0-9]+).*/$path::\\2/p" "$file"
    while read -r module; do
        case $file in */lib.rt) inside=${file%lib.rt}$module.rt ;; *) inside=${file%.rt}/$module.rt ;; esac
        public_in "$inside" "$path::$module"
    done < <(sed -nE 's/^ *pub mod ([a-z_0-9]+);.*/\1/p' "$file")
}

public_functions() {
    local library
    for library in crates/*/src/lib.rt; do
        public_in "$library" "$(cut -d / -f 2 <<<"$library")"
    done | sort
}

# The files of a library whose items are public: its root, the modules that it opens with `pub mod`, and so on.
public_files() { # FILE
    local file=$1 module inside
    echo "$file"
    while read -r module; do
        case $file in */lib.rt) inside=${file%lib.rt}$module.rt ;; *) inside=${file%.rt}/$module.rt ;; esac
        public_files "$inside"
    done < <(sed -nE 's/^ *pub mod ([a-z_0-9]+);.*/\1/p' "$file")
}

# What is made public in none of these forms, and a module that stands inside its file: nothing below would see its functions.
unread() {
    local library
    for library in crates/*/src/lib.rt; do
        grep -rnE --include='*.rt' '\bpub\b|\bmod\b.*\{' "$(dirname "$library")" | grep -vE '^[^:]*:[0-9]+: *//' |
            grep -vE '^[^:]*:[0-9]+: *pub((\(crate\))? (fn [a-z]|const [A-Z]|(struct|enum) [A-Z])| extern "C" fn [a-z]| mod [a-z_0-9]+;$| (struct|enum) | [a-z_0-9]+: )' || true
        public_files "$library" | xargs grep -nHE '^ *(unsafe )?impl\b.*\bfor\b' | grep -vE ':[0-9]+: *impl From<[A-Za-z0-9]+> for [A-Z][A-Za-z0-9]* \{$' || true
    done
}

# The `pub fn` of a library whose contract has a `requires`, or no `ensures` that says something. (Of a private module too: what only its own crate calls is
# `pub(crate)`.) A contract is what stands between `fn` and the brace that opens the body, which ends a line; else it ends with the next item, or with the file.
without_promise() { # DEFINITIONS
    local library
    for library in crates/*/src/lib.rt; do
        find "$(dirname "$library")" -name '*.rt' -exec cat {} + | awk -v file="$library" -v definitions="$1" '
            BEGIN { count = split(definitions, definition, "\n") }
            function speaks(clause,    i) {
                if (index(clause, "≡")) return 1
                for (i = 1; i <= count; i++) if (index(clause, " " definition[i] " ")) return 1
                return 0
            }
            function judge(    clauses, clause, i, right) {
                clauses = split(contract, clause, / ensures /)
                right = clauses > 1 && contract !~ / requires /
                for (i = 2; i <= clauses; i++) if (!speaks(clause[i])) right = 0
                if (name && !right) print file ": " name
                name = ""
            }
            { sub(/^ *\/\/.*/, "") }
            /^ *(pub |pub\(crate\) )?(extern "C" )?(fn|mod|use|const|struct|enum|impl) / { judge() }
            /^ *pub (extern "C" )?fn / { name = $0; sub(/^.*fn /, "", name); sub(/[^a-z_0-9].*/, "", name); contract = "" }
            name { contract = contract " " $0 " " }
            name && /\{$/ { judge() }
            END { judge() }'
    done
}

# The conversions, a line each: the type that they make, and whether the line behind says by an equation what they give.
conversions() {
    local library
    for library in crates/*/src/lib.rt; do
        public_files "$library" | xargs cat | awk '
            made { print made, ($0 ~ /^ *ghost from_gives = \{.*≡.*\};$/ ? "said" : "unsaid"); made = "" }
            /^ *impl From<.*> for [A-Z]/ { made = $0; sub(/^.* for /, "", made); sub(/[^A-Za-z0-9].*/, "", made) }
            END { if (made) print made, "unsaid" }'
    done | sort
}

# The wrong programs and definitions, as the page names them.
edits() {
    local edit name
    for edit in crates/*/must-fail/*.edit; do
        name=${edit#crates/}
        echo "${name%%/*}/${edit##*/}"
    done | sort
}

# What stands on the page in code font and has this form.
named() { # PATTERN
    grep -oE "\`$1\`" "$page" | tr -d '`' | sort -u || true
}

wrong=0
tell() { # MESSAGE
    echo "$page: $1"
    wrong=1
}

# Both lists are the same.
hold() { # THERE NAMED MISSING STRANGE
    local one
    while read -r one; do tell "$one $3"; done < <(comm -23 <(echo "$1") <(echo "$2"))
    while read -r one; do tell "$one $4"; done < <(comm -13 <(echo "$1") <(echo "$2"))
}

functions=$(public_functions)
[ -n "$functions" ] || { echo "promises.sh: no public function was found"; exit 1; }
if [ "${1:-}" = --list ]; then
    echo "$functions"
    exit
fi

while read -r line; do [ -z "$line" ] || tell "can't be read: $line"; done <<<"$(unread)"
hold "$functions" "$(named '[a-z_0-9]+(::[a-z_0-9]+)+')" 'is missing' 'is no public function'
hold "$(conversions | sed 's/ .*/::from/' | sort -u)" "$(named '[A-Z][A-Za-z0-9]*::from')" 'is missing' 'is no conversion'
while read -r type; do tell "$type::from has no \`from_gives\` that is an equation"; done < <(conversions | sed -n 's/ unsaid$//p')
hold "$(edits)" "$(named '[a-z_0-9]+/[a-z_0-9]+\.edit')" 'is not named' 'is not there'
definitions=$(named '[a-z_0-9]+/(specs|proofs)/[A-Za-z]+(\.[^`. ]+)?')
unpromised=$(without_promise "$(sed -n 's/.*\.//p' <<<"$definitions")")
while read -r function; do [ -z "$function" ] || tell "$function has a \`requires\`, or no \`ensures\` that says something"; done <<<"$unpromised"
for definition in $definitions; do
    module=${definition%%.*}
    name=${definition#"$module"}
    name=${name#.}
    if [ ! -f "crates/$module.antt" ]; then
        tell "crates/$module.antt is not there"
    elif [ -n "$name" ] && ! grep -qE "pub (record |data )?$name( |\$)" "crates/$module.antt"; then
        tell "$name is not in crates/$module.antt"
    fi
done

[ "$wrong" = 0 ] || exit 1
echo "$page: $(wc -l <<<"$functions") public functions, each with its promise"
