#!/usr/bin/env bash
# header.sh: holds docs/styrmflo.h to the exports. Of each function of crates/exports/src/lib.rt a pointer is made whose type is worked out from the
# function's own signature, and the header's declaration is stored in it: another type, or no declaration, is an error of the compiler: of C for processors of 64 and of
# 32 bits (a count has 64 on both), and of C++. And the header declares no function that isn't exported. (That the archive has these functions, and that sizes and
# numbers are what the header says, shows where it is called: tests/shipped.sh.)
set -euo pipefail
cd "$(dirname "$0")/.."
header=docs/styrmflo.h
source=crates/exports/src/lib.rt
room=$(mktemp -d)
trap 'rm -rf "$room"' EXIT

# A line a function: its name, the type of what it returns, the types of its parameters.
signatures() {
    awk '
        function c_type(t) {
            gsub(/\047[a-z]+ /, "", t)
            if (t ~ /^&mut \[u[0-9]+\]$/) return "uint" substr(t, 8, length(t) - 8) "_t *, uint64_t"
            if (t ~ /^&\[u[0-9]+\]$/) return "const uint" substr(t, 4, length(t) - 4) "_t *, uint64_t"
            if (t ~ /^u[0-9]+$/) return "uint" substr(t, 2) "_t"
            if (t == "usize") return "uint64_t"
            if (t == "") return "void"
            return "unknown_type_" t
        }
        /^pub extern "C" fn / { text = ""; inside = 1 }
        inside { text = text " " $0 }
        inside && /\)/ {
            inside = 0
            name = text; sub(/^ *pub extern "C" fn /, "", name); sub(/[<(].*/, "", name)
            result = ""
            if (text ~ /\) -> [a-z0-9]+/) { result = text; sub(/^.*\) -> /, "", result); sub(/[^a-z0-9].*/, "", result) }
            parameters = text; sub(/^[^(]*\(/, "", parameters); sub(/\)[^)]*$/, "", parameters)
            count = split(parameters, each, /, */)
            types = ""
            for (i = 1; i <= count; i++) {
                type = each[i]; sub(/^[^:]*: /, "", type); sub(/ +$/, "", type)
                if (type != "") types = types (types ? ", " : "") c_type(type)
            }
            print name " | " c_type(result) " | " (types ? types : "void")
        }' "$source"
}

signatures >"$room/signatures"
cut -d ' ' -f 1 "$room/signatures" | sort >"$room/exported"
grep -oE '\bstyrmflo_[a-z_0-9]+ *\(' "$header" | tr -d ' (' | sort >"$room/declared" || true
[ -s "$room/exported" ] || { echo "header.sh: no function is exported"; exit 1; }
if ! diff "$room/exported" "$room/declared" >"$room/differ"; then
    sed -nE "s|^< (.*)|$header: \1 is exported and not declared|p; s|^> (.*)|$header: \1 is declared and not exported, or twice|p" "$room/differ"
    exit 1
fi
{
    printf '#include "styrmflo.h"\n'
    sed -E 's/^([^ ]+) \| (.*) \| (.*)$/\2 (*const held_\1)(\3) = \1;/' "$room/signatures"
} >"$room/held.c"
for target in x86_64-unknown-linux-gnu armv7-unknown-linux-gnueabihf thumbv7em-none-eabi; do
    tests/c.sh "$header" --target="$target" -fsyntax-only "$room/held.c" || { echo "$header: not what is exported, $target"; exit 1; }
done
# a name of C is not mangled: a function that is declared again, for C, is the same one
{
    printf '#include "styrmflo.h"\nextern "C" {\n'
    sed -E 's/^([^ ]+) \| (.*) \| (.*)$/\2 \1(\3);/' "$room/signatures"
    printf '}\n'
} >"$room/held.cc"
tests/c.sh "$header" -std=c++11 -x c++ -fsyntax-only "$room/held.cc" || { echo "$header: not what is exported, C++"; exit 1; }
echo "$header: $(wc -l <"$room/exported") functions, as they are exported"
