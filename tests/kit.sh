# shellcheck shell=bash
# To be read in by other scripts, which stand at the top of the repository: kit is the kit's folder. Where there is no kit, one line says so, and the script that has read
# this in ends with 2.
command -v rt >/dev/null || { echo "rt, the command of the Rattle kit, is not on the path" >&2; exit 2; }
guide=$(rt doc) || guide=
[ -f "$guide" ] || { echo "the rt on the path is not the Rattle kit's: 'rt doc' names no guide" >&2; exit 2; }
kit=$(dirname "$guide")

# The first file that is newer than FILE of all that it was made from: the crates and the kit. It says none where FILE or one of these isn't there.
newer_than() { # FILE
    [ -f "$1" ] || { echo none; return; }
    find crates crates.txt "$kit/KIT-ID" -path 'crates/*/out' -prune -o -type f -newer "$1" -print -quit 2>/dev/null || echo none
}

# The libraries of the repository that crates.txt lists for a crate, and the kit's, a line each; nothing for a crate that isn't listed.
libraries_of() { # TOP CRATE
    sed -nE "s/^$2( staticlib)?:([^#]*).*/\2/p" "$1/crates.txt" | xargs -n 1 echo | grep . || true
}

# The words that rt gives rattle for the library CRATE, a word a line: its name and root file (it is run where src/ stands), the libraries as rt has built them, and the
# kit's logic. One job: the scripts that want these try several things at once.
rattle_words() { # TOP CRATE
    local library
    printf '%s\n' --crate-name "$2" src/lib.rt --extern "std=$kit/rlibs/std.rlib" -L "dependency=$kit/rlibs"
    for library in $(libraries_of "$1" "$2"); do printf '%s\n' --extern "$library=$1/crates/$library/out/rlib/$library.rlib"; done
    for library in "$1"/crates/*/out/rlib; do printf '%s\n' -L "dependency=$library"; done
    printf '%s\n' --antt-project "$kit/rattle/logic/antt-project.json" --logic-built "$kit/logic_built" --jobs 1 --links "$2="
    if grep -q "^$2 staticlib:" "$1/crates.txt"; then printf '%s\n' --crate-type staticlib; fi
}
