#!/usr/bin/env python3
"""design_counts.py [-v] [COMMIT]: counts of docs/DESIGN-PASS.md, over src/ of a commit or, without one, of the checkout; with -v by file and line.

What a pattern can find is listed by file and line; which of them is a place of a point, the page says.
"""
import re
import subprocess
import sys

PATTERNS = [
    ("1 enums", r"^\s*(pub(\(crate\))? )?enum "),
    ("1 fields of type bool", r"^\s+pub [a-z_0-9]+: bool"),
    ("1 constants of an unsigned type", r"^(pub(\(crate\))? )?const [A-Z_]+: u(8|16|32|64|size) ="),
    ("1 arms of a match on a number", r"^\s+\d+( \| \d+)* =>"),
    ("1 a kind, tag, code, sort or phase compared with a number",
     r"\b(kind|tag|code|sort|phase|j)\b\)? *(<|<=|==|!=) *\d|\b\d+ *(<|<=|==|!=) *[a-z_.]*\b(kind|tag|code|sort|phase|j)\b"),
    ("2 functions", r"^\s*(pub(\(crate\))? )?(extern \"C\" )?fn "),
    ("3 while and loop", r"\b(while .*|loop )\{$"),
    ("3 for over numbers", r"\bfor .* in .*\.\..*\{$"),
    ("4 casts", r" as (u8|u16|u32|u64|usize|i32|i64)\b"),
    ("4 fields copied to names", r"^\s+let [a-z_0-9]+ = [a-z_]+\.[a-z_0-9]+;"),
    ("5 parameter words beside literals or message, or their fields apart", r"^\s+words: &\[u16\],$"),
    ("5 requires", r"^\s+requires "),
    ("6 arrays with a length", r"\[[a-zA-Z0-9]+; ?\d+\]"),
    ("6 four parameters or fields of one kind in a row", r"\ba: \w+, b: \w+, c: \w+, d: \w+|\bs: u16, t: u16, u: u16"),
    ("7 match", r"\bmatch "),
    ("7 closures and function types", r"\bdyn |\bFn(Mut|Once)?\(|\|[a-z_, &]*\| "),
]


def text_of(commit, path):
    if commit:
        return subprocess.run(["git", "show", f"{commit}:{path}"], capture_output=True, text=True, check=True).stdout
    return open(path, encoding="utf-8").read()


def main():
    words = [word for word in sys.argv[1:] if word != "-v"]
    commit = words[0] if words else ""
    listing = ["git", "ls-tree", "-r", "--name-only", commit] if commit else ["git", "ls-files"]
    paths = subprocess.run(listing, capture_output=True, text=True, check=True).stdout.split("\n")
    sources = [p for p in paths if re.fullmatch(r"crates/[^/]+/src/.*\.rt", p)]
    found = {name: [] for name, _ in PATTERNS}
    for path in sources:
        for number, line in enumerate(text_of(commit, path).split("\n"), 1):
            code = line.split("//")[0].rstrip()
            for name, pattern in PATTERNS:
                hits = len(re.findall(pattern, code))
                found[name] += [f"{path}:{number}"] * hits
    for name, _ in PATTERNS:
        print(f"{len(found[name]):4} {name}")
        if "-v" in sys.argv:
            print("".join(f"       {place}\n" for place in found[name]), end="")


main()
