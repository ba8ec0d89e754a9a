#!/usr/bin/env python3
"""edits_fit.py TOP [LANDED]: whether the wrong programs and definitions, TOP/crates/*/must-*/*.edit, still fit the files that they change: each `old:` text must stand
just once in its file, as the pairs before it left that, and `new:` must be another text. Says which do not, and ends with 1 if any does not. Nothing is proved.

LANDED is a checkout of an older commit: then it also prints, as rows of a table, which edits are not in both, and how the others differ: comment lines and keys, and the
pairs of texts."""
import os
import sys


def edits(top):
    """The edits, each by its crate and its name, wherever in the crate it stands."""
    found = {}
    for folder, dirs, names in os.walk(os.path.join(top, "crates")):
        dirs[:] = sorted(d for d in dirs if d != "out")
        for n in sorted(names):
            if n.endswith(".edit"):
                path = os.path.join(folder, n)
                name = os.path.relpath(path, os.path.join(top, "crates")).split("/")[0] + "/" + n
                if name in found:
                    sys.exit(f"two edits are called {name}")
                found[name] = read(path)
    return found


def read(path):
    with open(path, encoding="utf-8") as f:
        return f.read()


def parts(text):
    """The comment lines and keys, and the pairs: file, old text, new text."""
    heads, pairs = [], []
    file = old = None
    for line in text.split("\n"):
        if line.startswith("old: "):
            old = line[5:]
        elif line.startswith("new:"):
            pairs.append((file, old, line[4:].removeprefix(" ")))
        else:
            heads.append(line)
            if line.startswith("file: "):
                file = line[6:]
    return heads, pairs


def squeezed(text):
    return "".join(text.split())


def wrong(crate, text):
    """What is wrong with the edit, or nothing."""
    heads, pairs = parts(text)
    before, after = {}, {}
    for file, old, new in pairs:
        if not file or not old or not os.path.isfile(os.path.join(crate, file)):
            return f"no old text, or no file {file}"
        if file not in before:
            before[file] = after[file] = read(os.path.join(crate, file))
        if after[file].count(old) != 1:
            return f"this stands in {file} {after[file].count(old)} times: {old}"
        if old == new:
            return f"nothing is changed: {old}"
        after[file] = after[file].replace(old, new)
    if not pairs or before == after:
        return "it changes nothing"
    if any(h.startswith("control: ") for h in heads) and any(squeezed(before[f]) != squeezed(after[f]) for f in before):
        return "a control, and it changes more than white space"
    return None


def cell(text):
    mark = "``" if "`" in text else "`"
    return (mark + text + mark).replace("|", "\\|")


def beside(then, now):
    """Prints the rows of what differs."""
    turned = kept = 0
    for name in sorted(then.keys() | now.keys()):
        told = name.removesuffix(".edit")
        if name not in then or name not in now:
            print(f"| {told} | {'there' if name in then else 'not there'} | {'there' if name in now else 'NOT THERE'} |")
            continue
        (heads, pairs), (heads_now, pairs_now) = parts(then[name]), parts(now[name])
        rows = list(zip(heads, heads_now))
        for (_, old, new), (_, old_now, new_now) in zip(pairs, pairs_now):
            rows += [("old: " + old, "old: " + old_now), ("new: " + new, "new: " + new_now)]
        rows = [(cell(a), cell(b)) for a, b in rows if a != b]
        if len(heads) != len(heads_now) or len(pairs) != len(pairs_now):
            rows.append((f"{len(heads)} lines, {len(pairs)} pairs", f"{len(heads_now)} LINES, {len(pairs_now)} PAIRS"))
        for n, (a, b) in enumerate(rows):
            print(f"| {'' if n else told} | {a} | {b} |")
        turned += bool(rows)
        kept += heads == heads_now
    print(f"\n{len(then)} edits then, {len(now)} now; {turned} of them have another text, {kept} have each comment line and key as it was.\n")


def main():
    if len(sys.argv) not in (2, 3):
        print(__doc__)
        return 2
    top = sys.argv[1]
    now = edits(top)
    if len(sys.argv) == 3:
        beside(edits(sys.argv[2]), now)
    bad = 0
    for name, text in now.items():
        said = wrong(os.path.join(top, "crates", name.split("/")[0]), text)
        if said:
            bad += 1
            print(f"{name}: {said}")
    print(f"edits_fit: {len(now)} edits, {bad} do not fit")
    return 1 if bad or not now else 0


if __name__ == "__main__":
    sys.exit(main())
