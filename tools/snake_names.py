#!/usr/bin/env python3
"""snake_names.py [--list] TOP: brings the repository's own names of definitions, lemmas, fields and bound variables (crates/*/specs, crates/*/proofs, and where src/ cites them) to
today's spelling: snake case, where they had dashes or capitals inside. Run once, right after port.py, which respells only those of a spelling that a library had too.
Names of the kit's libraries stay; so do the goals and facts that a proof file takes from what the check makes (`tie.Need-..`, the fields of `c`). --list only says what would
be renamed, and which names fall together."""
import collections
import os
import re
import subprocess
import sys

# The kit's library, beside its guide.
KIT = os.path.join(os.path.dirname(subprocess.run(["rt", "doc"], capture_output=True, text=True, check=True).stdout.strip()), "rattle")
TOKEN = re.compile(r"[A-Za-z_][A-Za-z0-9_']*(?:-[A-Za-z0-9_']+)*")
HEAD = re.compile(r"^\s*(?:(?:pub|abbrev|unfoldable|pattern|record|data|inductive|infix[lr]? \d+)\s+)*((?:[A-Za-z_][A-Za-z0-9_'-]*\s+)*[A-Za-z_][A-Za-z0-9_'-]*)\s*(?:\{[^}]*\}\s*|\([^)]*\)\s*)*:")


# Lemmas that would fall together with a definition, in a file that has both: such a one ends in _lem.
LEMMAS = """asked-a value-text budget-key message-key from-fourth room-for and-then first-lines number-within literals-at concluded-in after-checks returned-types ending-number
node-word rule-word inherited-type returned-type node-word-ok node-word-uses in-record rule-word-ok rule-word-uses""".split()
# The same, of names that port.py had turned already: in these files alone.
TURNED = {"count_at": ("listing/proofs/Steps.antt", "listing/proofs/reader/read_count/Proof.antt"), "has_left": ("expressions/proofs/Halves.antt",)}


def files(top, ends):
    for folder, dirs, names in os.walk(top):
        dirs[:] = sorted(d for d in dirs if d != "out")
        for n in sorted(names):
            if n.endswith(ends):
                yield os.path.join(folder, n)


def read(path):
    with open(path, encoding="utf-8", errors="replace") as f:
        return f.read()


def odd(word):
    return "-" in word or re.match(r"[a-z_][A-Za-z0-9_']*[a-z0-9'][A-Z]", word) or re.match(r"[a-z]+[A-Z]", word)


def snake(word):
    if word in LEMMAS:
        return word.replace("-", "_") + "_lem"
    word = re.sub(r"(?<=[a-z0-9'])([A-Z])", lambda m: "_" + m.group(1).lower(), word)
    return word.replace("-", "_")


def code(text):
    return re.sub(r"--.*", "", text)


def in_function(path):
    """A file of a function's own folder of proofs."""
    return os.path.basename(path) in ("Proof.antt", "Answers.antt", "Invariants.antt")


def kit_words():
    words = set()
    for p in files(KIT, (".antt",)):
        if "/docs/notes/" in p:
            continue
        words.update(TOKEN.findall(code(read(p))))
    return words


def declared(top):
    found = collections.defaultdict(set)
    for p in files(os.path.join(top, "crates"), (".antt",)):
        for line in code(read(p)).split("\n"):
            m = HEAD.match(line)
            if m and "tie." not in line.split(":", 1)[1] and not re.search(r": (statement|goal\.)", line):
                for w in m.group(1).split():
                    found[w].add(p)
    return found


def fields(top):
    """The names of fields and constructors, which stand behind a dot too."""
    found = set()
    for p in files(os.path.join(top, "crates"), (".antt",)):
        if in_function(p):
            continue
        for line in code(read(p)).split("\n"):
            if re.match(r"^\s+\S", line) and (m := HEAD.match(line)):
                found.update(m.group(1).split())
    return found


def goals(text):
    """The names that a proof file answers, which the check makes."""
    return set(re.findall(r"^(?:pub )?(?:abbrev )?(?:pub )?(\S+) : (?:tie\.|goal\.)", text, re.M))


def main():
    args = [a for a in sys.argv[1:] if a != "--list"]
    top = args[0] if args else "."
    kit = kit_words()
    own = declared(top)
    behind = fields(top)
    mapping, seen = {}, set()
    for p in files(os.path.join(top, "crates"), (".antt",)):
        text = code(read(p))
        made = goals(text) if in_function(p) else set()
        for m in TOKEN.finditer(text):
            w = m.group()
            seen.add(w)
            if not odd(w) or w[0].isupper() or w in made:
                continue
            if w in kit and w not in own:
                continue
            before = text[: m.start()]
            if before.endswith(".") and in_function(p) and w not in behind:
                continue
            mapping[w] = snake(w)
    together = collections.defaultdict(set)
    for a, b in mapping.items():
        together[b].add(a)
    for w in seen:
        if w in together:
            together[w].add(w)
    if "--list" in sys.argv:
        for b, xs in sorted(together.items()):
            if len(xs) > 1:
                print("together:", b, "<-", " ".join(sorted(xs)), "| declared:", " ".join(sorted({os.path.relpath(q, top) for x in xs for q in own.get(x, ())}))[:300])
        both = sorted(w for w in mapping if w in kit)
        print("also in the kit, and declared here:", " ".join(both))
        print(len(mapping), "names")
        return
    changed = 0
    for p in files(os.path.join(top, "crates"), (".antt", ".rt")):
        text = read(p)
        new = turn(p, text, mapping, behind)
        if new != text:
            with open(p, "w", encoding="utf-8") as f:
                f.write(new)
            changed += 1
    print(f"snake_names: {len(mapping)} names, {changed} files")


def turn(path, text, mapping, behind):
    made = goals(text) if in_function(path) else set()
    mark = "--" if path.endswith(".antt") else "//"
    out = []
    for line in text.split("\n"):
        at = line.find(mark)
        if at > 0 and path.endswith(".rt") and line.count('"', 0, at) % 2:
            at = -1
        body, comment = (line, "") if at < 0 else (line[:at], line[at:])

        def one(m):
            w = m.group()
            if path.endswith(TURNED.get(w, ("/",))):
                return w + "_lem"
            if w not in mapping or w in made:
                return w
            before = body[: m.start()]
            if in_function(path) and before.endswith(".") and w not in behind and not re.search(r"use [^{]*$", before):
                return w
            return mapping[w]

        def told(m):
            w = m.group()
            if w in mapping and ("-" not in w or comment[m.start() - 1 : m.start()] == "`"):
                return mapping[w]
            return w

        out.append(TOKEN.sub(one, body) + TOKEN.sub(told, comment))
    return "\n".join(out)


if __name__ == "__main__":
    main()
