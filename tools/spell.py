#!/usr/bin/env python3
"""Brings the repository's own names in specs/, proofs/, clauses and must-fail edits to today's spelling: snake case; a dash stays only
between two names of definitions.

usage: tools/spell.py      at the top of the repository, once, behind port.py

Exported names, functions of src/, strings and data stay. It stops before it writes where two names of a crate would fall together.
"""

import os
import re
import sys

TOKEN = re.compile(r"[^\s(){}\[\],;:.\"«»⌜⌝λ=]+")
CAMEL = re.compile(r"(?<=[a-z0-9])(?=[A-Z])")
DECLARED = re.compile(r"^\s*(?:(?:abbrev|unfoldable|pub|private|opaque)\s+)*([^\s(){}:,;=\[\]]+)\s*:\s", re.M)
# names of std's that stand in names of lemmas
STD = set("length take drop append set get_or replicate map sum xor bit_xor fold reverse mod cond eqb leb ltb nil cons".split())
# types in camel case
TYPES = {"Ends-here": "EndsHere"}

# std has these names too, and files cite both
KEPT = {"or-true"}
# what would fall together otherwise
SPECIAL = {
    n: n.replace("-", "_") + "_lem"
    for n in "after-word all-zero apply-step as_it_was at-end commit-step entry-word first-fit in_place in-record put-in wanted-in word-step".split()
}


def files(endings):
    for folder, dirs, names in os.walk("crates"):
        dirs[:] = sorted(d for d in dirs if d != "out")
        for n in sorted(names):
            if n.endswith(endings):
                yield os.path.join(folder, n)


def snake(word):
    word = word.replace("getD", "get_or")
    if re.match(r"[a-z]", word) and re.search(r"[a-z0-9][A-Z]", word):
        return "_".join(p.lower() for p in CAMEL.split(word))
    return word


def declared():
    """Each name that a file of specs/ or a lemma file declares, and those of specs/ alone. The names in a walk over a function are Rattle's."""
    all_names, spec_names = {}, set()
    for p in files((".antt",)):
        with open(p, encoding="utf-8") as f:
            text = f.read()
        if p.endswith("/Proof.antt"):
            continue
        for m in DECLARED.finditer(text):
            name = m.group(1)
            all_names.setdefault(name, set()).add(p)
            if "/specs/" in p:
                spec_names.add(snake(name))
    return all_names, spec_names


def joined(name, known):
    """A dash stays where a name of a definition stands on both sides of it."""
    parts = [snake(p) for p in name.split("-")]
    out = parts[0]
    for i in range(1, len(parts)):
        # the longest runs of parts at the dash that are names
        left = any("_".join(parts[j:i]) in known for j in range(i))
        right = any("_".join(parts[i:j]) in known for j in range(i + 1, len(parts) + 1))
        out += ("-" if left and right else "_") + parts[i]
    return out


def main():
    names, specs = declared()
    known = specs | STD
    turn = {}
    for n in names:
        if n in KEPT:
            continue
        if n in TYPES:
            turn[n] = TYPES[n]
        elif re.match(r"[a-z]", n):
            to = SPECIAL.get(n, joined(n, known))
            if to != n:
                turn[n] = to
    clash = {}
    for n in names:
        clash.setdefault(turn.get(n, n), set()).add(n)
    bad = False
    for to, froms in sorted(clash.items()):
        if len(froms) > 1:
            bad = True
            print("fall together:", to, "from", *[f"{f} ({', '.join(sorted(names[f])[:4])})" for f in sorted(froms)])
    if bad and "--list" not in sys.argv and "--anyway" not in sys.argv:
        raise SystemExit(1)
    if "--list" in sys.argv:
        for n in sorted(turn):
            print(n, turn[n])
        return

    def turn_token(m):
        t = m.group(0)
        if t in turn:
            return turn[t]
        if t in TYPES:
            return TYPES[t]
        if re.match(r"[a-z]", t) and "-" not in t:
            return snake(t)
        return t

    def turn_text(text):
        return TOKEN.sub(turn_token, text)

    def source(text):
        """A source file: only names of clauses have capitals behind a small letter, or dashes."""
        return re.sub(r'"(?:[^"\\]|\\.)*"|' + TOKEN.pattern, lambda m: m.group(0) if m.group(0)[0] == '"' else turn_token(m), text, flags=re.S)

    for p in files((".antt", ".rt", ".edit")):
        with open(p, encoding="utf-8") as f:
            text = f.read()
        if p.endswith(".antt"):
            new = turn_text(text)
        elif p.endswith(".rt"):
            new = source(text)
        else:
            new = "\n".join(l if l.startswith("file:") else source(l) for l in text.split("\n"))
        if new != text:
            with open(p, "w", encoding="utf-8") as f:
                f.write(new)


if __name__ == "__main__":
    main()
