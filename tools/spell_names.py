#!/usr/bin/env python3
"""Spells the names of this repository's definitions and lemmas as the kit does: words in snake case, types in camel case.

usage: python3 tools/spell_names.py [FOLDER]      once, on the text that the kit's own scripts have turned; FOLDER has crates/

It renames what crates/*/specs and crates/*/proofs declare (definitions, lemmas, fields, constructors), and nothing that the
check makes from the code, wherever the name stands as a whole word outside comments: in specs, proofs, clauses, and must-fail
edits. Functions of src/ have no dash, so they keep their names; so do inputs and outputs, which it does not read. It says which
new names stood already, beside which: read those places before you commit.
"""

import os
import re
import sys

WORD = r"[^\s(){}\[\].,;:λ←\\|\"'`⟨⟩]+"
# a declaration at the depth of a file, a section or a record; the answer of a goal has a name of the check's own
HEAD = re.compile(r"^\s{0,6}(?:(?:abbrev|unfoldable|pub|record|data)\s+)*(" + WORD + r"-" + WORD + r")\s*(?=[:({])")
# a definition of a type that began in lower case
TYPES = {"is-cons"}
GOAL = re.compile(r":\s*(?:goal|need|given)\.")


def files(top, folders, ends):
    for crate in sorted(os.listdir(os.path.join(top, "crates"))):
        for folder in folders:
            for at, dirs, names in os.walk(os.path.join(top, "crates", crate, folder)):
                dirs[:] = sorted(d for d in dirs if d != "out")
                for name in sorted(names):
                    if name.endswith(ends):
                        yield os.path.join(at, name)


def text(path):
    with open(path, encoding="utf-8") as f:
        return f.read()


def spelled(name):
    parts = name.split("-")
    if name[0].isupper() or name in TYPES:
        return "".join(p[:1].upper() + p[1:] for p in parts)
    return "_".join(parts)


def declared(top):
    found = set()
    for path in files(top, ("specs", "proofs"), (".antt",)):
        for line in text(path).split("\n"):
            m = HEAD.match(line)
            if m and ":" in line and not line.startswith(("use ", "--")) and not GOAL.search(line):
                found.add(m[1])
    return found


def main(top):
    names = {n: spelled(n) for n in declared(top)}
    if not names:
        print("0 names")
        return
    taken = {}
    for old, new in names.items():
        if new in taken:
            sys.exit(f"{old} and {taken[new]} would both be {new}")
        taken[new] = old
    for path in files(top, ("specs", "proofs", "src"), (".antt", ".rt")):
        for word in re.findall(r"(?<![\w'-])" + WORD, text(path)):
            if word in taken:
                print(f"look: {path}: {word} stood already, beside {taken[word]}")
    token = re.compile(r"(?<![\w◌·'-])(" + "|".join(sorted(map(re.escape, names), key=len, reverse=True)) + r")(?![\w◌·'-])")
    turned = 0
    for path in files(top, ("specs", "proofs", "src", "must-fail"), (".antt", ".rt", ".edit")):
        old = text(path)
        # in code only ghost lines and clauses have such words, since no name of the code has a dash
        new = re.sub(r"^(?!\s*(?://|--)).*$", lambda m: token.sub(lambda w: names[w[1]], m[0]), old, flags=re.M)
        if new != old:
            turned += 1
            with open(path, "w", encoding="utf-8") as f:
                f.write(new)
    print(f"{len(names)} names, {turned} files")


if __name__ == "__main__":
    main(sys.argv[1] if len(sys.argv) > 1 else ".")
