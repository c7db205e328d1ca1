#!/usr/bin/env python3
"""respell: the names of definitions and lemmas in today's spelling.

usage: tools/respell.py     once, at the top of a repository on which the toolchain's port.py has run

tools/respell.tsv has a line for each name: old, new. They were made so: a definition, a field or a constructor is in snake case; so is a lemma, but for a
dash between two words that its statement names both; a lemma that would have the name of a definition ends in _lem. Functions of src/, what C sees,
strings, inputs and outputs keep their names: in a .rt file only contracts, ghost items and comments are read.
"""
import re
from pathlib import Path

WORD = re.compile(r"[^\s(){}\[\].;,:@«»λ\"`]+")
CLAUSE = re.compile(r"^\s*(?:(?:requires|ensures|invariant|also_owns|also_shares)\b[^{\n]*\{|(?:pub )?ghost [^\n{;]*\{)", re.M)
# a lemma that had the spelled name of a definition already, in the file that has both
HERE = {
    "crates/cells/specs/Examples.antt": {"too_large": "too_large_lem"},
    "crates/laws/specs/ReadBack.antt": {"read_back": "read_back_lem"},
    "crates/cov_back/proofs/Going.antt": {"look_at": "look_at_lem"},
    "crates/star/proofs/Laws.antt": {"sub_at": "sub_at_lem"},
}


def words(text, names):
    return WORD.sub(lambda m: names.get(m[0], m[0]), text)


def program(text, names):
    """A .rt file: its contracts and ghost items, and its comments."""
    out, at = [], 0
    for m in re.finditer(CLAUSE.pattern + r"|//[^\n]*", text, re.M):
        if m.start() < at:
            continue
        end = m.end()
        if not m[0].lstrip().startswith("//"):
            depth = 1
            while depth:
                depth += {"{": 1, "}": -1}.get(text[end], 0)
                end += 1
        out += [text[at:m.start()], words(text[m.start():end], names)]
        at = end
    return "".join(out) + text[at:]


def main():
    names = dict(line.split("\t") for line in Path("tools/respell.tsv").read_text().splitlines())
    changed = 0
    for path in sorted(p for p in Path("crates").rglob("*") if p.suffix in (".antt", ".rt", ".edit") and "out" not in p.parts):
        old = path.read_text()
        if path.suffix == ".rt":
            new = program(old, names)
        elif path.suffix == ".edit":
            new = "".join(words(line, names) if re.match(r"old:|new:", line) else line for line in old.splitlines(keepends=True))
        else:
            # first the lemmas that give way, then all
            new = words(words(old, HERE.get(str(path), {})), names)
            if str(path) == "crates/star/proofs/sub_at/Proof.antt":
                new = new.replace("laws.sub_at ", "laws.sub_at_lem ")
        if new != old:
            path.write_text(new)
            changed += 1
    print(f"respell: {changed} files, {len(names)} names")


main()
