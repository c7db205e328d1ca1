"""edits.py: whether every edit that must fail fits the text that it changes, as `rt must-fail` wants it.

Each 'old:' text stands in its file exactly once, the earlier pairs of the edit applied. The first line is '# Wrong WHAT: words', and WHAT is what the
edit changes: the program (src/), the promise (a contract in src/, or the specs that it cites), the definition, or a theorem (crates/laws, crates/demands).
"""
import os
import re
import sys
from pathlib import Path

KINDS = ("program", "promise", "definition", "theorem")


def clauses(text):
    """Where the contracts' clauses stand: from their first brace to its match."""
    for m in re.finditer(r"^ *(?:requires|ensures)\*?(?: \w+)? \{", text, re.M):
        depth, end = 1, m.end()
        while depth:
            depth += {"{": 1, "}": -1}.get(text[end], 0)
            end += 1
        yield m.end() - 1, end


def kind(crate, file, text, at):
    """What a change at that place of the file is a change of."""
    if file.startswith("src/"):
        return "promise" if any(a <= at < b for a, b in clauses(text)) else "program"
    return {"definition": "definition", "laws": "theorem", "demands": "theorem"}.get(crate.name, "promise")


def fault(path):
    """What is wrong with an edit, in words, or None."""
    crate = Path(*path.parts[:2])
    lines = path.read_text().splitlines()
    head = re.fullmatch(r"# Wrong (\w+): \S.*", lines[0]) if lines else None
    if not head or head[1] not in KINDS:
        return "its first line is not '# Wrong program: ..', or promise, definition or theorem in the place of program"
    texts, file, old, pairs = {}, None, None, 0
    for line in lines:
        if line.startswith("file: "):
            file = line[6:]
            if not re.match(r"(src|specs|proofs)/", file) or not (crate / file).is_file():
                return f"'{file}' is no file of src/, specs/ or proofs/ of its crate"
        elif line.startswith("old: "):
            old = line[5:]
        elif line.startswith("new:"):
            if file is None or not old:
                return "a 'new:' line comes before a 'file:' or an 'old:' line"
            text = texts.setdefault(file, (crate / file).read_text())
            found = text.count(old)
            if found != 1:
                return f"this stands {found} times in {file}: {old.strip()}"
            at = text.index(old) + len(os.path.commonprefix([old, line[4:].removeprefix(" ")]))
            if kind(crate, file, text, at) != head[1]:
                return f"its first line says '{head[1]}', and it changes the {kind(crate, file, text, at)}"
            texts[file] = text.replace(old, line[4:].removeprefix(" "))
            old, pairs = None, pairs + 1
    return None if pairs else "it has no 'old:' and 'new:' pair"


def main():
    edits = sorted(Path("crates").glob("*/must-fail/*.edit"))
    faults = [(path, why) for path in edits if (why := fault(path))]
    for path, why in faults:
        print(f"{path}: {why}")
    if faults or not edits:
        print(f"{len(faults)} of {len(edits)} edits that must fail are wrong themselves")
        sys.exit(1)
    print(f"the edits that must fail fit the text that they change, {len(edits)} of them")


main()
