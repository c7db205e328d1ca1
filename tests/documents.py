"""documents.py: whether the documents speak of what is there.

The lists of crates in README.md and docs/ARCHITECTURE.md have the groups and the order of crates.txt. And in every document:
a `crate::item` stands in the crate's source, a `crate File.name` in a file of its specs or proofs, a `crate/edit` among its must-fail edits, and
crates/NAME is a crate. The last holds of the comments in the crates too.
"""
import difflib
import re
import sys
from pathlib import Path

DOCUMENTS = [Path("README.md"), Path("CONTRIBUTING.md"), *sorted(Path("docs").glob("*.md")), Path("bindings/README.md")]
# crates of the Rust that was ported
FOREIGN = ("crate", "tsecon_linalg")


# ---- the lists of crates, each as lines 'group: crate'

def listed():
    """crates.txt: each group under a comment."""
    group, out = None, []
    for line in Path("crates.txt").read_text().splitlines():
        if m := re.match(r"# ([a-z ]+): ", line):
            group = m[1]
        elif m := re.match(r"(\w+)(?: staticlib)?:", line):
            out.append(f"{group}: {m[1]}")
    return out


def architecture():
    """One line a crate, each group under a line of its own."""
    group, out = None, []
    for line in Path("docs/ARCHITECTURE.md").read_text().splitlines():
        if m := re.match(r"\| \*\*([a-z ]+)\*\* \|", line):
            group = m[1]
        elif (m := re.match(r"\| `(\w+)` \|", line)) and group:
            out.append(f"{group}: {m[1]}")
    return out


def readme():
    """One line a group, its crates in the second column."""
    rows = (re.match(r"\| ([a-z ]+) \| ((?:`\w+`(?:, )?)+) \|", line) for line in Path("README.md").read_text().splitlines())
    return [f"{m[1]}: {name}" for m in rows if m for name in re.findall(r"\w+", m[2])]


# ---- the names of a document's text, each with whether it is there

def items(text, crates):
    for crate, rest in set(re.findall(r"(?<![\w:])([a-z_]+)::((?:\w+::)*\w+)", text)):
        if crate not in FOREIGN:
            source = "\n".join(f.read_text() for f in Path("crates", crate, "src").rglob("*.rt"))
            yield f"{crate}::{rest}", crate in crates and all(re.search(rf"\b{word}\b", source) for word in rest.split("::"))


def folders(text, crates):
    for crate in set(re.findall(r"\bcrates/([a-z_]+)", text)):
        yield f"crates/{crate}", crate in crates


def edits(text, crates):
    for crate, edit in set(re.findall(r"`([a-z_]+)/(\w+)`", text)):
        if crate in crates:
            places = (Path("crates", crate, "must-fail", more, edit + ".edit") for more in ("", "more"))
            yield f"edit {crate}/{edit}", any(place.exists() for place in places)


def stands(crate, file, name):
    """Whether a file of the crate's specs or proofs has the name; with no name, whether the file is there."""
    texts = [f.read_text() for part in ("specs", "proofs") for f in Path("crates", crate, part).rglob(file + ".antt")]
    return any(not name or re.search(rf"(?<![\w-]){re.escape(name)}(?![\w-])", text) for text in texts)


def theorems(text, crates):
    crate = file = None
    end = 0
    for m in re.finditer(r"`([^`\n]+)`", text):
        # `demands Values.values`, `no-news`, `Totals.totals`: what follows is of the same file, or of the same crate
        follows = crate and text[end:m.start()] in (", ", " and ")
        end = m.end()
        if found := re.fullmatch(r"([a-z_]+) ([A-Z][a-z]\w*)(?:\.([\w'-]+))?", m[1]):
            crate, file, name = found.groups()
            there = stands(crate, file, name)
        elif follows and (found := re.fullmatch(r"([A-Z][a-z]\w*)\.([\w'-]+)", m[1])):
            file, name = found.groups()
            there = stands(crate, file, name)
        elif follows and re.fullmatch(r"[\w'-]+", m[1]):
            there = stands(crate, file, m[1]) or stands(crate, m[1], None)
        else:
            crate = None
            continue
        yield f"{m[1]} of {crate}" if follows else m[1], crate in crates and there


def main():
    wrong, looked = [], 0
    there = listed()
    for document, told in (("docs/ARCHITECTURE.md", architecture()), ("README.md", readme())):
        for line in difflib.unified_diff(there, told, n=0, lineterm=""):
            if not line.startswith(("---", "+++", "@@")):
                wrong.append(f"{document} has not the crates of crates.txt: {line}")
    crates = {line.split(": ")[1] for line in there}
    sources = sorted(f for f in Path("crates").rglob("*") if f.suffix in (".rt", ".antt"))
    for document in DOCUMENTS + sources:
        # blocks of another language name other things
        text = re.sub(r"^```(?:c|rust|text)\n.*?^```\n", "", document.read_text(), flags=re.M | re.S)
        for find in (items, folders, edits, theorems) if document in DOCUMENTS else (folders,):
            found = sorted(set(find(text, crates)))
            looked += len(found)
            wrong += [f"{document}: there is no {name}" for name, ok in found if not ok]
    for line in wrong:
        print(line)
    if wrong:
        print(f"{len(wrong)} places of the documents speak of what is not there")
        sys.exit(1)
    print(f"the documents list the {len(crates)} crates of crates.txt, and {looked} names in them are there")


main()
