#!/usr/bin/env python3
"""Checks what CONTRIBUTING.md, README.md, CHANGELOG.md and the pages of docs/ and examples/ name:

- each link leads to a file or folder of the repository, and its part after `#` to a heading there;
- of a link whose words are a name in backticks, the file has a definition of that name;
- each path in backticks that begins with a folder of the top is there, a `*` standing for what its place may have;
- CONTRIBUTING.md has a row for each of the rules C1 to C17, whose tests bear its number, and its edit, where it has one;
- docs/ARCHITECTURE.md has the layers of crates.txt with their crates in the same order, docs/PROOFS.md has a heading for each
  crate in that order, and no crate uses one of a layer above;
- no line of docs/SEMANTICS.md and docs/PROOFS.md has more than 600 characters.

Run from anywhere: python3 tests/pages.py. It prints what it finds, and ends with status 1 where it finds anything.
"""
import pathlib
import re
import sys

ROOT = pathlib.Path(__file__).resolve().parent.parent
PAGES = [ROOT / name for name in ("README.md", "CONTRIBUTING.md", "CHANGELOG.md")]
PAGES += sorted((ROOT / "docs").glob("*.md")) + sorted((ROOT / "examples").glob("*.md"))
TOP = re.compile(r"^(crates|tests|tools|docs|editors|bench|examples|\.ci)/[\w./*+-]+$")
LINK = re.compile(r"\[([^\]]*)\]\(([^)\s]+)\)")


def without_blocks(text):
    return re.sub(r"^```.*?^```$", "", text, flags=re.M | re.S)


def anchors(path):
    """The headings of a page as links name them."""
    found = set()
    for heading in re.findall(r"^#+ (.*)$", path.read_text(), re.M):
        plain = re.sub(r"[^\w\- ]", "", heading.lower())
        found.add(plain.replace(" ", "-"))
    return found


def defines(path, name):
    """Whether a file has a definition, a function, a type or a test of that name."""
    word = re.escape(name)
    if path.suffix == ".antt":
        head = rf"^\s*(abbrev |unfoldable )?(pub )?(data |record )?{word}(?=[\s:({{])"
    elif path.suffix == ".rt":
        head = rf"\b(fn|struct|enum|trait|const) {word}\b"
    else:
        return path.stem == name
    return re.search(head, path.read_text(), re.M) is not None


def faults_of(page):
    text = without_blocks(page.read_text())
    for words, target in LINK.findall(text):
        if re.match(r"^[a-z]+:", target):
            continue
        place, _, part = target.partition("#")
        path = (page.parent / place).resolve() if place else page
        if not path.exists():
            yield f"{target} is not there"
        elif part and part not in anchors(path):
            yield f"{target}: no such heading"
        elif words.startswith("`") and path.is_file() and path.suffix in (".antt", ".rt") and not defines(path, words.strip("`")):
            yield f"{place} does not define {words}"
    for name in re.findall(r"`([^`\s]+)`", text):
        if TOP.match(name) and not list(ROOT.glob(name.rstrip("/"))):
            yield f"{name} is not there"


def rows():
    """From each rule to its row."""
    text = (ROOT / "CONTRIBUTING.md").read_text()
    return {int(number): row for row, number in re.findall(r"^(\| C(\d+) \|.*)$", text, re.M)}


def faults_of_rules():
    found = rows()
    for number in range(1, 18):
        row = found.get(number, "")
        if not re.search(rf"`tests/rules/c{number}_\*\.txt`", row):
            yield f"C{number} has no row with its tests"
        edit = rf"\[c{number}_\w+\]\(crates/ac_types/must-fail/c{number}_\w+\.edit\)"
        if not re.search(rf"\| ({edit}(, {edit})*|–) \|$", row):
            yield f"C{number} has no row with its edits, or with none"
    for number in sorted(set(found) - set(range(1, 18))):
        yield f"C{number} is no rule"


def layers():
    """The layers of crates.txt, each with its crates and what these use."""
    found = {}
    for line in (ROOT / "crates.txt").read_text().splitlines():
        if line.startswith("# "):
            crates = found.setdefault(line[2:].partition(":")[0], {})
        elif line.strip():
            head, _, uses = line.partition(":")
            crates[head.split()[0]] = uses.split()
    return found


def faults_of_layers():
    found = layers()
    level = {crate: number for number, crates in enumerate(found.values()) for crate in crates}
    for crates in found.values():
        for crate, uses in crates.items():
            yield from (f"crates.txt: {crate} uses {use} of a layer above" for use in uses if level.get(use, 0) > level[crate])
    shown = {}
    for line in (ROOT / "docs" / "ARCHITECTURE.md").read_text().splitlines():
        heading, row = re.match(r"## \d+\. (.*)$", line), re.match(r"\| `(\w+)` \|", line)
        if heading:
            rows = shown.setdefault(heading[1].lower(), [])
        elif line.startswith("## "):
            rows = []
        elif row and shown:
            rows.append(row[1])
    if shown != {name: list(crates) for name, crates in found.items()}:
        yield "docs/ARCHITECTURE.md: its layers are not those of crates.txt"
    told = re.findall(r"^### (.*)$", (ROOT / "docs" / "PROOFS.md").read_text(), re.M)
    if [crate for line in told for crate in line.split(", ")] != list(level):
        yield "docs/PROOFS.md: its headings are not the crates of crates.txt"


def faults_of_length():
    for name in ("SEMANTICS.md", "PROOFS.md"):
        for number, line in enumerate((ROOT / "docs" / name).read_text().splitlines(), 1):
            if len(line) > 600:
                yield f"docs/{name}: line {number} has {len(line)} characters"


def main():
    found = [f"{page.relative_to(ROOT)}: {fault}" for page in PAGES for fault in faults_of(page)]
    found += [f"CONTRIBUTING.md: {fault}" for fault in faults_of_rules()]
    found += list(faults_of_layers()) + list(faults_of_length())
    for fault in found:
        print(fault)
    print(f"pages: {len(found)} faults")
    return 1 if found else 0


if __name__ == "__main__":
    sys.exit(main())
