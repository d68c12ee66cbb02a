#!/usr/bin/env python3
"""Checks the manual pages docs/ac.1, docs/ac_order.1, docs/ac_again.1, docs/ac_merge.1 and
docs/ac_mirror.1:

- mandoc finds no warning in them, where mandoc is installed;
- the statuses of `ac` are those of docs/LANGUAGE.md, each with the lines that are written; any other says that it is not built;
- its limits are those of docs/LANGUAGE.md;
- the statuses of the others are those of their texts in tests/, each with the lines that are written, or are said to be those of
  `ac`; what no text can show are a failed output and refused memory;
- the commands and the usage line of each are those of the program.

Run from anywhere: python3 tests/manual.py. It prints what it finds, and ends with status 1 where it finds anything.
"""
import pathlib
import re
import shutil
import subprocess
import sys

ROOT = pathlib.Path(__file__).resolve().parent.parent
MANUAL = ROOT / "docs" / "ac.1"
# The manual page of each program beside `ac`, and the folder of its texts.
BESIDE = {ROOT / "docs" / "ac_order.1": ROOT / "tests" / "order", ROOT / "docs" / "ac_again.1": ROOT / "tests" / "again",
          ROOT / "docs" / "ac_merge.1": ROOT / "tests" / "merge", ROOT / "docs" / "ac_mirror.1": ROOT / "tests" / "mirror"}
PAGE = (ROOT / "docs" / "LANGUAGE.md").read_text()
USAGE = "no_words_at_all.txt"
WITHOUT_TEXT = {"8", "11"}
# Each limit of the manual, with what docs/LANGUAGE.md says of it; the groups are its numbers, and `..` stands for anything.
LIMITS = {
    "source": (r"FILE has more than (\S+) bytes",),
    "depth of a token": (r"the first token whose depth is over (\d+)",),
    "number": (r"digits of which the first is not 0, up to (\d+)",),
    "cores": (r"it has not (\d+) to (\d+) cores",),
    "steps of a core": (r"for a number from (\S+) to ([\d,]+)", r"where it is not given, it is ([\d,]+)"),
    "steps of all cores": (r"could go more than (\S+) steps",),
    "elements of an array": (r"its size is not (\d+) to ([\d,]+)",),
    "channels": (r"or (\d+) channels stand before it",),
    "capacity of a channel": (r"its capacity is not (\d+) to (\d+)",),
    "ints of a message": (r"is an array of (\d+) to (\d+) elements, sends all of them",),
    "files": (r"(\d+) files stand before it",),
    "bytes of a file": (r"file K of the program has more than (\S+) bytes",),
    "bytes of a read or a write": (r"the length is over (\d+) or over that of the array",),
    "live words of a core": (r"the words that live would be over ([\d,]+):",),
    "output of a core": (r"the output of the core over (\S+) bytes",),
    "text of a trace": (r"the text of the trace has more than (\S+) bytes",),
    "turns of a load": (r"so is TURNS, from (\d+) to (\d+)",),
}


def section(name, manual=MANUAL):
    return re.search(rf"^\.Sh {name}\n(.*?)(?=^\.Sh |\Z)", manual.read_text(), re.M | re.S).group(1)


def items(name, manual=MANUAL):
    """From each item of a section's list to its words, without the macros in front of them."""
    found = {}
    for tag, text in re.findall(r"^\.It (.*)\n((?:(?!\.It |\.El).*\n)*)", section(name, manual), re.M):
        found[tag] = " ".join(re.sub(r"^\.[A-Z][a-z] ?", "", text, flags=re.M).split())
    return found


def lint_faults():
    mandoc = shutil.which("mandoc")
    if mandoc is None:
        print("manual: mandoc is not installed, and did not look at the pages")
        return
    done = subprocess.run([mandoc, "-T", "lint", "-W", "warning", MANUAL, *BESIDE], stdout=subprocess.PIPE, stderr=subprocess.STDOUT)
    yield from done.stdout.decode().splitlines()


def answers():
    """From each status of the page to what it writes there."""
    found = {}
    for status, written in re.findall(r"^\| (\d+) \| ([^|]+) \| [^|]+ \|$", PAGE.partition("## What `ac` answers")[2], re.M):
        found.setdefault(status, []).append(written)
    return found


def status_faults():
    page, manual = answers(), items("EXIT STATUS")
    if len(page) < 10:
        yield "docs/LANGUAGE.md has no statuses where they are looked for"
    for status, written in page.items():
        text = manual.get(status)
        if text is None:
            yield f"no status {status}"
            continue
        if "Not built." in text:
            yield f"status {status} is not built, but docs/LANGUAGE.md has it"
        wanted = {word for one in written for word in re.findall(r"`([^`]+)`", one)}
        wanted |= {words for words in ("usage line", "report") if any(words in one for one in written)}
        yield from (f"status {status} does not write {word}" for word in sorted(wanted) if word not in text)
    for status, text in manual.items():
        if status not in page and "Not built." not in text:
            yield f"docs/LANGUAGE.md has no status {status}"
    if list(manual) != sorted(manual, key=int):
        yield "the statuses are not in order"


def limit_faults():
    manual = items("LIMITS")
    if list(manual) != list(LIMITS):
        yield f"the limits are {', '.join(manual)}"
    for name, sayings in LIMITS.items():
        wanted = set()
        for saying in sayings:
            found = re.search(saying, PAGE)
            if not found:
                yield f"docs/LANGUAGE.md does not say the {name} as it did: {saying}"
            wanted |= set(found.groups()) if found else set()
        if set(re.findall(r"\d+(?:,\d{3})*", manual.get(name, ""))) != wanted:
            yield f"the limit {name} is {manual.get(name)}, and not {', '.join(sorted(wanted))}"


def usage_of(folder):
    return re.search(r"^\| (usage: .*)$", (folder / USAGE).read_text(), re.M).group(1)


def command_faults(manual=MANUAL, folder=ROOT / "tests" / "words"):
    usage = usage_of(folder)
    if usage not in manual.read_text().splitlines():
        yield f"there is no line: {usage}"
    all_commands = {word for words in re.findall(rf"{manual.stem} ([a-z|]+) ", usage) for word in words.split("|")}
    built = set(re.findall(r"^\.Cm (\w+)$", section("SYNOPSIS", manual), re.M))
    not_built = set(re.findall(r"^\.Cm (\w+)", section("CAVEATS"), re.M)) if manual == MANUAL else set()
    if built & not_built or built | not_built != all_commands:
        yield f"of the commands {sorted(all_commands)}, it has {sorted(built)}, and {sorted(not_built)} as not built"


# ---- the programs beside `ac`


def shape(line):
    """A line without its numbers, and without the letters that stand for them."""
    return re.sub(r"\bC(n|\d+)\b|\b([A-Z]|\d+)\b", "#", line)


def shown(folder):
    """From each status of the texts of a folder to the shapes of its answers, but for reports."""
    found = {}
    for path in sorted(folder.glob("*.txt")):
        status, line = re.search(r"^status (\d+)\noutput\n\| (.*)$", path.read_text(), re.M).groups()
        shapes = found.setdefault(status, set())
        if status not in ("0", "4", "5", "6"):
            shapes.add(shape(line))
    return found


def faults_beside(manual, folder):
    texts, told, of_audit = shown(folder), {}, set()
    for tag, text in items("EXIT STATUS", manual).items():
        if "As those of" in text:
            of_audit |= set(tag.split(", "))
        told.update(dict.fromkeys(tag.split(", "), shape(text)))
    yield from (f"no status {status}" for status in sorted(set(texts) - set(told), key=int))
    yield from (f"no text has status {status}" for status in told if status not in {*texts, *of_audit, *WITHOUT_TEXT})
    yield from (f"docs/LANGUAGE.md has no status {status}" for status in of_audit if status not in answers())
    for status, shapes in texts.items():
        text = told.get(status, "") if status not in of_audit else shape(" ".join(answers()[status]))
        yield from (f"status {status} does not write {line}" for line in sorted(shapes) if line not in text)
    yield from command_faults(manual, folder)


def main():
    parts = (lint_faults, status_faults, limit_faults, command_faults)
    found = [f"docs/ac.1: {fault}" for part in parts for fault in part()]
    found += [f"docs/{manual.name}: {fault}" for manual, folder in BESIDE.items() for fault in faults_beside(manual, folder)]
    for fault in found:
        print(fault)
    print(f"manual: {len(found)} faults")
    return 1 if found else 0


if __name__ == "__main__":
    sys.exit(main())
