#!/usr/bin/env python3
"""Checks the editor files of editors/ and the settings of docs/EDITORS.md:

- the words that each colours are those of the lexer's table, each once and alone;
- each regular expression of the grammar for VS Code is made of what all engines read alike, and some lines come out as they should;
- each group of the Vim file has its colour, and where Vim is installed it colours those lines as the grammar does;
- what the editors look for in the lines of ac-where finds the place of every test of tests/where, and nothing in other lines;
- where Vim is installed, its list of errors has what stands without a place, and nothing else besides places; and `:AcRun` fills it
  with the places of a run, and leaves `:make` what it was;
- the settings of the page are those of the files.

Run from anywhere: python3 tests/editors.py. It prints what it finds, and ends with status 1 where it finds anything.
"""
import itertools
import json
import os
import pathlib
import re
import shutil
import subprocess
import sys
import tempfile

import where

ROOT = pathlib.Path(__file__).resolve().parent.parent
TABLE = ROOT / "crates" / "ac_lexer" / "src" / "words.rt"
VIM = ROOT / "editors" / "vim"
CODE = ROOT / "editors" / "vscode"
PAGE = ROOT / "docs" / "EDITORS.md"
GRAMMAR = json.loads((CODE / "syntaxes" / "ac.tmLanguage.json").read_text())
# What stands in a regular expression besides characters of their own; Python and Oniguruma read each alike.
COMMON = re.compile(r"\\[bstrn\\/*|.]|\[(?:\\.|[^\]\\])*\]|\((?:\?:|\?=)?|[)|*+?.$]|[^\\\[\](){}|*+?.^$]")


def lexer_words():
    return set(re.findall(r'b"(\w+)"', TABLE.read_text()))


def unequal(found, what):
    """What a list of coloured words has too much, too little or twice."""
    words = lexer_words()
    for word in sorted(words - set(found)):
        yield f"{what} has not the word {word}"
    for word in sorted(set(found)):
        if word not in words:
            yield f"{what} has {word}, which is no word"
        elif found.count(word) > 1:
            yield f"{what} has {word} more than once"


# Vim


def vim_faults():
    text = (VIM / "syntax" / "ac.vim").read_text()
    found = [word for line in re.findall(r"^syntax keyword \w+ (.*)$", text, re.M) for word in line.split()]
    yield from unequal(found, "syntax/ac.vim")
    if "syntax case match" not in text:
        yield "syntax/ac.vim takes capitals for small letters"
    groups = set(re.findall(r"^syntax (?:keyword|match|region) (\w+)", text, re.M))
    linked = re.findall(r"^highlight default link (\w+) \w+$", text, re.M)
    if groups != set(GROUPS):
        yield f"syntax/ac.vim: groups that no sample is for: {sorted(groups ^ set(GROUPS))}"
    if sorted(groups) != sorted(linked):
        yield f"syntax/ac.vim: groups without one colour: {sorted(groups ^ set(linked)) or 'one has two'}"


# VS Code: the grammar


def rules(node):
    """Each rule of the grammar."""
    if isinstance(node, dict):
        yield node
        for value in node.values():
            yield from rules(value)
    elif isinstance(node, list):
        for value in node:
            yield from rules(value)


def grammar_faults():
    found = []
    for rule in rules(GRAMMAR):
        for key in ("match", "begin", "end"):
            if key not in rule:
                continue
            if COMMON.sub("", rule[key]):
                yield f"the grammar has {rule[key]}, which engines may read in different ways"
            elif key != "end" and re.compile(rule[key]).match(""):
                yield f"the grammar has {rule[key]}, which stands everywhere"
            found += re.findall(r"\w+", (re.findall(r"^\\b\(\?:([\w|]+)\)\\b$", rule[key]) or [""])[0])
        if "include" in rule and rule["include"].removeprefix("#") not in GRAMMAR["repository"]:
            yield f"the grammar includes {rule['include']}, which is not there"
    yield from unequal(found, "the grammar")


def choices(patterns):
    """The rules of a list, in order, with those that are included in their place."""
    for rule in patterns:
        if "include" in rule:
            yield from choices([GRAMMAR["repository"][rule["include"][1:]]])
        elif "match" in rule or "begin" in rule:
            yield rule
        else:
            yield from choices(rule["patterns"])


def marked(lines):
    """Of each line and each character the number and the name of the match that colours it. What has an end goes on over lines."""
    stack, numbers = [], itertools.count()
    for line in lines:
        marks, at = [], 0
        while True:
            outer, inside = stack[-1] if stack else (None, None)
            rule, found = first_match(outer, line + "\n", at)
            marks += [inside] * ((found.start() if found else len(line)) - at)
            if not found:
                break
            if rule is None:
                mark = stack.pop()[1]
            else:
                mark = (next(numbers), rule.get("name") or rule["beginCaptures"]["0"]["name"])
            if rule and "begin" in rule:
                stack.append((rule, mark if "name" in rule else None))
            marks += [mark] * len(found.group())
            at = found.end()
        yield [mark and (mark[0], mark[1].removesuffix(".ac")) for mark in marks]


def coloured(lines):
    """The pieces of lines that have a colour, with the name of each."""
    pieces = []
    for line, marks in zip(lines, marked(lines)):
        for mark, piece in itertools.groupby(zip(marks, line), key=lambda one: one[0]):
            if mark:
                pieces.append(("".join(char for _, char in piece), mark[1]))
    return pieces


def first_match(outer, line, at):
    """The rule that matches first and its match; no rule for the end of the outer one, which comes before others at its place."""
    found = []
    if outer:
        end = re.compile(outer["end"]).search(line, at)
        found += [(end.start(), -1, None, end)] if end else []
    for number, rule in enumerate(choices(outer.get("patterns", []) if outer else GRAMMAR["patterns"])):
        match = re.compile(rule.get("match") or rule["begin"]).search(line, at)
        found += [(match.start(), number, rule, match)] if match else []
    return min(found, key=lambda one: one[:2])[2:] if found else (None, None)


TYPE, CONTROL, CALL, CONSTANT = "storage.type", "keyword.control", "support.function", "constant.language"
LABEL, NUMBER, TEXT, SIGN = "entity.name.label", "constant.numeric.decimal", "string.quoted.double", "keyword.operator"
ESCAPE, HOLE = "constant.character.escape", "constant.other.placeholder"
LINE, BLOCK = "comment.line.double-slash", "comment.block"
NO_BYTE, NO_NUMBER, NO_ESCAPE, NO_TEXT = (f"invalid.illegal.{name}" for name in ("byte", "number", "escape", "open-text"))
SAMPLES = (
    (["core a(f);"], [("core", TYPE)]),
    (["int x1 = -10;"], [("int", TYPE), ("=", SIGN), ("-", SIGN), ("10", NUMBER)]),
    (["inty = do1 + _if;"], [("=", SIGN), ("+", SIGN)]),
    (["async void f() { }"], [("async", CONTROL), ("void", TYPE)]),
    (["t: do { async f(); } finish;"], [("t", LABEL), ("do", CONTROL), ("async", CONTROL), ("finish", CONTROL)]),
    (["cancel  t; yield;"], [("cancel", CONTROL), ("t", LABEL), ("yield", CONTROL)]),
    (["r = Send(c, OK);"], [("=", SIGN), ("Send", CALL), ("OK", CONSTANT)]),
    (["send(ok, Printf);"], []),
    ([r'printf("a\n%d %%\"");'], [("printf", CALL), ('"a', TEXT), (r"\n", ESCAPE), ("%d", HOLE), (" ", TEXT), ("%%", HOLE),
                                  (r"\"", ESCAPE), ('"', TEXT)]),
    ([r'printf("\q%x");'], [("printf", CALL), ('"', TEXT), (r"\q", NO_ESCAPE), ('%x"', TEXT)]),
    ([r'printf("\t\r");'], [("printf", CALL), ('"', TEXT), (r"\t", ESCAPE), (r"\r", NO_ESCAPE), ('"', TEXT)]),
    ([r'printf("\\"); x = 1;'], [("printf", CALL), ('"', TEXT), (r"\\", ESCAPE), ('"', TEXT), ("=", SIGN), ("1", NUMBER)]),
    (['file p("x);', "int y;"], [("file", TYPE), ('"x);', NO_TEXT), ("int", TYPE)]),
    (['"a\\', "do"], [('"a\\', NO_TEXT), ("do", CONTROL)]),
    (['"é"'], [('"', TEXT), ("é", NO_BYTE), ('"', TEXT)]),
    (["/* do", "int */ do // int"], [("/* do", BLOCK), ("int */", BLOCK), ("do", CONTROL), ("// int", LINE)]),
    (["/* a /* b */ c */"], [("/* a /* b */", BLOCK), ("*", SIGN), ("/", SIGN)]),
    (["// /*", "do"], [("// /*", LINE), ("do", CONTROL)]),
    (['"/*" "//"'], [('"/*"', TEXT), ('"//"', TEXT)]),
    (["07 0x1 1a 0 10"], [("07", NO_NUMBER), ("0x1", NO_NUMBER), ("1a", NO_NUMBER), ("0", NUMBER), ("10", NUMBER)]),
    (["a <<= b || !c"], [("<<", SIGN), ("=", SIGN), ("||", SIGN), ("!", SIGN)]),
    (["'a' @ é"], [("'", NO_BYTE), ("'", NO_BYTE), ("@", NO_BYTE), ("é", NO_BYTE)]),
)
# What the Vim file does not do.
MORE_SAMPLES = ((["cancel /* t */ t;"], [("cancel", CONTROL), ("/* t */", BLOCK), ("t", LABEL)]),)
# The groups of the Vim file, with the names of the grammar for the same.
GROUPS = {
    "acType": TYPE, "acItem": TYPE, "acConditional": CONTROL, "acRepeat": CONTROL, "acStatement": CONTROL, "acFunction": CALL,
    "acConstant": CONSTANT, "acLabel": LABEL, "acNumber": NUMBER, "acNumberError": NO_NUMBER, "acByteError": NO_BYTE,
    "acOperator": SIGN, "acEscape": ESCAPE, "acEscapeError": NO_ESCAPE, "acDirective": HOLE, "acTextByteError": NO_BYTE,
    "acTextError": NO_TEXT, "acText": TEXT, "acComment": "comment",
}
# Writes, for each sample, the group of each character on a line of its own, and an empty line behind each line.
VIM_SCRIPT = """set encoding=utf-8
let &runtimepath = $AC_VIM . ',' . &runtimepath
filetype plugin on
syntax on
let groups = []
for file in sort(glob('*.ac', 0, 1))
  execute 'edit' file
  for line in range(1, line('$'))
    let column = 1
    for char in split(getline(line), '\\zs')
      call add(groups, '=' . synIDattr(synID(line, column, 1), 'name'))
      let column += strlen(char)
    endfor
    call add(groups, '')
  endfor
endfor
call writefile(groups, 'groups')
qall!
"""


def vim_groups():
    """For each line of the samples the groups that Vim gives its characters."""
    with tempfile.TemporaryDirectory() as name:
        folder = pathlib.Path(name)
        for number, (lines, _) in enumerate(SAMPLES):
            (folder / f"{number:03}.ac").write_text("".join(line + "\n" for line in lines))
        (folder / "script.vim").write_text(VIM_SCRIPT)
        words = ["vim", "-N", "-u", "NONE", "-i", "NONE", "-n", "-e", "-s", "-S", "script.vim"]
        variables = dict(os.environ, AC_VIM=str(VIM))
        subprocess.run(words, cwd=folder, env=variables, stdin=subprocess.DEVNULL, stdout=subprocess.DEVNULL, timeout=120)
        text = (folder / "groups").read_text()
    return [[group[1:] for group in line.splitlines()] for line in re.findall(r"((?:=\w*\n)*)\n", text)]


def has_vim():
    """Whether a Vim with colours is installed; the smallest one has none."""
    vim = shutil.which("vim")
    return vim is not None and b"+syntax" in subprocess.run([vim, "--version"], stdout=subprocess.PIPE).stdout


def vim_sample_faults():
    if not has_vim():
        print("editors: Vim is not installed with its colours, and coloured nothing")
        return
    lines = [(line, marks) for lines, _ in SAMPLES for line, marks in zip(lines, marked(lines))]
    found = vim_groups()
    if len(found) != len(lines):
        yield f"Vim coloured {len(found)} lines of {len(lines)}"
    for (line, marks), groups in zip(lines, found):
        wanted = [mark and ("comment" if mark[1] in (LINE, BLOCK) else mark[1]) for mark in marks]
        if [GROUPS.get(group) for group in groups] != wanted:
            yield f"Vim colours {line!r} as {' '.join(group or '-' for group in groups)}"


def sample_faults():
    for lines, wanted in SAMPLES + MORE_SAMPLES:
        found = coloured(lines)
        if found != wanted:
            yield f"the grammar colours {lines} as {found}"
    names = {name for _, wanted in SAMPLES for _, name in wanted}
    words = lexer_words()
    for word in sorted(words):
        if [text for text, name in coloured([word]) if name in (TYPE, CONTROL, CALL, CONSTANT)] != [word]:
            yield f"the grammar does not colour {word}"
        for other in {word + "s", "s" + word, word + "_", word + "1", "_" + word, word.swapcase()} - words:
            if coloured([other]):
                yield f"the grammar colours {other}"
    for rule in rules(GRAMMAR):
        name = rule.get("name", "").removesuffix(".ac") if "match" in rule or "begin" in rule else ""
        if name and name not in names:
            yield f"no sample has {name}"


# What is looked for in the lines of ac-where


def vim_pattern():
    """The entry of errorformat that leads to a place, as a regular expression."""
    first = re.search(r"^setlocal errorformat=(.*)$", (VIM / "ftplugin" / "ac.vim").read_text(), re.M).group(1)
    if first != r"%f:%l:%c:\ %m":
        raise ValueError(f"errorformat begins with {first}")
    return re.compile(r"(.+?):(\d+):(\d+): (.+)")


def matcher():
    return json.loads((CODE / "package.json").read_text())["contributes"]["problemMatchers"][0]


def place_faults():
    pattern = matcher()["pattern"]
    if [pattern[key] for key in ("file", "line", "column", "message")] != [1, 2, 3, 4]:
        yield "the matcher of package.json takes other parts"
    for path in sorted((where.HERE / "where").glob("*.case")):
        test = where.read(path)
        said = test["place"].decode().splitlines()
        lines = test["answer"].decode("latin-1").splitlines() + said
        wanted = [line for line in said if re.match(re.escape(test["name"]) + r":\d+:\d+: ", line)]
        if len(wanted) != sum(line.lstrip("\t \u3000\u0301") == "^" for line in said):
            yield f"{path.name}: {len(wanted)} places, and not as many carets"
        for engine in (vim_pattern(), re.compile(pattern["regexp"])):
            found = [match for match in map(engine.fullmatch, lines) if match]
            if [match.group() for match in found] != wanted:
                yield f"{path.name}: {engine.pattern} finds {[match.group() for match in found]}"
            elif any(match.group(1) != test["name"] for match in found):
                yield f"{path.name}: {engine.pattern} takes {found[0].group(1)} for the file"


# Lines without a place: those that Vim has in its list of errors, and those that it leaves out.
KEPT = (
    "x.ac: library fault: No such file or directory", "ac-where: there is no ac: set AC to its path", "limit: source", "limit: steps",
    "ac-where: x.ac: it cannot be read again, or has changed since", "ac-where: x.ac: a waits at 22 places",
    "limit: file 0", "limit: file 15", "disk fault", "usage: ac run|trace FILE [--steps N]",
)
LEFT_OUT = (
    "library fault", "accepted", "a: finished after 1 steps, 9 instructions", "7", "", "rule C2 at 32", "limit: nesting at 281",
    "a: stalled after 2 steps, 6 instructions", "ac-trace 1", "end 0 stalled 2 -",
    "    x = 1;", "    ^", "no disk fault", "disk faults",
)
# Reads the lines as those of :make, and writes the list of errors, one line for each.
VIM_LIST_SCRIPT = """let &runtimepath = $AC_VIM . ',' . &runtimepath
filetype plugin on
edit x.ac
cgetfile lines
call writefile(map(getqflist(), 'v:val.lnum . ":" . v:val.col . ": " . v:val.text'), 'found')
qall!
"""


def vim_list(lines):
    """Vim's list of errors of these lines: line, column and text."""
    with tempfile.TemporaryDirectory() as name:
        folder = pathlib.Path(name)
        (folder / "lines").write_text("".join(line + "\n" for line in lines))
        (folder / "script.vim").write_text(VIM_LIST_SCRIPT)
        words = ["vim", "-N", "-u", "NONE", "-i", "NONE", "-n", "-e", "-s", "-S", "script.vim"]
        variables = dict(os.environ, AC_VIM=str(VIM))
        subprocess.run(words, cwd=folder, env=variables, stdin=subprocess.DEVNULL, stdout=subprocess.DEVNULL, timeout=120)
        return (folder / "found").read_text().splitlines()


def vim_list_faults():
    if not has_vim():
        return
    wanted = ["3:5: rule C2 at 32: a name"] + [f"0:0: {line}" for line in KEPT]
    found = vim_list(["x.ac:3:5: rule C2 at 32: a name", *KEPT, *LEFT_OUT])
    yield from (f"Vim has not in its list of errors: {line}" for line in wanted if line not in found)
    yield from (f"Vim has in its list of errors: {line}" for line in found if line not in wanted)


# A script in place of ac-where, which says with which words it was called and where a run ended.
STAND_IN = """#!/bin/sh
echo "$@" >> words
printf 'a: stalled after 2 steps, 6 instructions\\n'
printf 'x.ac:6:5: a: stalled: Recv(c, &x): core b has ended\\n    Recv(c, &x);\\n    ^\\n' >&2
exit 5
"""
VIM_RUN_SCRIPT = """let &runtimepath = $AC_VIM . ',' . &runtimepath
filetype plugin on
edit x.ac
silent AcRun
call writefile(map(getqflist(), 'v:val.lnum . ":" . v:val.col . ": " . v:val.text'), 'found')
silent make!
qall!
"""


def vim_run_faults():
    if not has_vim():
        return
    with tempfile.TemporaryDirectory() as name:
        folder = pathlib.Path(name)
        (folder / "ac-where").write_text(STAND_IN)
        (folder / "ac-where").chmod(0o755)
        (folder / "x.ac").write_text("core a(f);\n" * 9)
        (folder / "script.vim").write_text(VIM_RUN_SCRIPT)
        words = ["vim", "-N", "-u", "NONE", "-i", "NONE", "-n", "-e", "-s", "-S", "script.vim"]
        variables = dict(os.environ, AC_VIM=str(VIM), PATH=f"{folder}:{os.environ['PATH']}")
        subprocess.run(words, cwd=folder, env=variables, stdin=subprocess.DEVNULL, stdout=subprocess.DEVNULL, timeout=120)
        found, called = (folder / "found").read_text().splitlines(), (folder / "words").read_text().splitlines()
    if found != ["6:5: a: stalled: Recv(c, &x): core b has ended"]:
        yield f":AcRun lists {found}"
    if called != ["--columns=bytes run -- x.ac", "--columns=bytes check -- x.ac"]:
        yield f":AcRun and then :make call ac-where with {called}"


# The page


def page_faults():
    text = PAGE.read_text()
    plugin = (VIM / "ftplugin" / "ac.vim").read_text()
    for block in re.findall(r"^```vim\n(.*?)^```$", text, re.M | re.S):
        for line in block.splitlines():
            if re.match(r"\s*setlocal ", line) and line.strip() not in plugin:
                yield f"docs/EDITORS.md: ftplugin/ac.vim has not: {line.strip()}"
    blocks = [json.loads(block) for block in re.findall(r"^```json\n(.*?)^```$", text, re.M | re.S)]
    given = [task["problemMatcher"] for block in blocks for task in block["tasks"] if isinstance(task["problemMatcher"], dict)]
    wanted = {key: value for key, value in matcher().items() if key not in ("name", "label")}
    if not given or any(one != wanted for one in given):
        yield "docs/EDITORS.md has another matcher than package.json"
    named = {task["problemMatcher"] for block in blocks for task in block["tasks"] if isinstance(task["problemMatcher"], str)}
    if named != {"$" + matcher()["name"]}:
        yield f"docs/EDITORS.md names the matchers {sorted(named)}"


def file_faults():
    package = json.loads((CODE / "package.json").read_text())["contributes"]
    json.loads((CODE / "language-configuration.json").read_text())
    paths = [package["languages"][0]["configuration"], package["grammars"][0]["path"]]
    yield from (f"package.json names {path}, which is not there" for path in paths if not (CODE / path).exists())
    if package["grammars"][0]["scopeName"] != GRAMMAR["scopeName"]:
        yield "package.json names another grammar"


def main():
    parts = (vim_faults, grammar_faults, sample_faults, vim_sample_faults, place_faults, vim_list_faults, vim_run_faults, page_faults,
             file_faults)
    found = [fault for part in parts for fault in part()]
    for fault in found:
        print(fault)
    print(f"editors: {len(found)} faults")
    return 1 if found else 0


if __name__ == "__main__":
    sys.exit(main())
