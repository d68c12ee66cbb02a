#!/usr/bin/env python3
"""Runs the tests of tools/ac-where: those of tests/where, and those that stand here.

    python3 tests/where.py [PROGRAM]

In place of `ac` stands a script that writes the answer of the test and ends with its status. With a PROGRAM, a built `ac`, the
tests without a line `stand-in` are run on it too. README.md says what a test looks like.
"""
import os
import pathlib
import re
import shlex
import signal
import subprocess
import sys
import tempfile

import run

HERE = pathlib.Path(__file__).resolve().parent
TOOL = HERE.parent / "tools" / "ac-where"
PAGE = HERE.parent / "docs" / "LANGUAGE.md"
# Writes the words that it was given, a line each, and an empty line, and answers; `later` is what the source becomes meanwhile.
STAND_IN = """#!/bin/sh
cd "$(dirname "$0")"
printf '%s\\n' "$@" '' >> words
if [ -e later ]; then cat later > "$(cat source)"; fi
if [ "$1" = trace ] && [ -e trace ]; then cat trace; else cat answer; fi
exit STATUS
"""
PARTS = ("source", "later", "answer", "trace", "place")


def read(path):
    """The test of a file."""
    test = {"option": "", "words": "run x.ac", "name": "x.ac", "status": None, "stand-in": False, "asked": [], "before": {}}
    test.update(dict.fromkeys(PARTS))
    into = part = None
    for line in path.read_text().splitlines():
        key, _, rest = line.partition(" ")
        if line.startswith("#") or not line:
            continue
        if key in ("option", "words", "name", "status"):
            test[key], part = rest, None
        elif key == "asked":
            test[key].append(rest)
        elif line == "stand-in":
            test[line] = True
        elif key == "before" or line in PARTS:
            into, part = (test[key], rest) if key == "before" else (test, line)
            into[part] = b""
        else:
            into[part] += run.piece(line)
    if None in (test["status"], test["answer"], test["place"]):
        raise ValueError(f"{path.name} has no status, no answer or no place")
    return test


def stand_in(folder, status, answer, trace=None):
    """A script in place of `ac`, in a new folder."""
    folder.mkdir(parents=True)
    (folder / "answer").write_bytes(answer)
    if trace is not None:
        (folder / "trace").write_bytes(trace)
    script = folder / "ac"
    script.write_text(STAND_IN.replace("STATUS", str(status)))
    script.chmod(0o755)
    return script


def called(words, folder, tool=TOOL, stdout=subprocess.PIPE, **variables):
    """What the tool does in a folder: its status, its output and its errors."""
    given = {key: value for key, value in os.environ.items() if key != "AC"}
    given.update(LC_ALL="C", **variables)
    done = subprocess.run([sys.executable, tool, *words], cwd=folder, stdout=stdout, stderr=subprocess.PIPE, env=given, timeout=run.SECONDS)
    return done.returncode, done.stdout, done.stderr


def differs(test, program, folder):
    """What differs in a test, with a built program or else with the stand-in; or nothing."""
    work = folder / "work"
    work.mkdir(parents=True)
    if test["source"] is not None:
        (work / test["name"]).write_bytes(test["source"])
    for name, held in test["before"].items():
        (work / name).write_bytes(held)
    path = program or stand_in(folder / "stand-in", test["status"], test["answer"], test["trace"])
    if test["later"] is not None:
        (folder / "stand-in" / "later").write_bytes(test["later"])
        (folder / "stand-in" / "source").write_text(str(work / test["name"]))
    words = shlex.split(test["words"])
    came = called([*shlex.split(test["option"]), *words], work, AC=str(path))
    wanted = (int(test["status"]), test["answer"], test["place"])
    if came != wanted:
        return f"  wanted {wanted}\n  came   {came}"
    asked = [shlex.split(line) for line in test["asked"]] or [words]
    if not program and (folder / "stand-in" / "words").read_text() != "".join("\n".join([*words, "", ""]) for words in asked):
        return "  other words came to ac"
    return None


def refused(folder, **variables):
    """An `ac` that finds a bad byte at 0, in a call of the tool on a file that has one there."""
    (folder / "x.ac").write_bytes(b"@")
    return called(["run", "x.ac"], folder, **variables)


SHOWN = (2, b"bad byte at 0\n", b"x.ac:1:1: bad byte at 0: no token begins with this byte\n@\n^\n")


def an_empty_variable_names_no_program(folder):
    stand_in(folder / "bin", 2, b"bad byte at 0\n")
    assert refused(folder, AC="", PATH=f"{folder}/bin:{os.environ['PATH']}") == SHOWN


def the_variable_comes_before_the_path(folder):
    stand_in(folder / "bin", 0, b"accepted\n")
    named = stand_in(folder / "other", 2, b"bad byte at 0\n")
    assert refused(folder, AC=str(named), PATH=f"{folder}/bin:{os.environ['PATH']}") == SHOWN


def a_copy(folder):
    """The tool in a tree of its own, where no other `ac` is found: its path, and a PATH with nothing but what scripts need."""
    tool = folder / "tree" / "tools" / "ac-where"
    tool.parent.mkdir(parents=True)
    tool.write_bytes(TOOL.read_bytes())
    (folder / "bin").mkdir()
    for name in ("sh", "cat", "dirname"):
        (folder / "bin" / name).symlink_to(f"/bin/{name}" if os.path.exists(f"/bin/{name}") else f"/usr/bin/{name}")
    return tool, str(folder / "bin")


def the_program_of_its_own_tree_comes_last(folder):
    tool, path = a_copy(folder)
    stand_in(folder / "tree" / "crates" / "ac" / "out", 2, b"bad byte at 0\n")
    assert refused(folder, tool=tool, PATH=path) == SHOWN


def no_program_is_status_127(folder):
    tool, path = a_copy(folder)
    status, output, said = refused(folder, tool=tool, PATH=path)
    assert (status, output) == (127, b"") and said.startswith(b"ac-where: there is no ac")


def a_program_that_is_not_there_is_status_127(folder):
    assert refused(folder, AC="./none") == (127, b"", b"ac-where: ./none: No such file or directory\n")


def a_program_that_does_not_start_is_status_126(folder):
    (folder / "text").write_bytes(b"x")
    assert refused(folder, AC="./text") == (126, b"", b"ac-where: ./text: Permission denied\n")


def a_program_that_is_killed_has_the_status_of_the_shell(folder):
    script = stand_in(folder / "bin", 0, b"")
    script.write_text("#!/bin/sh\nkill -KILL $$\n")
    assert refused(folder, AC=str(script)) == (128 + signal.SIGKILL, b"", b"")


def three_million_bytes_pass_as_they_are(folder):
    text = bytes(range(256)) * 12_000
    assert refused(folder, AC=str(stand_in(folder / "bin", 0, text))) == (0, text, b"")


def an_output_that_fails_is_status_8(folder):
    script = stand_in(folder / "bin", 0, b"accepted\n")
    with open("/dev/full", "wb") as full:
        assert refused(folder, stdout=full, AC=str(script)) == (8, None, b"")


def an_output_that_nobody_reads_is_status_8(folder):
    script = stand_in(folder / "bin", 0, b"x" * 1_000_000)
    reads, writes = os.pipe()
    os.close(reads)
    with open(writes, "wb") as pipe:
        assert refused(folder, stdout=pipe, AC=str(script)) == (8, None, b"")


def a_pipe_is_not_read_again(folder):
    os.mkfifo(folder / "pipe")
    script = stand_in(folder / "bin", 3, b"rule C15 at 0\n")
    said = b"pipe: rule C15 at 0: a program has 1 to 16 cores\nac-where: pipe: its lines cannot be read\n"
    assert called(["run", "pipe"], folder, AC=str(script)) == (3, b"rule C15 at 0\n", said)


def a_file_of_a_name_that_is_no_text(folder):
    name = b"\xff\n.ac"
    (folder / os.fsdecode(name)).write_bytes(b"@")
    script = stand_in(folder / "bin", 2, b"bad byte at 0\n")
    said = b"\xff?.ac:1:1: bad byte at 0: no token begins with this byte\n@\n^\n"
    assert called([b"run", name], folder, AC=str(script)) == (2, b"bad byte at 0\n", said)


TWO_CORES = b"core a(f); core b(g); channel c(b, a, 1);\nasync void f() { int x; Recv(c, &x); }\nasync void g() { }\n"
STALLED = b"a: stalled after 2 steps, 6 instructions\nb: finished after 0 steps, 2 instructions\n"
STALLED_TRACE = b"ac-trace 1\nsteps 100000\nend 0 stalled 2 -\nend 1 finished 0 -\n"
STALLED_AT = b"x.ac:2:25: a: stalled: Recv(c, &x): core b has ended\nasync void f() { int x; Recv(c, &x); }\n" + b" " * 24 + b"^\n"


def without_its_modules_a_run_passes_as_it_is(folder):
    tool, path = a_copy(folder)
    script = stand_in(folder / "stand-in", 5, STALLED, STALLED_TRACE)
    (folder / "x.ac").write_bytes(TWO_CORES)
    assert called(["run", "x.ac"], folder, tool=tool, PATH=path, AC=str(script)) == (5, STALLED, b"")
    assert (folder / "stand-in" / "words").read_text() == "run\nx.ac\n\n"


def without_its_modules_a_broken_rule_is_told_by_its_words(folder):
    tool, path = a_copy(folder)
    script = stand_in(folder / "stand-in", 3, b"rule C4 at 28\n")
    (folder / "x.ac").write_bytes(b"core a(f); async void f() { f = 1; }")
    status, output, said = called(["run", "x.ac"], folder, tool=tool, PATH=path, AC=str(script))
    assert (status, output) == (3, b"rule C4 at 28\n")
    assert said.startswith(b"x.ac:1:29: rule C4 at 28: a name is used only as what it means: an int, an array, ")


def the_commands_of_the_readme_install_what_it_needs(folder):
    root = HERE.parent
    block = re.search(r"^## Install\n.*?^```\n(.*?)^```$", (root / "README.md").read_text(), re.M | re.S).group(1)
    tree, home = folder / "tree", folder / "home"
    tree.mkdir()
    home.mkdir()
    for name in ("tools", "docs", "bench"):
        (tree / name).symlink_to(root / name)
    stand_in(tree / "crates" / "ac" / "out", 5, STALLED, STALLED_TRACE)
    for name in run.BESIDE:
        out = tree / "crates" / name / "out"
        out.mkdir(parents=True)
        (out / name).write_text("#!/bin/sh\n")
    subprocess.run(["sh", "-ec", block], cwd=tree, env={**os.environ, "HOME": str(home)}, check=True, timeout=run.SECONDS)
    script = stand_in(folder / "stand-in", 5, STALLED, STALLED_TRACE)
    (folder / "x.ac").write_bytes(TWO_CORES)
    tool = home / ".local" / "bin" / "ac-where"
    assert all(os.access(home / ".local" / "bin" / name, os.X_OK) for name in ("ac-where", "ac", *run.BESIDE))
    assert all((home / ".local" / "share" / "man" / "man1" / f"{name}.1").is_file() for name in ("ac", *run.BESIDE))
    assert called(["run", "x.ac"], folder, tool=tool, AC=str(script)) == (5, STALLED, STALLED_AT)
    diagram = [sys.executable, home / ".local" / "bin" / "ac-diagram", root / "examples" / "race.ac", root / "docs" / "race.trace"]
    done = subprocess.run(diagram, stdout=subprocess.PIPE, timeout=run.SECONDS)
    assert done.stdout == (root / "docs" / "race.svg").read_bytes()


def a_run_that_is_told_by_its_trace_has_the_status_of_a_full_disk(folder):
    script = stand_in(folder / "stand-in", 5, b"", STALLED_TRACE)
    (folder / "x.ac").write_bytes(TWO_CORES)
    with open("/dev/full", "wb") as full:
        assert called(["run", "x.ac"], folder, stdout=full, AC=str(script)) == (8, None, b"")


def help_says_what_a_column_counts(folder):
    status, output, said = called(["--help"], folder)
    assert (status, said) == (0, b"") and b"--columns=UNIT" in output and b"A tab counts as one" in output


def a_unit_that_is_none_is_status_1(folder):
    assert called(["--columns=inches", "run", "x.ac"], folder) == (
        1,
        b"",
        b"ac-where: --columns is one of characters, bytes, utf16\n",
    )


def each_rule_and_each_answer_with_a_place_has_a_test(_):
    page = PAGE.read_text()
    answers = set(re.findall(r"`([a-z: ]+) at B`", page)) - {"rule Cn"}
    table = re.search(r"^\| Rule \| Broken by \|.*\n((?:\|.*\n)+)", page, re.M).group(1)
    answers |= {f"rule C{number}" for number in re.findall(r"^\| (\d+) \|", table, re.M)}
    shown = set()
    for path in sorted((HERE / "where").glob("*.case")):
        test = read(path)
        found = re.fullmatch(rb"(.+) at \d+\n", test["answer"])
        if found and test["place"].startswith(test["name"].encode()):
            shown.add(found.group(1).decode())
    assert answers <= shown, f"without a test: {sorted(answers - shown)}"
    assert len(answers) == 6 + 17, f"{len(answers)} answers"


CALLS = (
    an_empty_variable_names_no_program,
    the_variable_comes_before_the_path,
    the_program_of_its_own_tree_comes_last,
    no_program_is_status_127,
    a_program_that_is_not_there_is_status_127,
    a_program_that_does_not_start_is_status_126,
    a_program_that_is_killed_has_the_status_of_the_shell,
    three_million_bytes_pass_as_they_are,
    an_output_that_fails_is_status_8,
    an_output_that_nobody_reads_is_status_8,
    a_pipe_is_not_read_again,
    a_file_of_a_name_that_is_no_text,
    without_its_modules_a_run_passes_as_it_is,
    without_its_modules_a_broken_rule_is_told_by_its_words,
    the_commands_of_the_readme_install_what_it_needs,
    a_run_that_is_told_by_its_trace_has_the_status_of_a_full_disk,
    help_says_what_a_column_counts,
    a_unit_that_is_none_is_status_1,
    each_rule_and_each_answer_with_a_place_has_a_test,
)


def outcomes(program):
    """Each test with what is wrong in it, or with nothing."""
    for path in sorted((HERE / "where").glob("*.case")):
        test = read(path)
        for built in [None, program] if program and not test["stand-in"] else [None]:
            with tempfile.TemporaryDirectory() as folder:
                yield f"where/{path.name}{' on the program' if built else ''}", differs(test, built, pathlib.Path(folder))
    for call in CALLS:
        with tempfile.TemporaryDirectory() as folder:
            try:
                call(pathlib.Path(folder))
                yield call.__name__, None
            except AssertionError as error:
                yield call.__name__, f"  {error}"


def main():
    program = str(pathlib.Path(sys.argv[1]).resolve()) if len(sys.argv) > 1 else None
    found = list(outcomes(program))
    for name, wrong in found:
        if wrong:
            print(f"{name}\n{wrong}")
    failed = sum(wrong is not None for _, wrong in found)
    print(f"where: {len(found) - failed} passed, {failed} failed")
    return 1 if failed else 0


if __name__ == "__main__":
    sys.exit(main())
