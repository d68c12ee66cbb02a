#!/usr/bin/env python3
"""Runs the tests of this folder, the commands that the pages show, and the examples and forms of docs/LANGUAGE.md, with a built `ac`.

    python3 tests/run.py crates/ac/out/ac [WORD ..]
    python3 tests/run.py --cases FOLDER [WORD ..]

Words pick the tests whose path has one of them in it. README.md says what a test looks like. The second form runs nothing: it
writes the tests into a new folder, as `rt try --cases` takes them.

A program whose cores race may have more than one right answer. Then a file NAME.any beside NAME.txt or NAME.ac has each of them;
what comes has to be one, and a trace has to be a run that ends with one, by `ac audit` and by the plain slow program of bench/slow.
"""
import functools
import os
import pathlib
import re
import shlex
import subprocess
import sys
import tempfile
import typing

HERE = pathlib.Path(__file__).resolve().parent
ROOT = HERE.parent
sys.path.insert(0, str(ROOT / "bench" / "slow"))
import disk as outside  # noqa: E402
import report as slow  # noqa: E402
import traces  # noqa: E402

PAGE = ROOT / "docs" / "LANGUAGE.md"
GUIDE = ROOT / "docs" / "GUIDE.md"
PAGES = [ROOT / "README.md", GUIDE, PAGE]
# The commands of `ac`. Those of other programs that the pages show are passed over, but for the ones that are built beside it.
BUILT = ("run", "trace", "check", "code", "audit", "load")
BESIDE = ("ac_order", "ac_again", "ac_merge", "ac_mirror")
PIECE = re.compile(r'(?:(\d+) \* )?"((?:[^"\\]|\\.)*)"')
ESCAPE = re.compile(r"\\(x[0-9a-f]{2}|.)")
PLAIN = {"n": "\n", "t": "\t", "r": "\r", "\\": "\\", '"': '"'}
SECONDS = 120
# In how many orders at least, and at most, the slow program looks for the answers of a program that has several.
ORDERS, MOST_ORDERS = 40, 2_000


class Test(typing.NamedTuple):
    """The words, and the source with the name of its file; what is wanted; files beside it, before and after, of which None is no
    file; each right answer, where there are several: its status and its output; and the program, where it is not `ac`."""

    words: list
    name: str
    source: bytes | None
    status: int
    output: bytes
    before: dict = {}
    after: dict = {}
    answers: tuple = ()
    program: str | None = None


def unescaped(text, number):
    def one(found):
        name = found.group(1)
        if name == "#":
            return str(number)
        if name[0] == "x" and len(name) == 3:
            return chr(int(name[1:], 16))
        return PLAIN[name]

    return ESCAPE.sub(one, text).encode("latin-1")


def piece(line):
    """The bytes of one piece."""
    if line == "|" or line.startswith("| "):
        return line[2:].encode() + b"\n"
    found = PIECE.fullmatch(line)
    if not found:
        raise ValueError(f"no piece: {line}")
    times = int(found.group(1) or 1)
    if "\\#" not in found.group(2):
        return unescaped(found.group(2), 0) * times
    return b"".join(unescaped(found.group(2), number) for number in range(times))


def answers_beside(path):
    """Each right answer of this text or program, where it has several: its status and its output."""
    found, path = [], path.with_suffix(".any")
    for line in path.read_text().splitlines() if path.is_file() else ():
        key, _, rest = line.partition(" ")
        if key == "status":
            found.append((int(rest), b""))
        elif line and line != "output" and not line.startswith("#"):
            found[-1] = found[-1][0], found[-1][1] + piece(line)
    return tuple(found)


def read(path):
    """The test of a file."""
    test = {"words": "run x.ac", "name": "x.ac", "program": None, "source": None, "status": None, "output": None, "before": {}, "after": {}}
    into = part = None
    for line in path.read_text().splitlines():
        key, _, rest = line.partition(" ")
        if line.startswith("#") or not line:
            continue
        if key in ("words", "name", "program", "status"):
            test[key], into = rest, None
        elif line in ("source", "output"):
            into, part = test, line
            into[part] = b""
        elif key in ("before", "after"):
            into, part = test[key], rest
            into[part] = b""
        elif key == "absent":
            test["after"][rest], into = None, None
        elif into is not None:
            into[part] += piece(line)
        else:
            raise ValueError(f"{path.name}: {line}")
    if test["status"] is None or test["output"] is None:
        raise ValueError(f"{path.name} has no status or no output")
    words, status = shlex.split(test["words"]), int(test["status"])
    answers = answers_beside(path)
    return Test(words, test["name"], test["source"], status, test["output"], test["before"], test["after"], answers, test["program"])


def status_of(answer):
    """The status that goes with an answer of a page."""
    if re.match(rb"(bad byte|number too large|open comment|open text|unexpected token) at \d+\n", answer):
        return 2
    if answer.startswith(b"rule "):
        return 3
    if answer.startswith(b"no at "):
        return 13
    ends = re.findall(rb"^\w+: ([a-z-]+) after \d+ steps, \d+ instructions$", answer, re.M)
    kinds = {6: b"out-of-steps", 5: b"stalled", 0: b"finished"}
    if any(end not in kinds.values() for end in ends):
        return 4
    return next((status for status, word in kinds.items() if word in ends), 0)


class Session(typing.NamedTuple):
    """The commands of a block, which are run one after the other in one folder, each with its output and its status."""

    commands: list


class Front(bytes):
    """The first lines of an output of which no more is shown."""


def blocks(page):
    """The fenced blocks of a page, each with the word after its fence."""
    return re.findall(r"^```(\w*)\n(.*?)^```$", page.read_text(), re.M | re.S)


def calls(block):
    """Each command of a block with the output below it, and its status: that which a `$ echo $?` shows, or which goes with a report."""
    found = re.findall(r"^\$ (.*)\n((?:(?!\$ ).*\n)*)", block, re.M)
    for (command, output), (after, status) in zip(found, [*found[1:], ("", "")]):
        if command != "echo $?":
            yield command, output.encode(), int(status) if after == "echo $?" else status_of(output.encode())


def is_session(block):
    """Whether a block has other commands than those of `ac`, as one that makes a file or shows what is left in one; an output that
    goes into a file; or a trace."""
    return any(not command.startswith("ac ") or " > " in command or ".trace" in command for command, *_ in calls(block))


def session_tests():
    """Each block of the pages with commands of several kinds."""
    for page in PAGES:
        for block in [block for _, block in blocks(page) if is_session(block)]:
            commands = list(calls(block))
            yield f"{page.relative_to(ROOT)}, {'; '.join(command for command, *_ in commands)}", Session(commands)


def command_tests():
    """Each command of the other blocks that is built, with the file that it names."""
    for page in PAGES:
        for command, output, status in [call for _, block in blocks(page) if not is_session(block) for call in calls(block)]:
            line, _, lines = command.partition(" | head -n ")
            words = shlex.split(line)[1:]
            if not words or words[0] not in BUILT:
                continue
            if lines and output.count(b"\n") != int(lines):
                raise ValueError(f"{page.name}: {command} shows other than {lines} lines")
            name = next((word for word in words if (ROOT / word).is_file()), None)
            source = (ROOT / name).read_bytes() if name else None
            answers = answers_beside(ROOT / name) if name and words[0] == "run" else ()
            words = ["x.ac" if word == name else word for word in words]
            output = Front(output) if lines else output
            yield f"{page.relative_to(ROOT)}, {command}", (words, "x.ac", source, status, output, {}, {}, answers)


def page_faults():
    """The programs of README.md and the guide that are not those of the files that the commands after them name, and files without a line.

    A program may stand there in parts, one behind the other."""
    program = ""
    for language, block in [*blocks(PAGES[0]), ("", ""), *blocks(GUIDE), ("", "")]:
        if language == "c":
            program += block
            continue
        named = re.search(r"^\$ ac .*?(examples/\w+\.ac)", block, re.M)
        if program and not named:
            yield f"README.md, docs/GUIDE.md: no command after the program\n{program}"
        elif program and (ROOT / named.group(1)).read_text() != program:
            yield f"README.md, docs/GUIDE.md: the program before {named.group(1)} is another"
        program = ""
    for path in sorted((ROOT / "examples").glob("*.ac")):
        if f"({path.name})" not in (ROOT / "examples" / "README.md").read_text():
            yield f"examples/README.md: {path.name} has no line"


def examples():
    """Each program of the page with the answer that stands after it: in the next block, or in its row."""
    texts = [text for _, text in blocks(PAGE)]
    pairs = [
        (source, answer)
        for source, answer in zip(texts, texts[1:])
        if source.startswith("core ") and re.match(r"\w+: [a-z-]+ after ", answer)
    ]
    traced = [(source, answer) for source, answer in zip(texts, texts[1:]) if source.startswith("core ") and answer.startswith("ac-trace ")]
    for number, (source, answer) in enumerate(traced, 1):
        yield f"docs/LANGUAGE.md, trace {number}", (["trace", "x.ac"], "x.ac", source.encode(), 0, answer.encode())
    rows = re.findall(r"^\| `(core [^`]*)` \| `(rule C\d+ at \d+)`", PAGE.read_text(), re.M)
    pairs += [(source, answer + "\n") for source, answer in rows]
    for number, (source, answer) in enumerate(pairs, 1):
        answer = answer.encode()
        yield f"docs/LANGUAGE.md, example {number}", (["run", "x.ac"], "x.ac", source.encode(), status_of(answer), answer)


# What the forms of the page stand in: a function that no core reaches, so that it may use both ends of a channel.
FRAME = """core k(e); core l(e); async void e() { } channel c(k, l, 4); file log("log.dat");
void f() { } void g(int x, int y, int z) { } void show(int row[], int n) { } int twice(int x) { return x; }
int sum(int row[], int n) { return n; } async %s h() { int x; int y; int i; int a[8]; int b[8]; while (1) { %s } }
"""


def forms():
    """Each form of the page's tables, in a program that has it. The program breaks no rule, and has a file."""
    text = PAGE.read_text()
    tables = re.findall(r"^\| Form \| Example \|.*?\n\|[-|]+\n((?:\|.*\n)+)", text, re.M)
    items, statements, values = [
        [form for row in table.splitlines() for form in re.findall(r"`([^`]+)`", row.split(" | ")[1])] for table in tables
    ]
    yield "docs/LANGUAGE.md, the top level", "core k(f); core b(f); " + " ".join(items)
    for form in statements:
        yield f"docs/LANGUAGE.md, {form}", FRAME % ("int" if form.startswith("return ") else "void", form)
    for form in values:
        yield f"docs/LANGUAGE.md, {form}", FRAME % ("void", f"x = {form};")


def form_tests():
    """The cores of each enter a function that does nothing."""
    for name, source in forms():
        cores = re.findall(r"\bcore (\w+)\(", source)
        output = "".join(f"{core}: finished after 0 steps, 2 instructions\n" for core in cores)
        yield name, (["run", "x.ac"], "x.ac", source.encode(), 0, output.encode())


def shown(output):
    return repr(output) if len(output) <= 600 else f"{output[:300]!r} .. {output[-200:]!r} ({len(output)} bytes)"


def put(folder, files):
    """Writes the files of a test; a name that ends in a slash is a folder."""
    for name, held in files.items():
        if name.endswith("/"):
            (folder / name).mkdir(parents=True)
        else:
            (folder / name).write_bytes(held)


def held_by(path):
    return path.read_bytes() if path.is_file() else None


def other_file(folder, files):
    """The first of these files that holds something else, or nothing."""
    for name, held in files.items():
        came = held_by(folder / name)
        if came != held:
            return f"  {name}: wanted {'no file' if held is None else shown(held)}, came {'no file' if came is None else shown(came)}"
    return None


def with_tools(program):
    """An environment in which `ac-where` and `ac-diagram` are found as if they were installed, and run this program."""
    return {**os.environ, "AC": str(program), "PATH": f"{ROOT / 'tools'}{os.pathsep}{os.environ['PATH']}"}


def built(name):
    """The program of this name, which stands beside `ac`, in its own crate."""
    return ROOT / "crates" / name / "out" / name


def session_failure(program, commands):
    """The first command that differs, or nothing. They run beside docs, examples, tests and tools, and `ac` is the program."""
    named = {"ac": program} | {name: built(name) for name in BESIDE}
    found = "".join(f'{name}() {{ {shlex.quote(str(path))} "$@"; }}\n' for name, path in named.items())
    with tempfile.TemporaryDirectory() as folder:
        for name in ("docs", "examples", "tests", "tools"):
            (pathlib.Path(folder) / name).symlink_to(ROOT / name)
        for command, output, status in commands:
            try:
                done = subprocess.run(["sh", "-c", found + command], cwd=folder, env=with_tools(program), stdout=subprocess.PIPE,
                                      stderr=subprocess.STDOUT, timeout=SECONDS)
            except subprocess.TimeoutExpired:
                return f"  {command}\n  not done after {SECONDS} seconds"
            if (done.returncode, done.stdout) != (status, output):
                return f"  {command}\n  wanted {status}, {shown(output)}\n  came   {done.returncode}, {shown(done.stdout)}"
    return None


def without_instructions(report):
    """A report without what a trace does not tell."""
    return re.sub(rb"^(\w+: [a-z-]+ after \d+ steps), \d+ instructions$", rb"\1", report, flags=re.M)


def trace_failure(program, test):
    """What is wrong with a trace of a program with several right answers, or nothing."""
    with tempfile.TemporaryDirectory() as folder:
        put(pathlib.Path(folder), {test.name: test.source} | test.before)
        done = subprocess.run([program, "trace", *test.words[1:]], cwd=folder, stdout=subprocess.PIPE, timeout=SECONDS)
        (pathlib.Path(folder) / "run.trace").write_bytes(done.stdout)
        words = [program, "audit", "--", test.name, "run.trace"]
        audit = subprocess.run(words, cwd=folder, stdout=subprocess.PIPE, timeout=SECONDS)
    judged = slow.deep(lambda: slow.judged(test.source, done.stdout))
    if (audit.returncode, audit.stdout, judged) != (0, b"yes\n", (0, "yes")):
        return f"  `ac audit` says {shown(audit.stdout)}, and the slow program {judged}, of the trace\n{done.stdout.decode('latin-1')}"
    names = [core.name for core in slow.load(test.source)[1].cores]
    told = slow.report([(name, word, steps, 0, output) for name, (word, steps, output) in zip(names, traces.read(done.stdout).ends)])
    if done.returncode == told[0] and any(without_instructions(told[1]) == without_instructions(output) for _, output in test.answers):
        return None
    return f"  status {done.returncode}, and no right answer, of the trace\n{done.stdout.decode('latin-1')}"


def failure(program, test):
    """What differs, or nothing."""
    if isinstance(test, Session):
        return session_failure(program, test.commands)
    test = Test(*test)
    if test.program:
        program = built(test.program)
    output, answers = test.output, test.answers or ((test.status, test.output),)
    with tempfile.TemporaryDirectory() as folder:
        folder = pathlib.Path(folder)
        put(folder, ({} if test.source is None else {test.name: test.source}) | test.before)
        try:
            done = subprocess.run([program, *test.words], cwd=folder, stdout=subprocess.PIPE, timeout=SECONDS)
            other = other_file(folder, test.after)
            if test.answers and not other:
                other = trace_failure(program, test)
        except subprocess.TimeoutExpired:
            return f"  not done after {SECONDS} seconds"
    came = done.stdout[: len(output)] if isinstance(output, Front) else done.stdout
    if (done.returncode, came) in answers:
        return other
    wanted = "\n  or     ".join(f"{status}, {shown(output)}" for status, output in answers)
    return f"  wanted {wanted}\n  came   {done.returncode}, {shown(came)}"


def answers_of_orders(source, files, wanted):
    """The answers of the slow program in many orders, in which it has tried for each of those that are wanted."""
    found, files = set(), {name.encode(): held for name, held in files.items()}
    for order in range(MOST_ORDERS):
        if order >= ORDERS and found >= wanted:
            break
        found.add(slow.both(source, 100_000, order, order % 4 >= 2, outside.Disk(files)))
    return found


def answer_faults():
    """The files of answers that are not beside a text or a program, whose answers are not those of the orders of the slow program,
    or of which a text or a page has not one, or all the pages not each."""
    programs = {}
    for path in sorted([*HERE.glob("**/*.any"), *(ROOT / "examples").glob("*.any")]):
        if path.with_suffix(".txt").is_file():
            test = read(path.with_suffix(".txt"))
            programs[path] = test.source, test.before
            if (test.status, test.output) not in test.answers or test.words != ["run", test.name]:
                yield f"{path.relative_to(ROOT)}: the answer of the text is not among them, or its words are others"
        elif path.with_suffix(".ac").is_file():
            programs[path] = path.with_suffix(".ac").read_bytes(), {}
            on_pages = {test[3:5] for name, test in command_tests() if name.endswith(f"ac run examples/{path.stem}.ac")}
            if on_pages != set(answers_beside(path)):
                yield f"{path.relative_to(ROOT)}: the pages show other answers"
        else:
            yield f"{path.relative_to(ROOT)}: no text and no program is beside it"
    for path, program in programs.items():
        wanted = set(answers_beside(path))
        found = slow.deep(functools.partial(answers_of_orders, *program, wanted))
        if len(wanted) < 2 or found != wanted:
            yield f"{path.relative_to(ROOT)}: the slow program finds\n" + "\n".join(map(str, sorted(found)))


def write_cases(folder, tests):
    """The tests as files of a new folder: of each its source, its words and its output. The status is not among them.

    A source of another name than `x.ac` is left out, since `rt try` names the copies of sources itself, and so are a test with
    files beside the source or with several answers, a block of several kinds of commands and an output that is not shown whole."""
    folder.mkdir(parents=True)
    tests = [(name, Test(*test)) for name, test in tests if not isinstance(test, Session)]
    tests = [(name, test) for name, test in tests
             if test.name == "x.ac" and not (test.program or test.before or test.after or test.answers or isinstance(test.output, Front))]
    for number, (name, (words, file, source, _, output, *_)) in enumerate(tests):
        case = re.sub(r"\W+", "_", f"{number:04} {name.removesuffix('.txt')}")
        (folder / case).write_bytes(source or b"")
        given = ["{}" if word == file and source is not None else word for word in words]
        (folder / (case + ".args")).write_text("".join(word + "\n" for word in given))
        (folder / (case + ".stdout")).write_bytes(output)
    print(f"{len(tests)} cases")


def main():
    if len(sys.argv) < 2 or (sys.argv[1] == "--cases" and len(sys.argv) < 3):
        sys.exit(__doc__)
    picks = sys.argv[3:] if sys.argv[1] == "--cases" else sys.argv[2:]
    files = sorted(HERE.glob("**/*.txt"))
    tests = [(str(path.relative_to(HERE)), read(path)) for path in files]
    tests += [*command_tests(), *session_tests(), *examples(), *form_tests()]
    tests = [test for test in tests if not picks or any(pick in test[0] for pick in picks)]
    if sys.argv[1] == "--cases":
        write_cases(pathlib.Path(sys.argv[2]), tests)
        return
    program = str(pathlib.Path(sys.argv[1]).resolve())
    faults = [*page_faults(), *answer_faults()]
    for fault in faults:
        print(fault)
    failed = 0
    for name, test in tests:
        wrong = failure(program, test)
        if wrong:
            failed += 1
            print(f"{name}\n{wrong}")
    print(f"{len(tests) - failed} passed, {failed + len(faults)} failed")
    sys.exit(1 if failed or faults or not files or not tests else 0)


if __name__ == "__main__":
    main()
