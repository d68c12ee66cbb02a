#!/usr/bin/env python3
"""Hostile files as FILE and as TRACE, with a built `ac`.

    python3 bench/hostile.py crates/ac/out/ac [--sources N] [--traces N] [--first SEED] [--seconds S] [--jobs N] [WORD ..]

No call may crash or hang, and each answer is that of the plain slow program of bench/slow, or is worked out here:

- `bytes`: each byte value at each of the first 64 places of a program, by `ac check`, and of a trace, by `ac audit`;
- `files`: 2 GiB of zeros, a pipe that never ends, a terminal, folders, devices, and a file that grows while it is read, as FILE, as
  TRACE and as a file of the program;
- `sources`: N programs changed in a few places, by `ac check`: the status, and the place where there is one;
- `traces`: N traces changed in one place, as tests/audits.py changes them, or in their text, by `ac audit`.

N is 2,000 where none is given. What is changed is drawn by a seed for each, from SEED on, so that the same numbers try the same. With
--seconds no more is begun once so many seconds have passed, and how many were tried is printed. The status is 1 where anything
differs. Words pick some of these four kinds.
"""
import argparse
import collections
import concurrent.futures
import contextlib
import functools
import multiprocessing
import os
import pathlib
import pty
import random
import re
import signal
import subprocess
import sys
import tempfile
import termios
import threading
import time
import tty

ROOT = pathlib.Path(__file__).resolve().parent.parent
sys.path[:0] = [str(ROOT / "tests"), str(ROOT / "bench" / "slow")]
import audits  # noqa: E402
import cancels  # noqa: E402
import disk as outside  # noqa: E402
import networks  # noqa: E402
import programs  # noqa: E402
import races  # noqa: E402
import report as slow  # noqa: E402
import rules  # noqa: E402
import run  # noqa: E402
import tokens_and_trees as lang  # noqa: E402
import traces  # noqa: E402

SECONDS = 60
MANY = 2_000
PLACES = 64
# How many changed texts one process does before it gives back what it has seen.
BATCH = 250
# A longer source is no seed, since the slow program is slow; a trace of more entries neither.
SHORT, ENTRIES, STEPS = 4_000, 60, 400
MEMORY = pathlib.Path("/dev/shm") if os.path.isdir("/dev/shm") else None


# ---- a call


class Hangs(Exception):
    pass


def ac(program, folder, *words):
    """The status and the output of a call. Quicker than a Popen, of which there are hundreds of thousands here."""
    out = os.path.join(folder, "out")
    actions = [(os.POSIX_SPAWN_OPEN, 1, out, os.O_WRONLY | os.O_CREAT | os.O_TRUNC, 0o600)]
    child = os.posix_spawn(program, [program, *words], {}, file_actions=actions)

    def late(*_):
        os.kill(child, signal.SIGKILL)
        raise Hangs(f"not done after {SECONDS} seconds")
    signal.signal(signal.SIGALRM, late)
    signal.alarm(SECONDS)
    _, status = os.waitpid(child, 0)
    signal.alarm(0)
    with open(out, "rb") as told:
        return os.waitstatus_to_exitcode(status), told.read()


def checked(text):
    """What `ac check` is to answer."""
    try:
        rules.refusal(text, 0)
    except lang.Fault as fault:
        return fault.status, fault.line.encode() + b"\n"
    return 0, b"accepted\n"


def audited(source, text):
    status, line = slow.judged(source, text)
    return status, line.encode() + b"\n"


def shown(text):
    return text[:1500].decode("latin-1")


# ---- texts that are changed


WORDS = ("core", "channel", "file", "async", "void", "int", "do", "finish", "cancel", "if", "else", "while", "for", "return", "printf",
         "Send", "Recv", "Read", "Write", "OK", "CANCELLED", "FAULT")
MARKS = ("(", ")", "{", "}", "[", "]", ";", ",", ":", "=", "+", "-", "*", "/", "%", "&", "|", "^", "~", "!", "<", ">", "<<", ">>", "<=", ">=",
         "==", "!=", "&&", "||", '"', "'", "/*", "*/", "//", "\\", "\n", "\t", "\0", "\x7f", "\xff", "0", "00", "9223372036854775807",
         "9223372036854775808", "x", "f", "a", "\"%d\\n\"", "@", "#", "$", "?", ".")
# Names and words, numbers, operators.
NAME = re.compile(rb"[A-Za-z_]\w*")
KINDS_OF_TOKENS = (NAME, NAME, NAME, re.compile(rb"\d+"), re.compile(rb"[-+*/%&|^<>=!]+"))
TOKEN = re.compile(rb'\s+|[A-Za-z_]\w*|\d+|"[^"\n]*"|<<|>>|<=|>=|==|!=|&&|\|\||.', re.S)


@functools.cache
def seed_sources():
    """Programs of the examples and the tests, short ones."""
    found = [path.read_bytes() for path in sorted((ROOT / "examples").glob("*.ac"))]
    found += [test.source for path in sorted((ROOT / "tests").glob("*/*.txt")) if (test := run.read(path)).source]
    return sorted({text for text in found if 0 < len(text) <= SHORT})


def drawn_source(r):
    """A program to be changed: one of the repository, or a random one."""
    if r.random() < 0.7:
        return r.choice(seed_sources())
    seed = r.randrange(1 << 30)
    kind = r.randrange(4)
    if kind == 0:
        return programs.Gen(seed, r.random() < 0.5).program()[0].encode()
    if kind == 1:
        return races.program(seed, r.choice((2, 3, 4)))[0].encode()
    return (networks, cancels)[kind - 2].program(seed)[0].encode()


def other_bytes(r, text):
    """A text of which one byte, or a few, is another, is gone, is new, or stands elsewhere; or which is cut off."""
    at, end = r.randrange(len(text) + 1), r.randrange(len(text) + 1)
    at, end = min(at, end), max(at, end)
    kind = r.randrange(7)
    if kind == 0:
        return text[:at] + bytes([r.randrange(256)]) + text[at + 1:]
    if kind == 1:
        return text[:at] + text[at + r.choice([1, 1, 2, 8]):]
    if kind == 2:
        return text[:at] + bytes([r.randrange(256)]) + text[at:]
    if kind == 3:
        return text[:at]
    if kind == 4:
        return text[:at] + text[end:]
    if kind == 5:
        return text[:end] + text[at:end][: r.choice([4, 64, 1000])] + text[end:]
    return text[:at] + r.choice(MARKS).encode("latin-1") + text[at:]


def other_tokens(r, text):
    """A text of which one token is another, mostly one of its own kind, is gone, is new, is doubled, or is exchanged with another."""
    tokens = TOKEN.findall(text)
    if not tokens:
        return b";"
    if r.random() < 0.6:
        kind = r.choice(KINDS_OF_TOKENS)
        places = [n for n, token in enumerate(tokens) if kind.fullmatch(token)]
        if places:
            tokens[r.choice(places)] = r.choice([tokens[n] for n in places])
        return b"".join(tokens)
    at, to, kind = r.randrange(len(tokens)), r.randrange(len(tokens)), r.randrange(6)
    if kind == 0:
        tokens[at] = r.choice(WORDS + MARKS).encode("latin-1")
    elif kind == 1:
        del tokens[at]
    elif kind == 2:
        tokens.insert(at, r.choice(WORDS + MARKS).encode("latin-1") + b" ")
    elif kind == 3:
        tokens[at], tokens[to] = tokens[to], tokens[at]
    elif kind == 4:
        tokens[at] = tokens[to]
    else:
        tokens.insert(at, tokens[at])
    return b"".join(tokens)


def nested(r, text):
    """A text with something in itself many times, at the limit of depths or beyond."""
    depth = r.choice([100, 200, 250, 254, 255, 256, 257, 260, 400])
    opens, closes = r.choice([(b"(", b")"), (b"{", b"}"), (b"-", b""), (b"!", b""), (b"if (1) ", b""), (b"a[", b"]"), (b"do {", b"} finish;"), (b"((", b"))")])
    tokens = TOKEN.findall(text)
    at = r.randrange(len(tokens) + 1)
    to = min(len(tokens), at + r.choice([0, 1, 1, 1, 3]))
    return b"".join([*tokens[:at], opens * depth, *tokens[at:to], closes * depth, *tokens[to:]])


def changed_source(seed):
    r = random.Random(f"source {seed}")
    text = drawn_source(r)
    if r.random() < 0.01:
        return nested(r, text)
    for _ in range(r.choice([1, 1, 1, 2, 3, 6])):
        text = r.choice([other_bytes, other_tokens, other_tokens])(r, text)
    return text


def other_text_of_trace(r, text):
    """A text of a trace with another byte, word or line."""
    if r.random() < 0.4:
        return other_bytes(r, text)
    lines = text.splitlines(keepends=True)
    at, to, kind = r.randrange(len(lines)), r.randrange(len(lines)), r.randrange(5)
    if kind == 0:
        del lines[at]
    elif kind == 1:
        lines[at], lines[to] = lines[to], lines[at]
    elif kind == 2:
        lines.insert(at, lines[to])
    else:
        words = lines[at].split(b" ")
        others = [b"0", b"-1", b"01", b"18446744073709551616", b"4294967296", b"", b"-", b"ff", b"offer", b"got", b"fault", b"end", b"finished"]
        words[r.randrange(len(words))] = r.choice(others + [word for line in lines for word in line.split(b" ")])
        lines[at] = b" ".join(words) if kind == 3 else b" ".join(words[: r.randrange(len(words)) + 1])
    return b"".join(lines)


@functools.lru_cache(maxsize=64)
def drawn_run(number):
    """A program and a run of it that the slow program has made in an order of its own."""
    r = random.Random(f"run {number}")
    for _ in range(100):
        seed, kind = r.randrange(1 << 30), r.randrange(3)
        text, steps = races.program(seed, r.choice((2, 2, 3, 4))) if kind == 0 else (networks, cancels)[kind - 1].program(seed)
        try:
            _, made = slow.trace(text.encode(), min(steps, STEPS), seed, r.random() < 0.5)
        except lang.Fault:
            continue
        if len(made.entries) <= ENTRIES:
            return text.encode(), made
    raise RuntimeError("no run is small enough")


def changed_trace(seed):
    """A program and a text of a trace. Forty seeds after one another have the same run."""
    r = random.Random(f"trace {seed}")
    source, made = drawn_run(seed // 40)
    if r.random() < 0.7:
        for _ in range(r.choice([1, 1, 1, 2])):
            made = audits.changed(r, made)
        return source, traces.written(made)
    return source, other_text_of_trace(r, traces.written(made))


# ---- many of them, in several processes


def check_one(program, folder, text):
    with open(os.path.join(folder, "x.ac"), "wb") as file:
        file.write(text)
    came, due = ac(program, folder, "check", os.path.join(folder, "x.ac")), checked(text)
    return due[0], None if came == due else f"wanted {due}, came {came}, of\n{shown(text)}"


def audit_one(program, folder, source, text):
    names = [os.path.join(folder, name) for name in ("x.ac", "x.trace")]
    for name, held in zip(names, (source, text)):
        with open(name, "wb") as file:
            file.write(held)
    came, due = ac(program, folder, "audit", *names), audited(source, text)
    return due[0], None if came == due else f"wanted {due}, came {came}, of\n{shown(source)}\nand\n{shown(text)}"


def byte_of_source(program, folder, number):
    text = bytearray((ROOT / "examples" / "two_cores.ac").read_bytes())
    text[number % PLACES] = number // PLACES
    return check_one(program, folder, bytes(text))


def byte_of_trace(program, folder, number):
    source, made = drawn_run(1)
    text = bytearray(traces.written(made))
    text[number % PLACES] = number // PLACES
    return audit_one(program, folder, source, bytes(text))


KINDS = {
    "bytes of a source": byte_of_source,
    "bytes of a trace": byte_of_trace,
    "sources": lambda program, folder, seed: check_one(program, folder, changed_source(seed)),
    "traces": lambda program, folder, seed: audit_one(program, folder, *changed_trace(seed)),
}


def batch(job):
    """How the texts of these numbers were answered, and what differs."""
    kind, program, first, count = job
    statuses, faults = collections.Counter(), []
    with tempfile.TemporaryDirectory(dir=MEMORY) as folder:
        for number in range(first, first + count):
            try:
                status, fault = KINDS[kind](program, folder, number)
            except Exception as wrong:
                status, fault = None, f"{type(wrong).__name__} {wrong}"
            statuses[status] += 1
            if fault:
                faults.append(f"{kind} {number}: {fault}")
    return statuses, faults


def many(kind, program, first, count, jobs, until):
    """How many texts were tried, and how many are answered otherwise."""
    statuses, failed = collections.Counter(), 0
    todo = ((kind, program, at, min(BATCH, first + count - at)) for at in range(first, first + count, BATCH))
    context = multiprocessing.get_context("fork")
    with concurrent.futures.ProcessPoolExecutor(jobs, mp_context=context) as pool:
        running = set()
        while True:
            while len(running) < 2 * jobs and (not until or time.monotonic() < until) and (job := next(todo, None)):
                running.add(pool.submit(batch, job))
            if not running:
                break
            done, running = concurrent.futures.wait(running, return_when=concurrent.futures.FIRST_COMPLETED)
            for one in done:
                seen, faults = one.result()
                statuses += seen
                failed += len(faults)
                for fault in faults[:3]:
                    print(fault, flush=True)
    told = ", ".join(f"{count} with status {status}" for status, count in sorted(statuses.items(), key=str))
    print(f"{kind}: {sum(statuses.values())} tried ({told}), {failed} differ", flush=True)
    return failed


# ---- strange files


# Each call has a name and what comes, with the answers of which it has to be one.
USES = b"""core a(f); file p("%s"); async void f() {
    int b[3]; int r;
    r = Read(p, 0, 3, b); printf("%%d %%d %%d\\n", r, b[0], b[2]);
    r = Write(p, 1, 2, b); printf("%%d\\n", r);
}
"""
GOOD = b"core a(f); async void f() { }\n"
TRACED = b"ac-trace 1\nsteps 100000\nend 0 finished 0 -\n"
NO_LIBRARY, NO_DISK = (7, b"library fault\n"), (9, b"disk fault\n")
LONG_SOURCE, LONG_TRACE, LONG_FILE = ((10, b"limit: %s\n" % what) for what in (b"source", b"trace", b"file 0"))
ACCEPTED, YES = (0, b"accepted\n"), (0, b"yes\n")
# How often a file is read that grows.
GROWS = 30


def uses(folder, path):
    """A program that reads three bytes of a file of this path, and writes two of them behind its first byte."""
    (folder / "uses.ac").write_bytes(USES % os.fsencode(path))
    return "run", "uses.ac"


def used(read, first, last, written):
    """The answer of that program, whose steps and instructions are the same whatever its file is."""
    _, report = slow.deep(lambda: slow.both(USES % b"p", STEPS, 0, True, outside.Disk({})))
    return 0, report.split(b"\n")[0] + f"\n{read} {first} {last}\n{written}\n".encode()


def whole(program, folder, *words, stdout=subprocess.PIPE):
    done = subprocess.run([program, *words], cwd=folder, stdout=stdout, timeout=SECONDS)
    return done.returncode, done.stdout


def of_zeros(ac_in, folder):
    with open(folder / "zeros", "wb") as file:
        file.truncate(2 << 30)
    yield "2 GiB of zeros as FILE", ac_in("check", "zeros"), [LONG_SOURCE]
    yield "2 GiB of zeros as TRACE", ac_in("audit", "x.ac", "zeros"), [LONG_TRACE]
    yield "2 GiB of zeros as a file", ac_in(*uses(folder, "zeros")), [LONG_FILE]
    for size, due in ((1_048_577, LONG_SOURCE), (1_048_576, (2, b"bad byte at 0\n"))):
        os.truncate(folder / "zeros", size)
        yield f"{size} zeros as FILE", ac_in("check", "zeros"), [due]


def endless(path, stop):
    """Writes into a pipe as long as somebody reads, and is asked to."""
    def go():
        while not stop.is_set():
            with contextlib.suppress(BrokenPipeError), open(path, "wb") as to:
                while not stop.is_set():
                    to.write(b" " * 65_536)
    threading.Thread(target=go, daemon=True).start()


def of_pipes(ac_in, folder):
    os.mkfifo(folder / "pipe")
    stop = threading.Event()
    endless(folder / "pipe", stop)
    yield "an endless pipe as FILE", ac_in("check", "pipe"), [LONG_SOURCE]
    yield "an endless pipe as TRACE", ac_in("audit", "x.ac", "pipe"), [LONG_TRACE]
    stop.set()
    # The writer may still wait for a reader.
    os.close(os.open(folder / "pipe", os.O_RDONLY | os.O_NONBLOCK))
    # A pipe has no places, so that neither the read nor the write can be done.
    os.mkfifo(folder / "other")
    yield "a pipe as a file", ac_in(*uses(folder, "other")), [used(-2, 0, 0, -2)]


def of_terminals(ac_in, folder):
    ours, theirs = pty.openpty()
    tty.setraw(theirs)
    mode = termios.tcgetattr(theirs)
    mode[3] |= termios.ICANON
    termios.tcsetattr(theirs, termios.TCSANOW, mode)
    name = os.ttyname(theirs)
    # By a 4 in front of a line the text ends.
    os.write(ours, GOOD + b"\x04")
    yield "a terminal as FILE", ac_in("check", name), [ACCEPTED]
    os.write(ours, TRACED + b"\x04")
    yield "a terminal as TRACE", ac_in("audit", "x.ac", name), [YES]
    yield "a terminal as a file", ac_in(*uses(folder, name)), [used(-2, 0, 0, -2)]
    status, _ = ac_in("check", "x.ac", stdout=theirs)
    yield "a terminal as output", (status, os.read(ours, 100)), [ACCEPTED]
    os.close(ours)
    os.close(theirs)


def of_devices(ac_in, folder):
    (folder / "folder").mkdir()
    for name in ("folder", "absent", "x.ac/x", "/proc/self/mem"):
        yield f"{name} as FILE", ac_in("check", name), [NO_LIBRARY]
        yield f"{name} as TRACE", ac_in("audit", "x.ac", name), [NO_LIBRARY]
    yield "/dev/zero as FILE", ac_in("check", "/dev/zero"), [LONG_SOURCE]
    yield "/dev/zero as TRACE", ac_in("audit", "x.ac", "/dev/zero"), [LONG_TRACE]
    yield "/dev/null as FILE", ac_in("check", "/dev/null"), [checked(b"")]
    yield "/dev/null as TRACE", ac_in("audit", "x.ac", "/dev/null"), [audited(GOOD, b"")]
    for name, due in (("folder", NO_DISK), ("absent/p", NO_DISK), ("/dev/full", used(3, 0, 0, -2)), ("/dev/zero", used(3, 0, 0, 2)),
                      ("/dev/null", used(0, 0, 0, 2))):
        yield f"{name} as a file", ac_in(*uses(folder, name)), [due]


@contextlib.contextmanager
def growing(path, held, added):
    """A file that holds these bytes, and to which others are written again and again meanwhile."""
    path.write_bytes(held)
    stop = threading.Event()

    def go():
        with open(path, "ab", buffering=0) as to:
            while not stop.is_set():
                to.write(added)
    thread = threading.Thread(target=go)
    thread.start()
    try:
        yield
    finally:
        stop.set()
        thread.join()


def of_growth(ac_in, folder):
    tries = [("FILE", ("check", "g"), GOOD, b" " * 4096, [ACCEPTED, LONG_SOURCE]),
             ("TRACE", ("audit", "x.ac", "g"), TRACED[:TRACED.index(b"end")], b"1 0 0 offer 0 0 int 1\n" * 100, [LONG_TRACE]),
             ("file", uses(folder, "g"), b"AAAA", b"A" * 512, [used(3, 65, 65, 2), LONG_FILE])]
    for name, words, held, added, dues in tries:
        for number in range(GROWS):
            with growing(folder / "g", held, added):
                came = ac_in(*words)
            # A trace that is cut off has its fault in one of its lines.
            is_cut_off = name == "TRACE" and came[0] == 14 and re.fullmatch(rb"trace fault at line \d+\n", came[1])
            yield f"a growing {name}, time {number}", came, [*dues, *([came] if is_cut_off else [])]


def strange_files(program):
    """How many strange files are answered wrongly."""
    tried = failed = 0
    for kind in (of_zeros, of_pipes, of_terminals, of_devices, of_growth):
        with tempfile.TemporaryDirectory() as folder:
            folder = pathlib.Path(folder)
            run.put(folder, {"x.ac": GOOD})
            try:
                for name, came, dues in kind(functools.partial(whole, program, folder), folder):
                    tried += 1
                    if came not in dues:
                        failed += 1
                        print(f"{name}: wanted {[*dues][:2]}, came {came}", flush=True)
            except subprocess.TimeoutExpired as late:
                failed += 1
                print(f"{late.cmd[1:]}: not done after {late.timeout} seconds", flush=True)
    print(f"files: {tried} tried, {failed} differ", flush=True)
    return failed


def main():
    words = argparse.ArgumentParser(description=__doc__, formatter_class=argparse.RawDescriptionHelpFormatter)
    words.add_argument("program")
    words.add_argument("--sources", type=int, default=MANY)
    words.add_argument("--traces", type=int, default=MANY)
    words.add_argument("--first", type=int, default=0)
    words.add_argument("--seconds", type=int, default=0)
    words.add_argument("--jobs", type=int, default=os.cpu_count() or 2)
    words.add_argument("picks", nargs="*", metavar="WORD")
    words = words.parse_intermixed_args()
    program = str(pathlib.Path(words.program).resolve())

    def is_picked(name):
        return not words.picks or any(pick in name for pick in words.picks)

    def until():
        return time.monotonic() + words.seconds if words.seconds else 0

    failed = 0
    if is_picked("files"):
        failed += strange_files(program)
    if is_picked("bytes"):
        for kind in ("bytes of a source", "bytes of a trace"):
            failed += many(kind, program, 0, 256 * PLACES, words.jobs, until())
    for kind, count in (("sources", words.sources), ("traces", words.traces)):
        if is_picked(kind):
            failed += many(kind, program, words.first, count, words.jobs, until())
    print("hostile: passed" if not failed else f"hostile: {failed} failed")
    return 1 if failed else 0


if __name__ == "__main__":
    sys.exit(main())
