#!/usr/bin/env python3
"""Every call of the system fails once, with a built `ac`.

    python3 bench/failing_calls.py crates/ac/out/ac [--jobs N] [WORD ..]

Of each call of `ac` below, every open, read, pread, pwrite, write and statx that it makes is, one after the other, made to fail with
EIO, ENOSPC and EAGAIN; to be interrupted once and a hundred times (EINTR); to take one byte, or half of what is asked, and then
to go on; and to do so and then to fail. What comes of it is worked out here, from what the failing call was for:

- a call that was interrupted, or took less than was asked, is gone on with: the answer is the usual one;
- a failed call for FILE or TRACE is status 7, one for a file that is bound or first read is status 9, each with its line;
- a failed read or write of a run answers the program with FAULT, and what the write had taken stays in the file: the report and the
  files are those of the slow program of bench/slow over a disk that fails in that call, after so many bytes;
- a failed write of the output is status 8, with the bytes that were written before;
- the places for closed streams, and the limit of the process, may not be had.

Which call of a disk a call of the system belongs to is worked out from the requests that the slow program makes of each file, and
`ac` may make no others. Then a disk that fails for one file alone, a full disk amid `ac load 500`, threads that cannot be started, and
slow readers of the output.
Words pick the calls whose name has one of them in it; the rest are `one file`, `load`, `threads` and `output`.
"""
import collections
import concurrent.futures
import errno
import fcntl
import itertools
import os
import pathlib
import subprocess
import sys
import tempfile
import time
import typing

import made_to_fail
import refusals
from made_to_fail import ALWAYS, Rule, at

ROOT = pathlib.Path(__file__).resolve().parent.parent
sys.path[:0] = [str(ROOT / "tests"), str(ROOT / "bench" / "slow")]
import disk as outside  # noqa: E402
import killed  # noqa: E402
import report as slow  # noqa: E402
import run  # noqa: E402
import server  # noqa: E402

STEPS = 100_000
OUTPUT = 1
ERRORS = (errno.EIO, errno.ENOSPC, errno.EAGAIN)
# What an open, a read or a write asks the system for; what these calls are of a disk.
READS, WRITES = ("read", "pread"), ("write", "pwrite")


# ---- the disk of the slow program, whose calls are counted by file


class PerFile(outside.Disk):
    """`fails` has the calls that fail, as pairs of a path and the number of the call among those for that file, with how many bytes
    of a write go in before. It notes what it is asked."""

    def __init__(self, files, fails=None):
        super().__init__(files)
        self.of_file, self.counts, self.asked, self.now = fails or {}, collections.Counter(), collections.defaultdict(list), None

    def call(self):
        number = self.counts[self.now]
        self.counts[self.now] += 1
        if (self.now, number) in self.of_file:
            raise outside.Failed(self.of_file[self.now, number])

    def start(self, paths):
        for path in paths:
            self.now = path
            self.asked[path].append(("bind",))
            size = len(self.files.get(path, b""))
            for at_ in range(0, size, outside.PIECE):
                self.asked[path].append(("read", at_, min(outside.PIECE, size - at_)))
            super().start([path])

    def does(self, request):
        kind, file, place, what = request
        self.now = self.bound[file]
        self.asked[self.now].append((kind, place, what if kind == "read" else len(what)))
        return super().does(request)


def by_slow(source, files, fails=None):
    """The answer, what the files hold, and what was asked of each."""
    disk = PerFile({name.encode(): held for name, held in files.items()}, fails)

    def go():
        try:
            return slow.both(source, STEPS, 0, True, disk)
        except slow.lang.Fault as f:
            return f.status, f.line.encode() + b"\n"
    answer = slow.deep(go)
    return answer, {path.decode(): held for path, held in disk.files.items()}, disk.asked


# ---- the calls of the system that a call of a disk makes


class Strange(Exception):
    """`ac` has made a call that is for nothing that was asked."""


def belongs(calls, asked):
    """For each call for one file its place among what was asked of the file, and how many bytes were taken before."""
    calls, found = iter(calls), []

    def next_call(number, name, taken, place=None, length=None):
        while True:
            call = next(calls, None)
            if call is None:
                return None
            if call.name != name or (place is not None and (call.place, call.length) != (place, length)):
                raise Strange(f"{call.name} of {call.length} bytes at {call.place}, where {name} of {length} at {place} is due")
            found.append((call, number, taken))
            if call.error != errno.EINTR:
                return call

    for number, (kind, *what) in enumerate(asked):
        if kind == "bind":
            for name in ("open", "statx"):
                if (call := next_call(number, name, 0)) is None or call.result < 0:
                    break
            continue
        (place, length), taken = what, 0
        while taken < length:
            call = next_call(number, "pread" if kind == "read" else "pwrite", taken, place + taken, length - taken)
            if call is None or call.result <= 0:
                break
            taken += call.result
    if (call := next(calls, None)) is not None:
        raise Strange(f"{call.name} of {call.length} bytes at {call.place}, where nothing more is due")
    return found


def paths_of(calls):
    """Each call with the path of its file, or the number of a stream."""
    open_files, found = {}, []
    for call in calls:
        if call.name == "open":
            path = call.path
            if call.result >= 0:
                open_files[call.result] = path
        else:
            path = open_files.get(call.fd, call.fd)
        found.append((call, path))
    return found


# ---- the calls of `ac` that are tried


class Test(typing.NamedTuple):
    name: str
    words: list
    source: bytes
    files: dict
    texts: dict
    usual: tuple
    whole: dict
    asked: dict


READ_WRITE = run.read(ROOT / "tests" / "files" / "a_read_and_a_write_with_a_gap.txt")
FOUR = b"""core a(f); file p("p.dat"); async void f() {
    int b[8]; int i; int r;
    for (i = 0; i < 8; i = i + 1) b[i] = 65 + i;
    for (i = 0; i < 4; i = i + 1) { r = Write(p, i * 8, 8, b); printf("%d ", r); }
    r = Read(p, 3, 20, b); printf("%d\\n", r);
}
"""
FOUR = FOUR.replace(b"Read(p, 3, 20, b)", b"Read(p, 3, 8, b)")
BOTH = b"""core a(f); file p("p.dat"); file q("q.dat"); async void f() {
    int b[2]; int c[2]; int r; int s;
    do { async r = Read(p, 0, 2, b); async s = Read(q, 1, 2, c); } finish;
    printf("%d %d %d %d\\n", r, s, b[0], c[0]);
    do { async r = Write(q, 0, 2, b); async s = Write(p, 7, 2, c); } finish;
    printf("%d %d\\n", r, s);
}
"""
LARGE = b'core a(f); file p("p.dat"); async void f() { int b[256]; int r; r = Read(p, 65500, 256, b); printf("%d %d\\n", r, b[36]); }'


def test_of(name, source, files):
    usual, whole, asked = by_slow(source, files)
    return Test(name, ["run", "x.ac"], source, files, {"x.ac": source}, usual, whole, asked)


def tests():
    two = (ROOT / "examples" / "two.ac").read_bytes()
    yield test_of("two.ac", two, {})
    yield test_of("a read and a write", READ_WRITE.source, READ_WRITE.before)
    yield test_of("four writes", FOUR, {})
    yield test_of("two files", BOTH, {"p.dat": b"xyz", "q.dat": b"uvw"})
    yield test_of("a file of 65,537 bytes", LARGE, {"p.dat": bytes(i % 251 for i in range(65_537))})
    yield test_of("three cores", refusals.THREE.encode(), {})
    yield Test("check", ["check", "x.ac"], two, {}, {"x.ac": two}, (0, b"accepted\n"), {}, {})
    wrong = b"core a(f); async void f() { x = 1; }"
    yield Test("check of a wrong program", ["check", "x.ac"], wrong, {}, {"x.ac": wrong}, (3, b"rule C2 at 28\n"), {}, {})
    long = two + b" " * 9_000
    yield Test("check of a long text", ["check", "x.ac"], long, {}, {"x.ac": long}, (0, b"accepted\n"), {}, {})
    trace = slow.deep(lambda: slow.trace(refusals.THREE.encode(), STEPS, 0, True))[1]
    texts = {"x.ac": refusals.THREE.encode(), "x.trace": slow.traces.written(trace)}
    yield Test("audit", ["audit", "x.ac", "x.trace"], b"", {}, texts, (0, b"yes\n"), {}, {})


def wanted(test, calls):
    """The answer and the files that are due after these calls of the system."""
    for path in test.asked:
        own = [call for call, of in paths_of(calls) if of == path.decode()]
        for call, number, taken in belongs(own, test.asked[path]):
            if not call.changed or call.result >= 0 or call.error == errno.EINTR:
                continue
            answer, files, _ = by_slow(test.source, test.files, {(path, number): taken})
            # A file whose length is not told has been made.
            if call.name == "statx":
                files.setdefault(path.decode(), b"")
            return answer, files
    sent = 0
    for call, path in paths_of(calls):
        if path == OUTPUT and call.result > 0:
            sent += call.result
        if call.changed and call.result < 0 and call.error != errno.EINTR:
            if path in test.texts:
                return (7, b"library fault\n"), test.files
            if path == OUTPUT:
                return (8, test.usual[1][:sent]), test.whole
    return test.usual, test.whole


def tried(loaded, program, test, rules):
    """What is wrong with a run under these rules, or nothing; and the calls that it made."""
    with tempfile.TemporaryDirectory() as folder:
        folder = pathlib.Path(folder)
        run.put(folder, test.texts | test.files)
        try:
            came = loaded.run(program, test.words, folder, calls=rules)
        except subprocess.TimeoutExpired:
            return f"not done after {made_to_fail.SECONDS} seconds", []
        held = {path.name: path.read_bytes() for path in folder.iterdir() if path.name not in test.texts}
    try:
        answer, files = wanted(test, came.calls)
    except Strange as strange:
        return f"it has made a {strange}", came.calls
    if (came.status, came.output) != answer:
        return f"wanted {answer}, came {came.status}, {came.output[:300]}", came.calls
    return None if held == files else f"wanted files {str(files)[:300]}, came {str(held)[:300]}", came.calls


def ways(number, call):
    """The ways in which a call of this number is changed, with the name of each."""
    for error in ERRORS:
        yield made_to_fail.error_name(error), [at(number, error)]
    yield "EINTR", [at(number, errno.EINTR)]
    yield "EINTR 100 times", [Rule(number, number + 99, errno.EINTR)]
    if call.name in READS + WRITES and call.length > 1:
        for most in sorted({1, call.length // 2}):
            yield "short", [at(number, most=most)]
            yield "short and EIO", [at(number, most=most), at(number + 1, errno.EIO)]


def all_ways(loaded, program, test, jobs):
    """How many runs were made, by kind, and what was wrong in any of them."""
    fault, calls = tried(loaded, program, test, [])
    if fault:
        return {"usual": 1}, [f"with no call changed: {fault}"], len(calls)
    todo = [(number, call, name, rules) for number, call in enumerate(calls, 1) for name, rules in ways(number, call)]
    # All calls at once that take one byte each.
    todo.append((0, calls[0], "short", [Rule(1, ALWAYS, 0, 1)]))
    with concurrent.futures.ThreadPoolExecutor(jobs) as pool:
        faults = [*pool.map(lambda one: tried(loaded, program, test, one[3])[0], todo)]
    counts = collections.Counter(name for _, _, name, _ in todo)
    shown = [f"call {number}, {call.name} of {call.length} bytes{f' at {call.place}' if call.place >= 0 else ''}, {name}: {fault}"
             for (number, call, name, _), fault in zip(todo, faults) if fault]
    return counts, shown, len(calls)


# ---- a disk that fails for one file, and a full disk amid a load


def one_file_fault(loaded, program, name):
    """What is wrong where one of three files fails in each read and write of the run, or nothing."""
    path = f"{name}.dat"
    source = refusals.THREE.encode()
    _, _, asked = by_slow(source, {})
    fails = {(path.encode(), number): 0 for number in range(1, len(asked[path.encode()]) + 1)}
    answer, files, _ = by_slow(source, {}, fails)
    with tempfile.TemporaryDirectory() as folder:
        folder = pathlib.Path(folder)
        run.put(folder, {"x.ac": source})
        # The first two calls bind it.
        came = loaded.run(program, ["run", "x.ac"], folder, calls=[Rule(3, ALWAYS, errno.EIO)], only=path)
        held = {file.name: file.read_bytes() for file in folder.iterdir() if file.name != "x.ac"}
    return None if (came.status, came.output, held) == (*answer, files) else f"wanted {answer} and {files}, came {came[:2]} and {held}"


def one_files(loaded, program):
    for name in refusals.NAMES:
        yield f"{name}.dat fails", one_file_fault(loaded, program, name)


def may_be_read(place, written):
    """What a client may get where these places were written of the two files."""
    values = set()
    for places in written:
        values |= {server.byte(place)} if place in places else {0} if max(places, default=-1) > place else set()
    return values or {-2}


def load_fault(loaded, program, turns, rules, only=None, kind=None):
    """What is wrong with a load some of whose writes have no room, or nothing: each client gets what was written, from either file."""
    with tempfile.TemporaryDirectory() as folder:
        folder = pathlib.Path(folder)
        came = loaded.run(program, ["load", str(turns)], folder, calls=rules, only=only, kind=kind)
        held = [run.held_by(folder / name) or b"" for name in ("one.dat", "two.dat")]
    written = [{call.place for call, path in paths_of(came.calls) if path == name and call.name == "pwrite" and call.result == 1}
               for name in ("one.dat", "two.dat")]
    for bytes_, places in zip(held, written):
        if bytes_ != bytes(server.byte(place) if place in places else 0 for place in range(max(places, default=-1) + 1)):
            return f"the files hold {[len(bytes_) for bytes_ in held]} bytes, and other ones than went in"
    lines = came.output.decode().splitlines()
    if came.status != 0 or lines[:1] != [f"load {turns} status 0"] or len(lines) != 4:
        return f"status {came.status}, {came.output[:200]}"
    for client, line in enumerate(lines[1:]):
        sums = {0}
        for place in range(client, 3 * turns, 3):
            sums = {total + value for total in sums for value in may_be_read(place, written)}
            if len(sums) > 100_000:
                return "too many sums"
        if int(line) not in sums:
            return f"client {client} has {line}, of {len(sums)} sums from {min(sums)} to {max(sums)}"
    return None


def loads(loaded, program):
    for number in (500, 1500, 2999):
        yield f"load 500, full behind write {number}", load_fault(loaded, program, 500, [Rule(number + 1, ALWAYS, errno.ENOSPC)], kind="pwrite")
    for name in ("one.dat", "two.dat"):
        yield f"load 500, {name} fails", load_fault(loaded, program, 500, [Rule(3, ALWAYS, errno.EIO)], name)
    for room in (0, 1, 700, 1499):
        yield f"load 500, files of {room} bytes at most", limit_fault(program, room)


def limit_fault(program, room):
    """What is wrong with a load whose files may have so many bytes, or nothing."""
    with tempfile.TemporaryDirectory() as folder:
        folder = pathlib.Path(folder)
        done = subprocess.run([program, "load", "500"], cwd=folder, stdout=subprocess.PIPE, timeout=60, preexec_fn=killed.limited(room))
        held = [run.held_by(folder / name) or b"" for name in ("one.dat", "two.dat")]
    front = bytes(server.byte(place) for place in range(room))
    sums = [sum(server.byte(place) if place < room else -2 for place in range(client, 1500, 3)) for client in range(3)]
    summary = "".join(f"{line}\n" for line in ("load 500 status 0", *sums)).encode()
    return None if (done.returncode, done.stdout, held) == (0, summary, [front, front]) else f"status {done.returncode}, {done.stdout[:200]}"


# ---- threads


def threads_fault(loaded, program, words, files, answer, rules):
    """What is wrong with a call some of whose threads cannot be started, or nothing; and how many it started or was to start."""
    with tempfile.TemporaryDirectory() as folder:
        folder = pathlib.Path(folder)
        run.put(folder, files)
        came = loaded.run(program, words, folder, threads=rules)
    return None if (came.status, came.output) == answer else f"wanted {answer}, came {came[:2]}", came.threads


def threads(loaded, program):
    """Where a thread cannot be started the parties go on in those that there are."""
    source = refusals.THREE.encode()
    held = [server.byte(place) for place in range(21)]
    summary = "".join(f"{line}\n" for line in ("load 7 status 0", *(sum(held[client::3]) for client in range(3)))).encode()
    for name, words, files, answer in (("three cores", ["run", "x.ac"], {"x.ac": source}, by_slow(source, {})[0]),
                                       ("load 7", ["load", "7"], {}, (0, summary))):
        fault, started = threads_fault(loaded, program, words, files, answer, [])
        yield f"{name} with {started} threads", fault
        yield f"{name} with no thread", threads_fault(loaded, program, words, files, answer, [Rule(1, ALWAYS, errno.EAGAIN)])[0]
        for number in range(1, min(started or 0, 30) + 1):
            yield f"{name} without thread {number}", threads_fault(loaded, program, words, files, answer, [at(number, errno.EAGAIN)])[0]


# ---- output


def slow_reader(program, piece, pause, size):
    """What is wrong where the output goes into a pipe for `size` bytes and is taken from it in pieces, or nothing."""
    with tempfile.TemporaryDirectory() as folder:
        folder = pathlib.Path(folder)
        (folder / "x.ac").write_text(killed.TALK)
        reads, writes = os.pipe()
        fcntl.fcntl(writes, fcntl.F_SETPIPE_SZ, size)
        ran = subprocess.Popen([program, "run", "x.ac", *killed.STEPS], cwd=folder, stdout=writes)
        os.close(writes)
        taken = bytearray()
        while part := os.read(reads, piece):
            taken += part
            time.sleep(pause)
        os.close(reads)
        status = ran.wait(timeout=60)
        fault = killed.written_fault(folder)
    is_whole = killed.talk_report(bytes(taken)) and taken.count(b"0123456789\n") == killed.LINES
    return fault or (None if status == 0 and is_whole else f"status {status}, {len(taken)} bytes of the report")


def bytewise(loaded, program, number, error):
    """What is wrong where each write of the output takes one byte, and the one of this number fails, or nothing."""
    with tempfile.TemporaryDirectory() as folder:
        folder = pathlib.Path(folder)
        run.put(folder, {"x.ac": refusals.THREE.encode()})
        usual = by_slow(refusals.THREE.encode(), {})[0]
        calls = paths_of(loaded.run(program, ["run", "x.ac"], folder).calls)
        first = next((n for n, (_, path) in enumerate(calls, 1) if path == OUTPUT), len(calls) + 1)
        for name in refusals.NAMES:
            (folder / f"{name}.dat").unlink(missing_ok=True)
        rules = [at(first + number, error)] if error else []
        came = loaded.run(program, ["run", "x.ac"], folder, calls=[*rules, Rule(first, ALWAYS, 0, 1)])
    is_failed = error and error != errno.EINTR and number < len(usual[1])
    due = (8, usual[1][:number]) if is_failed else usual
    return None if (came.status, came.output) == due else f"wanted {due}, came {came.status}, {came.output[:200]}"


def outputs(loaded, program):
    yield "a slow reader of bytes", slow_reader(program, 512, 0.0005, 4096)
    yield "a slow reader of pages", slow_reader(program, 4096, 0.01, 4096)
    yield "one byte at a time", bytewise(loaded, program, 0, 0)
    for number in (0, 1, 43, 100):
        for error in (errno.EPIPE, errno.EIO, errno.EAGAIN, errno.EINTR):
            yield f"one byte at a time, the one of place {number} has {made_to_fail.error_name(error)}", bytewise(loaded, program, number, error)


def main():
    words, program = made_to_fail.read_words(__doc__)
    total, failed = 0, 0

    def is_picked(name):
        return not words.picks or any(pick in name for pick in words.picks)

    with tempfile.TemporaryDirectory() as folder:
        loaded = made_to_fail.Loaded(folder)
        for test in filter(lambda test: is_picked(test.name), tests()):
            counts, faults, calls = all_ways(loaded, program, test, words.jobs)
            for fault in faults:
                print(f"{test.name}: {fault}", flush=True)
            told = ", ".join(f"{count} {name}" for name, count in counts.items())
            print(f"{test.name}: {calls} calls of the system; {told}; {len(faults)} wrong", flush=True)
            total, failed = total + sum(counts.values()), failed + len(faults)
        kinds = (("one file", one_files), ("load", loads), ("threads", threads), ("output", outputs))
        for name, fault in itertools.chain.from_iterable(tried_of(loaded, program) for kind, tried_of in kinds if is_picked(kind)):
            print(f"{name}: {fault or 'as it is due'}", flush=True)
            failed += fault is not None
            total += 1
    print(f"failing calls: {total} runs, {failed} wrong")
    return 1 if failed or not total else 0


if __name__ == "__main__":
    sys.exit(main())
