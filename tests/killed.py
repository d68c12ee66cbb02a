#!/usr/bin/env python3
"""What a run leaves that does not come to its end, or whose disk or output fails, with a built `ac`.

    python3 tests/killed.py crates/ac/out/ac [KILLS]

Kills: each program of writes below, and `ac load 500`, is killed by SIGKILL so many times (12 where no number is given; the long form
has 500), at drawn moments of its run and at drawn lengths of its file. Then each file has to hold what writes that had begun can have
left in it, in the order of the program, all of them whole but the last; a file that the program only reads, one that it does not
name and its source have to be as they were, and nothing else may stand beside them. A report comes from a run that had ended.

Faults: a disk that is full (a small file system in memory, which is left out, and told so, where none can be mounted), and a limit
on the size of files, with the signal of that limit at its default and ignored. The write that has no room gives FAULT and what goes
in of it is the front that has room, the program goes on, and the report and the file are those worked out here; `ac trace` tells
how many bytes went in, and `ac audit` and the slow program of bench/slow say yes.

Output: nobody reads it from the beginning, or after its first bytes, it is closed, or it is a full disk: the status is 8, and the
files hold all that the program has written.

Beside `ac`: `ac_again` and `ac_merge`, the built ones of this repository, with nobody who reads, and with an output that has room for
each front of what is due; and `ac_again` with files that have room for each front of what its writes leave.

It ends with status 1 where anything is wrong.
"""
import concurrent.futures
import os
import pathlib
import random
import re
import resource
import signal
import subprocess
import sys
import tempfile
import time
import typing

import run
import server

sys.path.insert(0, str(run.ROOT / "bench" / "slow"))
import report as slow  # noqa: E402

KILLS = 12
STEPS = ("--steps", "2000000")
# The length of a block. A page of the system has no whole number of these, so that a block may be torn.
BLOCK = 250
BESIDE = {"beside.dat": b"not a file of the program\n"}


# ---- what writes can have left


def blocks(count):
    """Block k is full of the byte k."""
    return b"".join(bytes([k % 256]) * BLOCK for k in range(count))


def front_fault(name, held, whole):
    """A file into which a text goes from front to back has a front of it."""
    return None if held == whole[: len(held)] else f"{name} holds {len(held)} bytes that are no front of what is written"


def begun(held):
    return -(-len(held) // BLOCK)


def done(held):
    return len(held) // BLOCK


def fronts_fault(files, names, whole):
    return next((fault for fault in (front_fault(name, files[name], whole) for name in names) if fault), None)


# ---- the programs: each with its text, the files before, the names of the files that it writes and what is wrong with them, or nothing


class Program(typing.NamedTuple):
    name: str
    source: str
    before: dict
    written: list
    fault: typing.Callable
    whole: dict


FILL = f"for (int i = 0; i < {BLOCK}; i = i + 1) text[i] = k;"
ONE = 2_500
# One core, one block after the other.
BLOCKS = f"""core a(main);
file one("one.dat");
async void main() {{
    int text[{BLOCK}];
    for (int k = 0; k < {ONE}; k = k + 1) {{
        {FILL}
        Write(one, k * {BLOCK}, {BLOCK}, text);
    }}
}}
"""

# The same blocks, the one over the other: 16 places of the file, again and again.
PLACES = 16
PASSES = f"""core a(main);
file one("one.dat");
async void main() {{
    int text[{BLOCK}];
    for (int k = 0; k < {ONE}; k = k + 1) {{
        {FILL}
        Write(one, k % {PLACES} * {BLOCK}, {BLOCK}, text);
    }}
}}
"""


def passes_fault(files):
    """For some k the blocks before k are written, that of k from its front up to some byte, and no later one."""
    held = files["one.dat"]
    for k in range(ONE + 1):
        place = k % PLACES * BLOCK
        state = bytearray(min(k, PLACES) * BLOCK)
        for earlier in range(max(0, k - PLACES), k):
            at = earlier % PLACES * BLOCK
            state[at:at + BLOCK] = bytes([earlier % 256]) * BLOCK
        if held[:place] != state[:place] or held[place + BLOCK:] != state[place + BLOCK:]:
            continue
        front = held[place:place + BLOCK]
        new = len(front) - len(front.lstrip(bytes([k % 256])))
        if front[new:] == state[place + new:place + BLOCK] and (k < ONE or new == 0):
            return None
    return f"one.dat holds {len(held)} bytes that no writes in order have left"


def passes_whole():
    return b"".join(bytes([k % 256]) * BLOCK for k in sorted(range(ONE - PLACES, ONE), key=lambda k: k % PLACES))


# Each block goes into two files at once, and both writes are waited for.
TWO = 2_500
PAIRS = f"""core a(main);
file one("one.dat");
file two("two.dat");
async void main() {{
    int text[{BLOCK}];
    for (int k = 0; k < {TWO}; k = k + 1) {{
        {FILL}
        do {{
            async Write(one, k * {BLOCK}, {BLOCK}, text);
            async Write(two, k * {BLOCK}, {BLOCK}, text);
        }} finish;
    }}
}}
"""


def pairs_fault(files):
    one, two = files["one.dat"], files["two.dat"]
    if begun(one) > done(two) + 1 or begun(two) > done(one) + 1:
        return f"{len(one)} bytes are in one.dat and {len(two)} in two.dat, though each block is in both before the next begins"
    return fronts_fault(files, ("one.dat", "two.dat"), blocks(TWO))


# What one core has written, the other writes into its file when it has heard of it.
RELAY = f"""core a(first);
core b(second);
channel next(a, b, 1);
file one("one.dat");
file two("two.dat");
async void first() {{
    int text[{BLOCK}];
    for (int k = 0; k < {TWO}; k = k + 1) {{
        {FILL}
        Write(one, k * {BLOCK}, {BLOCK}, text);
        Send(next, k);
    }}
}}
async void second() {{
    int text[{BLOCK}];
    int k;
    while (k < {TWO - 1}) {{
        Recv(next, &k);
        {FILL}
        Write(two, k * {BLOCK}, {BLOCK}, text);
    }}
}}
"""


def relay_fault(files):
    """A block is begun in two.dat when it is whole in one.dat. The block k + 1 is begun in one.dat when k was received, and then the
    block k - 1 is whole in two.dat."""
    one, two = files["one.dat"], files["two.dat"]
    if begun(two) > done(one) or begun(one) > done(two) + 2:
        return f"{len(one)} bytes are in one.dat and {len(two)} in two.dat, against the order of the messages"
    return fronts_fault(files, ("one.dat", "two.dat"), blocks(TWO))


# Two cores, a file each.
SIDE_BY_SIDE = f"""core a(first);
core b(second);
file one("one.dat");
file two("two.dat");
async void first() {{
    int text[{BLOCK}];
    for (int k = 0; k < {TWO}; k = k + 1) {{
        {FILL}
        Write(one, k * {BLOCK}, {BLOCK}, text);
    }}
}}
async void second() {{
    int text[{BLOCK}];
    for (int k = 0; k < {TWO}; k = k + 1) {{
        {FILL}
        Write(two, k * {BLOCK}, {BLOCK}, text);
    }}
}}
"""

# Each write is called off at once, and begun again until it is done.
CALLED = 2_000
CALLED_OFF = f"""core a(main);
file one("one.dat");
async void main() {{
    int text[{BLOCK}];
    for (int k = 0; k < {CALLED}; k = k + 1) {{
        {FILL}
        int n = CANCELLED;
        int turns;
        while (n == CANCELLED) {{
            attempt: do {{
                async n = Write(one, k * {BLOCK}, {BLOCK}, text);
                if (turns < 5) cancel attempt;
            }} finish;
            turns = turns + 1;
        }}
    }}
}}
"""

# A file is copied, piece by piece, and each piece is read while the one before it is written.
COPY = (run.ROOT / "examples" / "copy.ac").read_text()
OLD = bytes((place * place + place // 256) % 256 for place in range(1_000_000))

TURNS = 500
PLACES_OF_LOAD = 3 * TURNS


def turns_of(held, client):
    """The numbers of turns of a client whose writes explain its places in a file; a place that was not written holds a 0."""
    places = range(client, PLACES_OF_LOAD, 3)
    had = [held[place] if place < len(held) else None for place in places]
    wanted = [server.byte(place) for place in places]
    most = next((turn for turn in range(TURNS) if had[turn] != wanted[turn]), TURNS)
    least = max((turn + 1 for turn in range(TURNS) if had[turn]), default=0)
    return range(least, most + 1)


def load_fault(files):
    """Each client has written its bytes one after the other, into both files before it goes on."""
    counts = {}
    for name in ("one.dat", "two.dat"):
        held = files[name]
        counts[name] = [turns_of(held, client) for client in range(3)]
        if len(held) > PLACES_OF_LOAD or not all(counts[name]):
            return f"{name} holds other bytes than the clients write, {len(held)} of them"
        client, turn = (len(held) - 1) % 3, (len(held) + 2) // 3
        if held and turn not in counts[name][client]:
            return f"{name} is {len(held)} bytes long, and no client has written at its end"
    for client, (one, two) in enumerate(zip(*counts.values())):
        if min(one) > max(two) + 1 or min(two) > max(one) + 1:
            return f"client {client} has written {one} times into one.dat and {two} times into two.dat"
    return None


def programs():
    whole = blocks(TWO)
    both = {"one.dat": whole, "two.dat": whole}
    loaded = bytes(server.byte(place) for place in range(PLACES_OF_LOAD))
    return [
        Program("blocks", BLOCKS, {}, ["one.dat"], lambda files: fronts_fault(files, ["one.dat"], blocks(ONE)), {"one.dat": blocks(ONE)}),
        Program("passes", PASSES, {}, ["one.dat"], passes_fault, {"one.dat": passes_whole()}),
        Program("pairs", PAIRS, {}, ["one.dat", "two.dat"], pairs_fault, both),
        Program("relay", RELAY, {}, ["one.dat", "two.dat"], relay_fault, both),
        Program("side by side", SIDE_BY_SIDE, {}, ["one.dat", "two.dat"], lambda files: fronts_fault(files, both, whole), both),
        Program("called off", CALLED_OFF, {}, ["one.dat"], lambda files: fronts_fault(files, ["one.dat"], blocks(CALLED)),
                {"one.dat": blocks(CALLED)}),
        Program("copy", COPY, {"old.dat": OLD}, ["new.dat"], lambda files: fronts_fault(files, ["new.dat"], OLD), {"new.dat": OLD}),
        Program("load 500", "", {}, ["one.dat", "two.dat"], load_fault, {"one.dat": loaded, "two.dat": loaded}),
    ]


# ---- kills


def words_of(program):
    return ["load", str(TURNS)] if not program.source else ["run", "x.ac", *STEPS]


def put(program, folder):
    run.put(folder, {"x.ac": program.source.encode()} | program.before | BESIDE)


def left_fault(program, folder):
    """What is wrong with what a run has left, or nothing; and whether it has come to its end."""
    files = {path.name: path.read_bytes() for path in folder.iterdir()}
    kept = {"x.ac": program.source.encode()} | program.before | BESIDE
    for name, held in kept.items():
        if files.pop(name, None) != held:
            return f"{name} is not as it was", False
    if set(files) - set(program.written):
        return f"there are other files: {sorted(files)}", False
    for name in program.written:
        files.setdefault(name, b"")
    return program.fault(files), files == program.whole


def ends_fault(program, path):
    """What is wrong with a whole run of a program, or nothing; and the seconds that it takes."""
    with tempfile.TemporaryDirectory() as folder:
        folder = pathlib.Path(folder)
        put(program, folder)
        start = time.monotonic()
        status = subprocess.run([path, *words_of(program)], cwd=folder, stdout=subprocess.DEVNULL, timeout=run.SECONDS).returncode
        seconds = time.monotonic() - start
        fault, is_whole = left_fault(program, folder)
    if status != 0 or not is_whole:
        fault = fault or f"a whole run has status {status} and other files"
    return fault, seconds


def killed(program, path, seconds, seed):
    """What is wrong after a kill, or nothing; and whether the kill came while the run was writing."""
    draw = random.Random(f"{program.name} {seed}")
    with tempfile.TemporaryDirectory() as folder:
        folder = pathlib.Path(folder)
        put(program, folder)
        with open(folder.parent / f"{folder.name}.out", "w+b") as output:
            os.unlink(output.name)
            ran = subprocess.Popen([path, *words_of(program)], cwd=folder, stdout=output)
            if seed % 2:
                time.sleep(draw.random() * seconds)
            else:
                at, file = draw.randrange(len(program.whole[program.written[0]])), folder / program.written[0]
                until = time.monotonic() + 4 * seconds + 1
                while ran.poll() is None and time.monotonic() < until and not (file.exists() and file.stat().st_size > at):
                    pass
            ran.kill()
            status = ran.wait()
            output.seek(0)
            told = output.read()
        fault, is_whole = left_fault(program, folder)
        is_begun = any((folder / name).exists() and (folder / name).stat().st_size for name in program.written)
    if fault is None and status not in (0, -signal.SIGKILL):
        fault = f"status {status}"
    if fault is None and (told or status == 0) and not is_whole:
        fault = f"it has a report, {told[:80]}, and has not written all"
    return fault, is_begun and not is_whole


def kills_failed(path, kills):
    """How many kills were followed by something wrong. The runs are killed some at a time, and each by itself."""
    failed = 0
    for program in programs():
        fault, seconds = ends_fault(program, path)
        if fault:
            print(f"{program.name}: {fault}", flush=True)
            failed += 1
            continue
        with concurrent.futures.ThreadPoolExecutor(max(1, (os.cpu_count() or 2) // 2)) as pool:
            outcomes = [*pool.map(lambda seed: killed(program, path, seconds, seed), range(kills))]
        for fault, _ in outcomes:
            if fault:
                print(f"{program.name}, killed: {fault}", flush=True)
                failed += 1
        print(f"{program.name}: {kills} kills, {sum(is_amid for _, is_amid in outcomes)} of them amid its writes", flush=True)
    return failed


# ---- faults: a write that has no room


UNTIL = f"""core a(main);
file one("one.dat");
async void main() {{
    int text[{BLOCK}];
    int k;
    int n = {BLOCK};
    while (n == {BLOCK}) {{
        {FILL}
        n = Write(one, k * {BLOCK}, {BLOCK}, text);
        if (n == {BLOCK}) k = k + 1;
    }}
    printf("%d are in, then %d\\n", k, n);
    n = Read(one, k * {BLOCK}, {BLOCK}, text);
    printf("%d bytes of the next\\n", n);
    for (int i = 0; i < {BLOCK}; i = i + 1) text[i] = 7;
    n = Write(one, 0, 100, text);
    printf("%d over the front\\n", n);
}}
"""


def until_ends(room):
    """What the program prints on a disk with so much room for its file, and what the file holds then.

    Of the block that has no room its front goes in; the write at last goes over what is there, as far as that goes."""
    whole, rest = divmod(room, BLOCK)
    front = 100 if room >= 100 else -2
    told = f"{whole} are in, then -2\n{rest} bytes of the next\n{front} over the front\n"
    held = blocks(whole + 1)[:room]
    return told.encode(), bytes([7]) * min(100, room) + held[100:]


def until_fault(room, status, report, held, entries, audit, judged):
    """What is wrong with the run, or nothing. Its trace ends in a write of which `rest` bytes went in."""
    told, wanted = until_ends(room)
    found = re.fullmatch(rb"a: finished after \d+ steps, \d+ instructions\n(.*)", report, re.S)
    if status != 0 or not found or found.group(1) != told:
        return f"status {status}, {run.shown(report)}, wanted {told}"
    if held != wanted:
        return f"the file holds {None if held is None else len(held)} bytes, and not what was told"
    faults = re.findall(rb" did \d+ \d+ fault (\d+)$", entries, re.M)
    if [int(count) for count in faults] != [room % BLOCK] + [room] * (room < 100):
        return f"the trace tells of faults {faults}"
    return None if (audit, judged) == ((0, b"yes\n"), (0, "yes")) else f"`ac audit` says {audit}, and the slow program {judged}"


def until_on(path, disk, room, **how):
    """What is wrong with a run and a trace of the program in a folder with so much room for its file, or nothing."""
    with tempfile.TemporaryDirectory() as folder:
        source, trace = pathlib.Path(folder) / "x.ac", pathlib.Path(folder) / "x.trace"
        source.write_text(UNTIL)
        come = []
        for command in ("trace", "run"):
            (disk / "one.dat").unlink(missing_ok=True)
            come.append(subprocess.run([path, command, source, *STEPS], cwd=disk, stdout=subprocess.PIPE, timeout=run.SECONDS, **how))
        held = run.held_by(disk / "one.dat")
        (disk / "one.dat").unlink(missing_ok=True)
        trace.write_bytes(come[0].stdout)
        audit = subprocess.run([path, "audit", source, trace], stdout=subprocess.PIPE, timeout=run.SECONDS)
    judged = slow.deep(lambda: slow.judged(UNTIL.encode(), come[0].stdout))
    return until_fault(room, come[1].returncode, come[1].stdout, held, come[0].stdout, (audit.returncode, audit.stdout), judged)


LIMITS = (0, 1, 99, 250, 10_000, 10_007, 65_536, 100_001)


def limited(room):
    return lambda: resource.setrlimit(resource.RLIMIT_FSIZE, (room, room))


def limits_failed(path):
    """How many limits on the size of files are answered wrongly, with the signal of the limit at its default, and ignored."""
    failed = 0
    for room in LIMITS:
        for is_default in (True, False):
            with tempfile.TemporaryDirectory() as folder:
                fault = until_on(path, pathlib.Path(folder), room, preexec_fn=limited(room), restore_signals=is_default)
            if fault:
                print(f"files of {room} bytes at most, the signal {'at its default' if is_default else 'ignored'}: {fault}", flush=True)
                failed += 1
    print(f"a limit on the size of files: {2 * len(LIMITS)} runs, {failed} failed", flush=True)
    return failed


# ---- a full disk


ROOM = 65_536
MOUNT = 'mount -t tmpfs -o size="$1",nr_inodes="$2" none "$3" && shift 3 && exec "$@"'
# So many files have place on the disk beside its folder.
PLACES_OF_FILES = 2


def namespace():
    """The words before a call that may mount, or nothing where none may."""
    for words in (["unshare", "--mount"], ["unshare", "--user", "--map-root-user", "--mount"]):
        with tempfile.TemporaryDirectory() as folder:
            call = [*words, "sh", "-c", MOUNT, "sh", "4096", "2", folder, "true"]
            try:
                if subprocess.run(call, stderr=subprocess.DEVNULL, timeout=20).returncode == 0:
                    return words
            except OSError:
                return None
    return None


def full_faults(path, disk):
    """What is wrong on this small disk."""
    yield "writes", until_on(path, disk, ROOM)
    for number in range(PLACES_OF_FILES):
        (disk / f"{number}.dat").write_bytes(b"")
    with tempfile.TemporaryDirectory() as folder:
        source = pathlib.Path(folder) / "x.ac"
        source.write_text(UNTIL)
        done = subprocess.run([path, "run", source], cwd=disk, stdout=subprocess.PIPE, timeout=run.SECONDS)
        left = sorted(file.name for file in disk.iterdir())
        wrong = (done.returncode, done.stdout) != (9, b"disk fault\n") or left != [f"{number}.dat" for number in range(PLACES_OF_FILES)]
        yield "a file that has no place", f"status {done.returncode}, {run.shown(done.stdout)}, {left}" if wrong else None
        yield "output", talk_fault(path, pathlib.Path(folder), disk / "0.dat", ROOM, 8)


def full_failed(path):
    """How many calls are answered wrongly on a full disk. This script goes on in a namespace of its own, where the disk is mounted."""
    words = namespace()
    if words is None:
        print("a full disk: left out, since no file system can be mounted here", flush=True)
        return 0
    with tempfile.TemporaryDirectory() as folder:
        mount = [*words, "sh", "-c", MOUNT, "sh", str(ROOM), str(PLACES_OF_FILES + 1), folder]
        return subprocess.run([*mount, sys.executable, __file__, path, "--full", folder], timeout=4 * run.SECONDS).returncode


def full(path, disk):
    faults = [*full_faults(path, disk)]
    for name, fault in faults:
        if fault:
            print(f"a full disk, {name}: {fault}")
    failed = sum(fault is not None for _, fault in faults)
    print(f"a full disk: {len(faults)} calls, {failed} failed", flush=True)
    return failed


# ---- output that fails


LINES = 20_000
TALK = f"""core a(main);
file one("one.dat");
async void main() {{
    int text[{BLOCK}];
    int k;
    while (k < 3) {{
        {FILL}
        Write(one, k * {BLOCK}, {BLOCK}, text);
        k = k + 1;
    }}
    for (int i = 0; i < {LINES}; i = i + 1) printf("0123456789\\n");
    {FILL}
    Write(one, k * {BLOCK}, {BLOCK}, text);
}}
"""


def talk_report(front):
    """Whether these bytes are the front of the report of the program."""
    line, feed, rest = front.partition(b"\n")
    is_line = re.fullmatch(rb"a: finished after \d+ steps, \d+ instructions", line) if feed else b"a: finished after ".startswith(line[:18])
    return bool(is_line) and rest == (b"0123456789\n" * LINES)[: len(rest)]


def talk_fault(path, folder, output, size, status, **how):
    """What is wrong with a run whose output goes into this file, which takes so many bytes, or nothing."""
    (folder / "x.ac").write_text(TALK)
    with open(output, "wb") as to:
        done = subprocess.run([path, "run", "x.ac", *STEPS], cwd=folder, stdout=to, timeout=run.SECONDS, **how)
    told = output.read_bytes()
    if done.returncode != status or len(told) != size or not talk_report(told):
        return f"status {done.returncode}, and {len(told)} bytes of the report"
    return written_fault(folder)


def written_fault(folder):
    held = run.held_by(folder / "one.dat")
    return None if held == blocks(4) else f"the file holds {held and len(held)} bytes, and not what was written"


def nobody_reads(path, folder, front):
    """What is wrong where the reader of a pipe goes after so many bytes, or nothing."""
    (folder / "x.ac").write_text(TALK)
    reads, writes = os.pipe()
    if not front:
        os.close(reads)
    ran = subprocess.Popen([path, "run", "x.ac", *STEPS], cwd=folder, stdout=writes)
    os.close(writes)
    if front:
        told = os.read(reads, front)
        os.close(reads)
        if not talk_report(told):
            return f"{told} was read"
    status = ran.wait(timeout=run.SECONDS)
    return written_fault(folder) if status == 8 else f"status {status}"


def closed(numbers):
    return lambda: [os.close(number) for number in numbers]


def streams_fault(path, folder, numbers):
    """What is wrong where these standard streams are closed, or nothing: a report may not go into a file of the program."""
    (folder / "x.ac").write_text(TALK)
    how = {"cwd": folder, "stdout": subprocess.PIPE, "timeout": run.SECONDS, "preexec_fn": closed(numbers)}
    ran, loaded = (subprocess.run([path, *words], **how) for words in (("run", "x.ac", *STEPS), ("load", "7")))
    held = bytes(server.byte(place) for place in range(21))
    if [run.held_by(folder / name) for name in ("one.dat", "two.dat")] != [held + blocks(4)[21:], held]:
        return "the files hold other bytes than were written"
    wanted = 8 if 1 in numbers else 0
    is_told = ran.stdout == b"" if wanted else talk_report(ran.stdout) and loaded.stdout.startswith(b"load 7 status 0\n")
    return None if (ran.returncode, loaded.returncode) == (wanted, wanted) and is_told else f"status {ran.returncode} and {loaded.returncode}"


def output_faults(path):
    """What is wrong with each kind of an output that fails, or nothing."""
    size = 4 * BLOCK
    kinds = [("nobody reads it", lambda folder: nobody_reads(path, folder, 0)),
             ("its reader goes", lambda folder: nobody_reads(path, folder, 10))]
    kinds += [(f"{numbers} are closed", lambda folder, numbers=numbers: streams_fault(path, folder, numbers))
              for numbers in ([1], [0, 1], [1, 2], [0, 1, 2], [0], [0, 2])]
    # Output beyond the limit ends the run by the signal, unless that is ignored.
    for is_default, status in ((True, -signal.SIGXFSZ), (False, 8)):
        kinds.append((f"its file is at its limit, {status}", lambda folder, how=(is_default, status): talk_fault(
            path, folder, folder / "report", size, how[1], preexec_fn=limited(size), restore_signals=how[0])))
    for name, fault_of in kinds:
        with tempfile.TemporaryDirectory() as folder:
            yield name, fault_of(pathlib.Path(folder))


def outputs_failed(path):
    faults = [*output_faults(path)]
    for name, fault in faults:
        if fault:
            print(f"output, {name}: {fault}", flush=True)
    failed = sum(fault is not None for _, fault in faults)
    print(f"output that fails: {len(faults)} calls, {failed} failed", flush=True)
    return failed


# ---- the programs beside `ac`


# The third of four writes failed after five bytes.
TORN = """core a(f);
file p("p.dat");
async void f() {
    int b[8];
    int i;
    int r;
    for (i = 0; i < 8; i = i + 1) b[i] = 65;
    for (i = 0; i < 4; i = i + 1) {
        r = Write(p, i * 8, 8, b);
        printf("%d ", r);
    }
}
"""
TRACE = """ac-trace 1
steps 100000
file 0 -
1 0 1 offer 0 0 write 0 0 4141414141414141
2 1 0 did 0 0 count 8
3 0 1 know 0 0
4 0 1 reply 0 0 count 8
5 0 2 offer 0 1 write 0 8 4141414141414141
6 1 0 did 0 1 count 8
7 0 2 know 0 1
8 0 2 reply 0 1 count 8
9 0 3 offer 0 2 write 0 16 4141414141414141
10 1 0 did 0 2 fault 5
11 0 3 know 0 2
12 0 3 reply 0 2 fault 5
13 0 4 offer 0 3 write 0 24 4141414141414141
14 1 0 did 0 3 count 8
15 0 4 know 0 3
16 0 4 reply 0 3 count 8
end 0 finished 47 382038202d32203820
"""
RUN_AGAIN = {"x.ac": TORN.encode(), "x.trace": TRACE.encode()}
# Steps: declarations 3; first parts 2, tests 9 and 5, assignments 8, writes 4, printf 4, third parts 8 and 4: 47. Instructions:
# declarations 2, 3 and 3; first parts 2x3, tests 14x5, assignments 8x5, writes 4x8, printf 4x3, third parts 12x5, Jump 12, end 2: 242.
AGAIN_TOLD = b"a: finished after 47 steps, 242 instructions\n8 8 -2 8 \n"
# What the writes leave, and the places between those that the third and the fourth have filled.
AGAIN_LEFT = b"A" * 21 + bytes(3) + b"A" * 8
UNFILLED = range(21, 25)
# Producer 0 sends 0, 2 and 4, producer 1 sends 1, 3 and 5.
MERGED = b"0: 3 messages, sum 6\n1: 3 messages, sum 9\ntotal 15\n"
# The program, its words, the files before, the status and the text.
BESIDES = [
    ("ac_again", ["x.ac", "x.trace"], RUN_AGAIN, 0, AGAIN_TOLD),
    ("ac_again", ["x.ac"], RUN_AGAIN, 1, b"usage: ac_again FILE TRACE\n"),
    ("ac_merge", ["3", "2"], {}, 0, MERGED),
    ("ac_merge", ["x", "2"], {}, 1, b"usage: ac_merge N W\n"),
]


def front_of_besides(name, words, before, status, text, room):
    """What is wrong where the output is a file that has room for so many bytes, or nothing."""
    with tempfile.TemporaryDirectory() as top:
        inside, output = pathlib.Path(top) / "in", pathlib.Path(top) / "output"
        inside.mkdir()
        run.put(inside, before)
        with open(output, "wb") as to:
            # The limit is on all files, and those of the program come below it or are not written.
            came = subprocess.run([run.built(name), *words], cwd=inside, stdout=to, timeout=run.SECONDS,
                                  preexec_fn=limited(room), restore_signals=False).returncode
        told = output.read_bytes()
    wanted = (status if room >= len(text) else 8), text[:room]
    return None if (came, told) == wanted else f"status {came}, {run.shown(told)}, wanted {wanted}"


def unread_besides(name, words, before):
    """What is wrong where nobody reads, or nothing."""
    with tempfile.TemporaryDirectory() as folder:
        run.put(pathlib.Path(folder), before)
        reads, writes = os.pipe()
        os.close(reads)
        came = subprocess.run([run.built(name), *words], cwd=folder, stdout=writes, timeout=run.SECONDS).returncode
        os.close(writes)
    return None if came == 8 else f"status {came}"


def written_again(room, is_default):
    """What is wrong where the files of a run that is made again have so much room, or nothing."""
    with tempfile.TemporaryDirectory() as folder:
        folder = pathlib.Path(folder)
        run.put(folder, RUN_AGAIN)
        done = subprocess.run([run.built("ac_again"), "x.ac", "x.trace"], cwd=folder, stdout=subprocess.PIPE, timeout=run.SECONDS,
                              preexec_fn=limited(room), restore_signals=is_default)
        came = done.returncode, done.stdout, run.held_by(folder / "p.dat")
    told = (0, AGAIN_TOLD) if room >= len(AGAIN_LEFT) else (9, b"disk fault\n")
    wanted = *told, AGAIN_LEFT[: UNFILLED.start if room in UNFILLED else room]
    return None if came == wanted else f"{came}, wanted {wanted}"


def besides_faults():
    """What is wrong with each call of a program beside `ac`, or nothing."""
    for name, words, before, status, text in BESIDES:
        call = " ".join([name, *words])
        yield f"{call}, nobody reads it", unread_besides(name, words, before)
        # Where it writes a file as well, the room is that of the whole file at least.
        least = len(AGAIN_LEFT) if before and status == 0 else 0
        for room in range(least, len(text) + 1):
            yield f"{call}, its output has room for {room} bytes", front_of_besides(name, words, before, status, text, room)
    for room in range(len(AGAIN_LEFT) + 1):
        for is_default in (True, False):
            yield f"ac_again, a file has room for {room} bytes", written_again(room, is_default)


def besides_failed():
    faults = [*besides_faults()]
    for name, fault in faults:
        if fault:
            print(f"{name}: {fault}", flush=True)
    failed = sum(fault is not None for _, fault in faults)
    print(f"programs beside ac: {len(faults)} calls, {failed} failed", flush=True)
    return failed


def main():
    if len(sys.argv) < 2:
        sys.exit(__doc__)
    path = str(pathlib.Path(sys.argv[1]).resolve())
    if sys.argv[2:3] == ["--full"]:
        return full(path, pathlib.Path(sys.argv[3]))
    kills = int(sys.argv[2]) if len(sys.argv) > 2 else KILLS
    failed = kills_failed(path, kills) + limits_failed(path) + full_failed(path) + outputs_failed(path)
    failed += besides_failed()
    print("killed: passed" if not failed else f"killed: {failed} failed")
    return 1 if failed else 0


if __name__ == "__main__":
    sys.exit(main())
