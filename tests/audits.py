#!/usr/bin/env python3
"""Traces and audits of a built `ac`, against the plain slow program of bench/slow.

    python3 tests/audits.py crates/ac/out/ac [WORD ..]

Each text of this folder that runs a program is traced: the status is that of the text, the trace is spelled as the slow program spells
it, and `ac audit` says yes. So it does of runs in orders that `ac` never makes, over disks whose calls may fail, which the slow program
has made of the texts and of random programs. Then each trace is changed in one place, several times, and `ac audit` has to answer what
the slow program does. What is changed is drawn by the name of the test alone. Words pick the tests whose name has one of them in it.
"""
import multiprocessing
import pathlib
import random
import re
import subprocess
import sys
import tempfile

import run

sys.path.insert(0, str(run.ROOT / "bench" / "slow"))
import cancels  # noqa: E402
import disk as outside  # noqa: E402
import networks  # noqa: E402
import report as slow  # noqa: E402
import tokens_and_trees as lang  # noqa: E402
import traces  # noqa: E402

# Of a run with more instructions, a program with more words of globals or a trace with more entries the slow program judges nothing.
INSTRUCTIONS, GLOBALS, ENTRIES = 100_000, 100_000, 2_000
# How often a trace with entries is changed, and one without.
CHANGES, FEW_CHANGES = 6, 2
PROGRAMS = 25
EVENTS = ("offer", "withdraw", "know", "room", "got", "pass", "did", "reply")


def ac(program, folder, *words):
    done = subprocess.run([program, *words], cwd=folder, stdout=subprocess.PIPE, timeout=run.SECONDS)
    return done.returncode, done.stdout


# ---- one place of a trace is changed


def near(r, n, least=0):
    return max(least, n + r.choice([-1, 1, 1, 2, -n]))


def other_bytes(r, held):
    """Bytes of which one is another, is gone or is new."""
    at = r.randrange(len(held) + 1)
    new = bytes([r.randrange(256)])
    return r.choice([held[:at] + new + held[at + 1:], held[:at] + held[at + 1:], held[:at] + new + held[at:]])


def other_message(r, message):
    """A message in which one int is another, is gone or is new."""
    at = r.randrange(len(message))
    other = message[:at] + [message[at] + r.choice([-1, 1])] + message[at + 1:]
    fewer = message[:at] + message[at + 1:]
    more = message[:at] + [r.choice([-1, 0, 1])] + message[at:]
    return r.choice([other] + [m for m in (fewer, more) if 1 <= len(m) <= 16])


def other_value(r, value):
    if value is None:
        return r.choice([[0], ("bytes", b""), ("count", 0)])
    if isinstance(value, list):
        return other_message(r, value)
    if len(value) == 2:
        kind, what = value
        others = [("bytes", other_bytes(r, what)), ("fault", 0)] if kind == "bytes" else [(kind, near(r, what)), ("fault", near(r, what))]
        return r.choice(others)
    kind, file, place, what = value
    length = near(r, what) if kind == "read" else other_bytes(r, what)
    turned = ("write", file, place, b"") if kind == "read" else ("read", file, place, len(what))
    return r.choice([(kind, near(r, file), place, what), (kind, file, near(r, place), what), (kind, file, place, length), turned])


def other_event(r, e):
    """The entry with another event, and with what that carries."""
    near_by = {"know": ["room"], "room": ["know"], "got": ["pass"], "pass": ["got"], "withdraw": ["know"], "did": ["pass"]}
    event = r.choice(near_by.get(e.event, []) + [r.choice(EVENTS)])
    carries = {"offer": [0], "got": [0], "did": ("count", 0), "reply": ("count", 0)}
    return e._replace(event=event, value=e.value if event == e.event else carries.get(event))


def other_entry(r, e, parties):
    kind = r.choice(["stamp", "party", "turn", "turn", "link", "number", "value", "value", "event"])
    if kind == "stamp":
        return e._replace(stamp=near(r, e.stamp, 1))
    if kind == "party":
        return e._replace(party=r.randrange(parties + 2))
    if kind == "turn":
        return e._replace(turn=near(r, e.turn))
    if kind == "link":
        return e._replace(link=near(r, e.link))
    if kind == "number":
        return e._replace(number=near(r, e.number))
    if kind == "value" and e.event in ("offer", "got", "did", "reply"):
        return e._replace(value=other_value(r, e.value))
    return other_event(r, e)


def stamped(entries):
    """The entries with the stamps that are due in this order, in the order of these."""
    found, last, seen = [], {}, {}
    for e in entries:
        answers = {"got": "offer", "did": "offer", "pass": "withdraw", "know": "taken", "room": "pass", "reply": "taken"}.get(e.event)
        stamp = 1 + max(last.get(e.party, 0), seen.get((e.link, e.number, answers), 0))
        last[e.party] = seen[e.link, e.number, "taken" if e.event in ("got", "did") else e.event] = stamp
        found.append(e._replace(stamp=stamp))
    return sorted(found, key=lambda e: (e.stamp, e.party))


def with_other_entries(r, trace):
    entries, at = list(trace.entries), r.randrange(len(trace.entries))
    kind = r.choice(["one", "one", "one", "left out", "doubled", "exchanged", "moved", "cut"])
    if kind == "one":
        entries[at] = other_entry(r, entries[at], len(trace.ends))
    elif kind == "left out":
        del entries[at]
    elif kind == "doubled":
        entries.insert(at, entries[at])
    elif kind == "exchanged":
        entries[at:at + 2] = reversed(entries[at:at + 2])
    elif kind == "moved":
        entries.insert(r.randrange(len(entries)), entries.pop(at))
    else:
        del entries[at:]
    if r.random() < 0.5:
        entries = stamped(entries)
    return trace._replace(entries=entries)


def with_other_ends(r, trace):
    ends, at = list(trace.ends), r.randrange(len(trace.ends))
    word, steps, output = ends[at]
    ends[at:at + 1] = r.choice([
        [(r.choice(traces.WORDS), steps, output)], [(word, near(r, steps), output)], [(word, steps, other_bytes(r, output))],
        [ends[at], ends[at]], [] if len(ends) > 1 else [(word, steps + 1, output)],
    ])
    return trace._replace(ends=ends)


def with_other_files(r, trace):
    start = list(trace.start)
    at = r.randrange(len(start) + 1)
    if at < len(start) and r.random() < 0.7:
        start[at] = other_bytes(r, start[at])
    else:
        start[at:at + 1] = r.choice([[b""], [b"", b""], []])
    return trace._replace(start=start)


def changed(r, trace):
    kind = r.random()
    if trace.entries and kind < 0.7:
        return with_other_entries(r, trace)
    if kind < 0.85:
        return with_other_ends(r, trace)
    if kind < 0.95 and (trace.start or r.random() < 0.3):
        return with_other_files(r, trace)
    return trace._replace(steps=near(r, trace.steps, 1))


# ---- what is compared


def audited(program, folder, text, name, source, trace, judge):
    """What differs between the answers of `ac` and those of the slow program, to this trace and to changed ones."""
    (folder / "run.trace").write_bytes(text)
    came = ac(program, folder, "audit", "--", name, "run.trace")
    yield None if came == (0, b"yes\n") else f"wanted yes, came {came}, of\n{shown(text)}"
    if not judge:
        return
    r = random.Random(str(folder.name))
    for _ in range(CHANGES if trace.entries else FEW_CHANGES):
        text = traces.written(changed(r, trace))
        (folder / "run.trace").write_bytes(text)
        status, line = slow.judged(source, text)
        came = ac(program, folder, "audit", "--", name, "run.trace")
        wanted = (status, line.encode() + b"\n")
        yield None if came == wanted else f"wanted {wanted}, came {came}, of\n{source.decode('latin-1')[:2000]}\n{shown(text)}"


def shown(text):
    return text.decode("latin-1") if len(text) <= 3000 else f"{text[:3000].decode('latin-1')}.. ({len(text)} bytes)"


def is_small(source):
    return slow.load(source)[1].slots <= GLOBALS


def traced(program, folder, test):
    """What differs of a text that runs a program."""
    name, source, output = test.name, test.source, test.output
    run.put(folder, {name: source} | test.before)
    came, text = ac(program, folder, "trace", *test.words[1:])
    statuses = {status for status, _ in test.answers} or {test.status}
    if came not in statuses:
        yield f"wanted status {statuses}, came {came}, {run.shown(text)}"
        return
    try:
        trace = traces.read(text)
    except traces.WrongLine as wrong:
        yield f"wrong at line {wrong.args[0]}: {shown(text)}"
        return
    yield None if traces.written(trace) == text else f"spelled otherwise: {shown(text)}"
    instructions = sum(map(int, re.findall(rb" after \d+ steps, (\d+) instructions$", output, re.M)))
    judge = instructions <= INSTRUCTIONS and len(trace.entries) <= ENTRIES and is_small(source)
    if judge:
        judged = slow.judged(source, text)
        yield None if judged == (0, "yes") else f"the slow program says {judged} of\n{shown(text)}"
    yield from audited(program, folder, text, name, source, trace, judge)


def ordered(program, folder, source, steps, disk):
    """What differs of a run that the slow program makes in an order of its own."""
    (folder / "x.ac").write_bytes(source)
    if not is_small(source):
        return
    try:
        _, trace = slow.trace(source, steps, random.Random(folder.name).randrange(1, 1 << 30), False, disk)
    except lang.Fault:
        return
    yield from audited(program, folder, traces.written(trace), "x.ac", source, trace, len(trace.entries) <= ENTRIES)


def lengths(program, folder):
    """What differs of the greatest text, which is no trace, and of one that is one byte longer."""
    (folder / "x.ac").write_bytes(b"core a(f); async void f() { }")
    for size, wanted in ((traces.LIMIT, (14, b"trace fault at line 1\n")), (traces.LIMIT + 1, (10, b"limit: trace\n"))):
        with open(folder / "run.trace", "wb") as file:
            file.truncate(size)
        came = ac(program, folder, "audit", "x.ac", "run.trace")
        yield None if came == wanted else f"of {size} bytes: wanted {wanted}, came {came}"


# ---- the tests


def is_run(test):
    return test.words[:1] == ["run"] and test.status in (0, 4, 5, 6)


def failing(r):
    """Which calls of a disk fail, and how many bytes of a write go in before."""
    return {r.randrange(1, 12): r.randrange(0, 9) for _ in range(r.choice([0, 0, 1, 3]))}


def cases():
    """The name of each test, and what compares it in a folder."""
    for path in sorted(run.HERE.glob("**/*.txt")):
        test = run.read(path)
        if not is_run(test):
            continue
        name = str(path.relative_to(run.HERE).with_suffix("")).replace("/", " ")
        yield name, lambda program, folder, test=test: traced(program, folder, test)
        if path.parent.name in ("channels", "cancel", "files") and test.words == ["run", "x.ac"]:
            for order in range(2):
                files = {name.encode(): held for name, held in test.before.items()}
                r = random.Random(f"{name} {order}")
                disk = outside.Disk(files, {call + len(files) * 2: taken for call, taken in failing(r).items()})
                yield f"{name} in order {order}", lambda program, folder, s=test.source, d=disk: ordered(program, folder, s, 100_000, d)
    yield "the limit of a text", lengths
    for kind in (networks, cancels):
        for seed in range(PROGRAMS):
            source, steps = kind.program(70_000 + seed)
            yield f"{kind.__name__} {seed}", lambda program, folder, s=source.encode(), n=steps: ordered(program, folder, s, n, None)


def judged(program, top, name, compare):
    """What the comparisons of a test have found."""
    folder = pathlib.Path(top) / name
    folder.mkdir()
    try:
        return slow.deep(lambda: list(compare(program, folder)))
    except subprocess.TimeoutExpired:
        return [f"not done after {run.SECONDS} seconds"]


# The program, the folder above those of the tests, and the tests: set before the processes begin that share them.
SHARED = []


def judged_by_number(number):
    program, top, tests = SHARED
    return tests[number][0], judged(program, top, *tests[number])


def all_tests(program, picks):
    passed = failed = 0
    tests = [test for test in cases() if not picks or any(pick in test[0] for pick in picks)]
    with tempfile.TemporaryDirectory() as top:
        SHARED[:] = program, top, tests
        with multiprocessing.get_context("fork").Pool() as pool:
            for name, found in pool.imap(judged_by_number, range(len(tests))):
                passed += found.count(None)
                for wrong in filter(None, found):
                    failed += 1
                    print(f"{name}\n  {wrong}", flush=True)
    print(f"{passed} passed, {failed} failed")
    return 1 if failed or not passed else 0


def main():
    if len(sys.argv) < 2:
        sys.exit(__doc__)
    program = str(pathlib.Path(sys.argv[1]).resolve())
    return all_tests(program, sys.argv[2:])


if __name__ == "__main__":
    sys.exit(main())
