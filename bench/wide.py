#!/usr/bin/env python3
"""Times messages of several ints.

    python3 bench/wide.py [BASE]

The program must have been built (the README's first command). BASE is a built `ac` from before messages could have several ints. Each
time is the least of several runs, less that of an empty program. The three kinds of message are run in turn, round after round: how the
system places a run's threads changes its time by a fifth, and a machine may be slower for a while, so each kind needs many runs, spread
over the same stretch of time. These ratios are printed, each with its goal:

- 100,000 messages of one int in `ac run`, against BASE; of 16 ints, against those of one;
- what a byte of a trace of version 2 takes to be read, by an audit whose first entry does not fit, and to be written, by `ac trace` less
  `ac run`: of 100,000 lines against 50,000, both with messages of 16 ints, and of 16 ints against 2.
"""
import pathlib
import sys
import tempfile
import time

import audit

# A message makes three entries.
MESSAGES, LINES, RUNS, ROUNDS = 100_000, 33_334, 9, 75
LOOP = "for (int i = 0; i < %d; i = i + 1) %s"
SOURCE = "core a(f);\ncore b(g);\nchannel c(a, b, 64);\nasync void f() { int m%s; %s }\nasync void g() { int n%s; %s printf(\"%%d\\n\", n%s); }\n"


def source(width, count):
    """A core that sends so many messages of so many ints, and one that takes them; and their report."""
    size, first = ("", "") if width == 1 else (f"[{width}]", "[0]")
    sends = LOOP % (count, "{ m%s = i; Send(c, m); }" % first)
    takes = LOOP % (count, "Recv(c, &n);")
    # A turn of f: test, assignment, send and third part, 4 steps; of g: test, receive and third part. An element takes two instructions
    # more than an int, where it is set and where it is read; an array one fewer, where it is declared.
    turn, ends = (18, (13, 16)) if width == 1 else (20, (12, 17))
    report = f"a: finished after {4 * count + 3} steps, {turn * count + ends[0]} instructions\n"
    report += f"b: finished after {3 * count + 4} steps, {15 * count + ends[1]} instructions\n{count - 1}\n"
    return SOURCE % (size, sends, size, takes, first), report.encode()


def ran(file, width, count, program=audit.PROGRAM, runs=RUNS):
    text, report = source(width, count)
    file.write_text(text)
    return audit.best((0, report), "run", file, "--steps", str(audit.STEPS), runs=runs, program=program)


def in_rounds(folder, base):
    """What so many messages take: of one int, of 16, and of one in BASE where there is one."""
    file = folder / "x.ac"
    kinds = [(1, audit.PROGRAM), (16, audit.PROGRAM)] + ([(1, base)] if base else [])
    rounds = [[ran(file, width, MESSAGES, program, runs=1) for width, program in kinds] for _ in range(ROUNDS)]
    return [min(times) - started(file, program) for times, (_, program) in zip(zip(*rounds), kinds)]


def traced(file):
    """The least time of `ac trace`, and one of the traces, which may differ by the turns in which messages came."""
    times = []
    for _ in range(RUNS):
        begin = time.perf_counter()
        done = audit.called(audit.PROGRAM, "trace", file, "--steps", str(audit.STEPS))
        times.append(time.perf_counter() - begin)
        if done.returncode != 0 or not done.stdout.startswith(b"ac-trace 2\n"):
            sys.exit(f"the trace of {file} ended with {done.returncode} and began {done.stdout[:100]!r}")
    return min(times), done.stdout


def bytes_of(folder, width, count):
    """What a byte of the trace of so many messages takes to be read and to be written, in nanoseconds; and how many there are."""
    file, trace, empty = folder / "x.ac", folder / "x.trace", folder / "e.ac"
    alone = ran(file, width, count)
    whole, text = traced(file)
    trace.write_bytes(text)
    empty.write_text(audit.EMPTY)
    read = audit.best((13, b"no at 0\n"), "audit", empty, trace, runs=RUNS) - started(empty)
    return read / len(text) * 1e9, (whole - alone) / len(text) * 1e9, len(text)


def started(file, program=audit.PROGRAM):
    file.write_text(audit.EMPTY)
    return audit.best((0, b"a: finished after 0 steps, 2 instructions\n"), "run", file, runs=RUNS, program=program)


def main():
    base = pathlib.Path(sys.argv[1]).resolve() if len(sys.argv) > 1 else None
    with tempfile.TemporaryDirectory() as name:
        folder = pathlib.Path(name)
        one, most, *before = in_rounds(folder, base)
        half, all_lines, narrow = (bytes_of(folder, width, count) for width, count in ((16, LINES // 2), (16, LINES), (2, LINES)))
    print(f"{MESSAGES} messages of one int: {one * 1000:.1f} ms, of 16 ints: {most * 1000:.1f} ms")
    if base:
        print(f"ratio of one int to {base.name} of before, {before[0] * 1000:.1f} ms: {one / before[0]:.2f} (goal: at most 1.15)")
    print(f"ratio of 16 ints to one: {most / one:.2f} (goal: at most 3)")
    for place, what in enumerate(("read", "written")):
        few, all_, two = (times[place] for times in (half, all_lines, narrow))
        print(f"a byte {what}: {all_:.2f} ns of {all_lines[2]} bytes with messages of 16 ints, {few:.2f} ns of {half[2]} bytes")
        print(f"ratio to half as many lines: {all_ / few:.2f} (goal: at most 1.1)")
        print(f"ratio to messages of 2 ints, {two:.2f} ns of {narrow[2]} bytes: {all_ / two:.2f}")


if __name__ == "__main__":
    main()
