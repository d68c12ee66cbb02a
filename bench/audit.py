#!/usr/bin/env python3
"""Times `ac audit`, and the reading of a trace.

    python3 bench/audit.py

The program must have been built (the README's first command). Each time is the least of several runs, less that of an empty
program. These ratios are printed, the first two with their goals:

- the audit of a trace of 100,000 entries, against the run that made it;
- that audit, against the audit of half as many;
- the reading of a trace of 100 MB, by an audit whose first entry does not fit, against `wc -l` of the same file.
"""
import pathlib
import subprocess
import sys
import tempfile
import time

PROGRAM = pathlib.Path(__file__).resolve().parent.parent / "crates" / "ac" / "out" / "ac"
STEPS = 2_000_000
# a message makes three entries
MESSAGES = 33_334
BYTES = 100_000_000
EMPTY = "core a(f);\nasync void f() { }\n"
EMPTY_TRACE = "ac-trace 1\nsteps 1\nend 0 finished 0 -\n"
SOURCE = """core a(f);
core b(g);
channel c(a, b, 1);
async void f() {
    for (int i = 0; i < %d; i = i + 1) Send(c, i);
}
async void g() {
    int x;
    for (int i = 0; i < %d; i = i + 1) Recv(c, &x);
    printf("%%d\\n", x);
}
"""


def called(program, *words):
    return subprocess.run([program, *words], capture_output=True)


def best(wanted, *words, runs=5, program=PROGRAM):
    """The least time of these words, each run of which has this status and prints what is wanted."""
    times = []
    for _ in range(runs):
        begin = time.perf_counter()
        done = called(program, *words)
        times.append(time.perf_counter() - begin)
        if (done.returncode, done.stdout) != wanted:
            sys.exit(f"{words} ended with {done.returncode} and printed {done.stdout[:400]!r}")
    return min(times)


def counted(path, runs=5):
    """The least time of `wc -l`."""
    times = []
    for _ in range(runs):
        begin = time.perf_counter()
        subprocess.run(["wc", "-l", path], stdout=subprocess.DEVNULL, check=True)
        times.append(time.perf_counter() - begin)
    return min(times)


def report(messages):
    """What a run of so many messages prints. A turn of f: test, send and third part, 3 steps; so for g."""
    return (
        f"a: finished after {3 * messages + 2} steps, {15 * messages + 10} instructions\n"
        f"b: finished after {3 * messages + 4} steps, {15 * messages + 16} instructions\n{messages - 1}\n"
    ).encode()


def long_trace():
    """A trace of 100 MB, of which no entry is one of the empty program."""
    lines, size, number = ["ac-trace 1\nsteps 1\n"], 0, 0
    while size < BYTES:
        line = f"{3 * number + 1} 0 {number} offer 0 {number} int {number * 7919}\n{3 * number + 2} 1 {number} got 0 {number} {number * 7919}\n"
        lines.append(line)
        size += len(line)
        number += 1
    return "".join(lines) + "end 0 finished 0 -\n"


def traced(file, program=PROGRAM):
    return called(program, "trace", file, "--steps", str(STEPS)).stdout


def times_of(folder, messages):
    """The times of a run of so many messages and of the audit of its trace, and the number of its entries."""
    file, trace = folder / "x.ac", folder / "x.trace"
    file.write_text(SOURCE % (messages, messages))
    ran = best((0, report(messages)), "run", file, "--steps", str(STEPS))
    text = traced(file)
    trace.write_bytes(text)
    return ran, best((0, b"yes\n"), "audit", file, trace), text.count(b"\n") - 4


def main():
    with tempfile.TemporaryDirectory() as name:
        folder = pathlib.Path(name)
        file, trace = folder / "e.ac", folder / "e.trace"
        file.write_text(EMPTY)
        trace.write_text(EMPTY_TRACE)
        start = best((0, b"yes\n"), "audit", file, trace)
        _, half, few = times_of(folder, MESSAGES // 2)
        ran, whole, many = times_of(folder, MESSAGES)
        trace.write_text(long_trace())
        read = best((13, b"no at 0\n"), "audit", file, trace) - start
        lines = counted(trace)
    ran, half, whole = ran - start, half - start, whole - start
    print(f"audit of {few} entries: {half * 1000:.1f} ms, of {many}: {whole * 1000:.1f} ms; the run of {many}: {ran * 1000:.1f} ms")
    print(f"ratio to the run: {whole / ran:.2f} (goal: at most 3)")
    print(f"ratio to half as many: {whole / half:.2f} (goal: at most 2.2)")
    print(f"reading of {BYTES // 1_000_000} MB: {read * 1000:.0f} ms; wc -l: {lines * 1000:.0f} ms")
    print(f"ratio: {read / lines:.1f}")


if __name__ == "__main__":
    main()
