#!/usr/bin/env python3
"""Times `ac load 500`, the file server with clients of 500 turns.

    python3 bench/load.py

The program must have been built (the README's first command). Each run is in a folder of its own, so that its two files are new,
and has to write the summary that is due. The whole time of a run is printed, the least of several, which is to be less than 2 s;
then how many of the clients' 3,000 requests are answered a second; the most memory that a run has had, which is to be at most
200 MB, and in which that of Python counts, as long as the program has not begun; and how many times as long 500 turns take as 50,
less the time of an empty program, which is to be at most 11.
"""
import os
import pathlib
import subprocess
import sys
import tempfile
import time

ROOT = pathlib.Path(__file__).resolve().parent.parent
PROGRAM = ROOT / "crates" / "ac" / "out" / "ac"
EMPTY = "core a(f);\nasync void f() { }\n"
REPORT = "a: finished after 0 steps, 2 instructions\n"
FEW, MANY = 50, 500
SECONDS, RATIO, MEGABYTES = 2, 11, 200


def summary(turns):
    """What a load writes."""
    sums = [sum((7 * j + k) % 256 for j in range(turns)) for k in range(3)]
    return "".join(f"{line}\n" for line in (f"load {turns} status 0", *sums))


def run(words):
    """The time of a call, the most memory that it has had, in MB, and what it has written."""
    with tempfile.TemporaryDirectory() as folder:
        (pathlib.Path(folder) / "x.ac").write_text(EMPTY)
        begin = time.perf_counter()
        with subprocess.Popen([str(PROGRAM), *words], cwd=folder, stdout=subprocess.PIPE, text=True) as child:
            written = child.stdout.read()
            _, status, usage = os.wait4(child.pid, 0)
            child.returncode = os.waitstatus_to_exitcode(status)
        taken = time.perf_counter() - begin
    if child.returncode != 0:
        sys.exit(f"a call ended with {child.returncode} and wrote {written[:400]!r}")
    return taken, usage.ru_maxrss / 1000, written


def best(words, wanted, runs=40):
    """The least time, and the most memory."""
    times, sizes = [], []
    for _ in range(runs):
        taken, size, written = run(words)
        if written != wanted:
            sys.exit(f"a call wrote {written!r} in place of {wanted!r}")
        times.append(taken)
        sizes.append(size)
    return min(times), max(sizes)


def main():
    start, _ = best(("run", "x.ac"), REPORT)
    few, _ = best(("load", str(FEW)), summary(FEW))
    many, size = best(("load", str(MANY)), summary(MANY))
    print(f"{MANY} turns: {many:.2f} s (goal: less than {SECONDS} s), {6 * MANY / many:,.0f} requests a second")
    print(f"memory: {size:.0f} MB (goal: at most {MEGABYTES} MB)")
    print(f"{FEW} turns: {few * 1000:.1f} ms, an empty program: {start * 1000:.1f} ms")
    print(f"ratio: {(many - start) / (few - start):.2f} (goal: at most {RATIO})")


main()
