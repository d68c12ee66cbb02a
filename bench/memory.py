#!/usr/bin/env python3
"""Weighs runs of `ac run`: the greatest resident size of each, as the kernel tells it.

    python3 bench/memory.py [PROGRAM]

The program must have been built (the README's first command), or is PROGRAM. A run is weighed when it is about to print its report: it
is given a pipe that is full, so it waits there, with all that it ever took in its books (`VmHWM`). Printed are, each with its goal:

- what many rounds take more than 1,000 of them, in KB, of which each leaves nothing that lives: blocks with a thread one after another,
  calls, threads of one block one after another, operations that are called off together, and cancels;
- what must grow, in bytes: a message of one int and of 16, and a write of one byte, with their entries in the journals, and a byte of
  output;
- what a frame, a thread and an element of an array take while they live, in bytes.
"""
import fcntl
import os
import pathlib
import subprocess
import sys
import tempfile
import time

PROGRAM = pathlib.Path(__file__).resolve().parent.parent / "crates" / "ac" / "out" / "ac"
STEPS = 2_000_000
FEW = 1_000
GOAL = 1_024
ONE = "core a(f);\n"
TWO = "core a(f);\ncore b(g);\nchannel c(b, a, 1);\nasync void g() { }\n"
EACH = "for (int i = 0; i < %d; i = i + 1) "
BLOCKS = ONE + "async void f() { int i; for (i = 0; i < %d; i = i + 1) do { async ; } finish; printf(\"%%d\\n\", i); }\n"
CALLS = ONE + "int g(int x) { return x + 1; }\nasync void f() { int x; " + EACH + "x = g(g(g(g(g(g(g(g(g(g(x)))))))))); }\n"
THREADS = ONE + "async void f() { do { " + EACH + "{ async ; yield; } } finish; }\n"
WAITS = "async Recv(c, &x); " * 10
OPERATIONS = TWO + "async void f() { int x; " + EACH + "t: do { " + WAITS + "cancel t; } finish; }\n"
CANCELS = TWO + "async void f() { int x; " + EACH + "t: do { async Recv(c, &x); cancel t; } finish; }\n"
BOUNDED = (
    ("blocks with a thread", BLOCKS, 1, 100_000),
    ("calls", CALLS, 10, 1_000_000),
    ("threads of one block", THREADS, 1, 100_000),
    ("operations called off", OPERATIONS, 10, 100_000),
    ("cancels", CANCELS, 1, 60_000),
)
LINK = "core a(f);\ncore b(g);\nchannel c(a, b, 64);\n"
INTS = LINK + "async void f() { int m; " + EACH + "Send(c, m); }\nasync void g() { int n; " + EACH + "Recv(c, &n); }\n"
ARRAYS = LINK + "async void f() { int m[16]; " + EACH + "Send(c, m); }\nasync void g() { int n[16]; " + EACH + "Recv(c, &n); }\n"
WRITES = "core a(f);\nfile d(\"d\");\nasync void f() { int x[1]; " + EACH + "Write(d, 0, 1, x); }\n"
OUTPUT = ONE + "async void f() { " + EACH + "printf(\"0123456789abcdef0123456789abcdef0123456789abcde\\n\"); }\n"
DEPTH = ONE + "int g(int n) { %s if (n) return g(n - 1); return n; }\nasync void f() { int x; x = g(%%d); }\n"
ALIVE = ONE + "async void h() { yield; }\nasync void f() { do { " + EACH + "async h(); } finish; }\n"


def is_waiting(number):
    """The processor time of a process whose threads all sleep, else None."""
    used = 0
    for task in os.listdir(f"/proc/{number}/task"):
        with open(f"/proc/{number}/task/{task}/stat") as stat:
            fields = stat.read().rsplit(")", 1)[1].split()
        if fields[0] != "S":
            return None
        used += int(fields[11]) + int(fields[12])
    return used


def weight(folder, program, text):
    """The greatest resident size of a run of the text, in KB, once all of its threads have slept for a while at a full pipe."""
    file = folder / "x.ac"
    file.write_text(text)
    reading, writing = os.pipe()
    room = fcntl.fcntl(writing, fcntl.F_SETPIPE_SZ, 4096)
    os.write(writing, b" " * room)
    run = subprocess.Popen([program, "run", "x.ac", "--steps", str(STEPS)], stdout=writing, cwd=folder)
    os.close(writing)
    seen, rounds = None, 0
    while rounds < 10:
        time.sleep(0.02)
        if run.poll() is not None:
            sys.exit(f"the run ended with {run.returncode} before it was weighed")
        now = is_waiting(run.pid)
        rounds = rounds + 1 if now is not None and now == seen else 0
        seen = now
    with open(f"/proc/{run.pid}/status") as status:
        found = next(int(line.split()[1]) for line in status if line.startswith("VmHWM:"))
    with open(reading, "rb") as rest:
        printed = rest.read()[room:]
    if run.wait() != 0 or b"out-of" in printed or b"finished" not in printed:
        sys.exit(f"{text!r} ended with {run.returncode} and printed {printed[:400]!r}")
    return found


def main():
    program = pathlib.Path(sys.argv[1]).resolve() if len(sys.argv) > 1 else PROGRAM
    with tempfile.TemporaryDirectory() as name:
        folder = pathlib.Path(name)

        def grows(text, few, many, *values):
            """What the size grows by for each of the further ones, in bytes."""
            less, more = (weight(folder, program, text % tuple(count if value is None else value for value in values)) for count in (few, many))
            return (more - less) * 1024 / (many - few)

        for what, text, turn, many in BOUNDED:
            less, more = (weight(folder, program, text % (count // turn)) for count in (FEW, many))
            print(f"{many} {what}: {more - less} KB more than {FEW} (goal: at most {GOAL}), {more} KB")
        for what, text, entries, values in (
            ("a message of one int", INTS, "three", (None, None)),
            ("a message of 16 ints", ARRAYS, "three", (None, None)),
            ("a write of one byte", WRITES, "four", (None,)),
        ):
            print(f"{what}, with {entries} entries: {grows(text, 20_000, 100_000, *values):.0f} bytes")
        print(f"a byte of output: {grows(OUTPUT, 10_000, 80_000, None) / 48:.1f} bytes")
        print(f"a frame that lives, with one slot: {grows(DEPTH % '', 20_000, 100_000, None):.0f} bytes")
        print(f"a thread that lives, with its frame: {grows(ALIVE, 20_000, 100_000, None):.0f} bytes")
        wide, narrow = (grows(DEPTH % f"int a[{size}];", 500, 1_000, None) for size in (4096, 1))
        print(f"an element of an array: {(wide - narrow) / 4095:.1f} bytes")


if __name__ == "__main__":
    main()
