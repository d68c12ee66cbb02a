#!/usr/bin/env python3
"""Times a cancel of many operations in `ac run`.

    python3 bench/cancel.py

The program must have been built (the README's first command). Each time is the least of several
runs, less that of an empty program. A cancel calls off 10,000 operations, and then 20,000, each of
which waits in a thread of its own. These ratios are printed, each of which is to be at most 2.3:

- receives that stand in the block itself;
- sends to a channel for 64 messages, of which no one takes any;
- receives in a called function, each in a block of its own within the block.
"""
import pathlib
import subprocess
import sys
import tempfile
import time

PROGRAM = pathlib.Path(__file__).resolve().parent.parent / "crates" / "ac" / "out" / "ac"
STEPS = 2_000_000
COUNT = 10_000
GOAL = 2.3
EMPTY = "core a(f);\ncore b(g);\nasync void f() { }\nasync void g() { }\n"
CORES = "core a(f);\ncore b(g);\nasync void g() { }\n"
RECEIVES = CORES + """channel c(b, a, 1);
async void f() {
    int x;
    t: do {
        for (int i = 0; i < %d; i = i + 1) async Recv(c, &x);
        cancel t;
    } finish;
    printf("done\\n");
}
"""
SENDS = CORES + """channel c(a, b, 64);
async void f() {
    t: do {
        for (int i = 0; i < %d; i = i + 1) async Send(c, i);
        cancel t;
    } finish;
    printf("done\\n");
}
"""
DEEPER = CORES + """channel c(b, a, 1);
async void wait() {
    int x;
    do {
        async Recv(c, &x);
    } finish;
}
async void f() {
    t: do {
        for (int i = 0; i < %d; i = i + 1) async wait();
        cancel t;
    } finish;
    printf("done\\n");
}
"""


def best(words, wanted, runs=5):
    """The least time of these words, each run of which has to print what is wanted."""
    times = []
    for _ in range(runs):
        begin = time.perf_counter()
        done = subprocess.run(words, capture_output=True)
        times.append(time.perf_counter() - begin)
        if done.returncode != 0 or done.stdout.decode() != wanted:
            sys.exit(f"{words} ended with {done.returncode} and printed {done.stdout[:400]!r}")
    return min(times)


def report(steps, instructions, output):
    """What is printed where the first core has used so much."""
    return f"a: finished after {steps} steps, {instructions} instructions\n{output}b: finished after 0 steps, 2 instructions\n"


def main():
    with tempfile.TemporaryDirectory() as folder:
        file = pathlib.Path(folder) / "x.ac"

        def timed(text, wanted):
            file.write_text(text)
            return best([str(PROGRAM), "run", str(file), "--steps", str(STEPS)], wanted)

        start = timed(EMPTY, report(0, 2, ""))
        for what, text, steps, instructions in (
            ("receives", RECEIVES, (4, 7), (18, 21)),
            ("sends", SENDS, (4, 6), (18, 18)),
            ("receives in blocks of their own", DEEPER, (9, 6), (33, 18)),
        ):
            half, whole = (
                timed(text % n, report(steps[0] * n + steps[1], instructions[0] * n + instructions[1], "done\n")) - start
                for n in (COUNT, 2 * COUNT)
            )
            print(f"a cancel of {what}: {COUNT}: {half * 1000:.1f} ms, {2 * COUNT}: {whole * 1000:.1f} ms")
            print(f"ratio: {whole / half:.2f} (goal: at most {GOAL})")


main()
