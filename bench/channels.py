#!/usr/bin/env python3
"""Times messages between cores in `ac run`.

    python3 bench/channels.py

The program must have been built (the README's first command). Each time is the least of several
runs, less that of an empty program. These ratios are printed, each with its goal:

- a message that goes 20,000 times round a ring of eight cores, against 10,000 times, in the order
  in which the cores stand in the text and in the opposite order;
- 20,000 threads of one core that send at once to as many that receive, through room for 64
  messages, against 10,000.

What one message of the ring takes is printed in instructions of a counting loop that take as long.
"""
import pathlib
import subprocess
import sys
import tempfile
import time

PROGRAM = pathlib.Path(__file__).resolve().parent.parent / "crates" / "ac" / "out" / "ac"
CORES = 8
STEPS = 4_000_000 // CORES
TURNS = 200_000
EMPTY = "core a(f);\nasync void f() { }\n"
COUNT = "core a(f);\nasync void f() {\n    int i = 0;\n    while (i < %d) i = i + 1;\n}\n"
FIRST = """async void f0() {
    int x;
    for (int i = 0; i < %d; i = i + 1) { Send(to%d, x + 1); Recv(to0, &x); }
    printf("%%d\\n", x);
}
"""
OTHER = """async void f%d() {
    int x;
    for (int i = 0; i < %d; i = i + 1) { Recv(to%d, &x); Send(to%d, x + 1); }
}
"""
THREADS = """core a(f);
core b(g);
channel c(a, b, 64);
async void f() {
    do {
        for (int i = 0; i < %d; i = i + 1) async Send(c, i);
    } finish;
}
async void g() {
    int x;
    do {
        for (int i = 0; i < %d; i = i + 1) async Recv(c, &x);
    } finish;
    printf("%%d\\n", x);
}
"""


def best(words, wanted, runs=5):
    """The least time of these words, each run of which has to print what is wanted."""
    times = []
    for _ in range(runs):
        begin = time.perf_counter()
        done = subprocess.run(words, capture_output=True)
        times.append(time.perf_counter() - begin)
        if done.returncode != 0 or done.stdout.decode() != wanted:
            sys.exit(f"{words} ended with {done.returncode} and printed {done.stdout[:400]!r}")
    return min(times)


def line(name, steps, instructions):
    return f"{name}: finished after {steps} steps, {instructions} instructions\n"


def ring(rounds, step):
    """A ring in which core k sends to the one that stands so many places behind it, with its report."""
    after = [(k + step) % CORES for k in range(CORES)]
    text = "".join(f"core c{k}(f{k});\nchannel to{after[k]}(c{k}, c{after[k]}, 1);\n" for k in range(CORES))
    text += FIRST % (rounds, after[0]) + "".join(OTHER % (k, rounds, k, after[k]) for k in range(1, CORES))
    report = line("c0", 4 * rounds + 4, 21 * rounds + 16) + f"{CORES * rounds}\n"
    return text, report + "".join(line(f"c{k}", 4 * rounds + 3, 21 * rounds + 13) for k in range(1, CORES))


def threads(count):
    """So many threads that send and as many that receive, with the report; the last message is the last that is taken."""
    report = line("a", 4 * count + 4, 18 * count + 14) + line("b", 4 * count + 6, 18 * count + 20) + f"{count - 1}\n"
    return THREADS % (count, count), report


def main():
    with tempfile.TemporaryDirectory() as folder:
        file = pathlib.Path(folder) / "x.ac"

        def timed(text, report):
            file.write_text(text)
            return best([str(PROGRAM), "run", str(file), "--steps", str(STEPS)], report)

        start = timed(EMPTY, line("a", 0, 2))
        instruction = (timed(COUNT % TURNS, line("a", 2 * TURNS + 2, 11 * TURNS + 10)) - start) / (11 * TURNS)
        with_order = [timed(*ring(n, 1)) - start for n in (10_000, 20_000)]
        against = [timed(*ring(n, CORES - 1)) - start for n in (10_000, 20_000)]
        at_once = [timed(*threads(n)) - start for n in (10_000, 20_000)]
    for what, (half, whole), messages in (
        (f"a ring of {CORES} cores in their order", with_order, CORES * 20_000),
        (f"a ring of {CORES} cores against their order", against, CORES * 20_000),
        ("threads of one core that send at once", at_once, 20_000),
    ):
        print(f"{what}: {messages // 2} messages: {half * 1000:.1f} ms, {messages}: {whole * 1000:.1f} ms")
        print(f"a message: {whole / messages * 1e6:.2f} microseconds, as long as {whole / messages / instruction:.0f} instructions")
        print(f"ratio: {whole / half:.2f} (goal: at most 2.2)")


main()
