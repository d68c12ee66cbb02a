#!/usr/bin/env python3
"""Times the machine of `ac run` on loops, against CPython's own and Lua's on the same loops in the same run.

    python3 bench/machine.py

The program must have been built (the README's first command). Each time is the least of several
runs, less the least time of an empty program in the same language, so that the start of the
programs is off on both sides. These ratios are printed, each with its goal:

- a counting loop of as many turns as 2,000,000 steps allow, against a `while` in a function of
  CPython;
- a sieve over an array, the same one several times over, against the same statements in CPython;
- the counting loop with 2,000,000 steps against 1,000,000;
- the first loop and the sieve against Lua 5.4, where `lua5.4` is installed.
"""
import pathlib
import shutil
import subprocess
import sys
import tempfile
import time

PROGRAM = pathlib.Path(__file__).resolve().parent.parent / "crates" / "ac" / "out" / "ac"
STEPS = 2_000_000
TIMES = 36
EMPTY = "core a(f);\nasync void f() { }\n"
COUNT = "core a(f);\nasync void f() {\n    int i = 0;\n    while (i < %d) i = i + 1;\n}\n"
SIEVE = r"""core a(f);
int left[4096];
async void f() {
    int count;
    int i;
    int j;
    for (int n = 0; n < %d; n = n + 1) {
        count = 0;
        for (i = 0; i < 4096; i = i + 1) left[i] = 1;
        for (i = 2; i < 4096; i = i + 1) {
            if (left[i]) {
                count = count + 1;
                for (j = i + i; j < 4096; j = j + i) left[j] = 0;
            }
        }
    }
    printf("%%d\n", count);
}
"""
PYTHON_EMPTY = "def f():\n    pass\nf()\n"
PYTHON_COUNT = "def f():\n    i = 0\n    while i < %d:\n        i = i + 1\nf()\n"
PYTHON_SIEVE = """left = [0] * 4096
def f():
    n = 0
    while n < %d:
        count = 0
        i = 0
        while i < 4096:
            left[i] = 1
            i = i + 1
        i = 2
        while i < 4096:
            if left[i]:
                count = count + 1
                j = i + i
                while j < 4096:
                    left[j] = 0
                    j = j + i
            i = i + 1
        n = n + 1
    print(count)
f()
"""
LUA_EMPTY = "local function f() end f()\n"
LUA_COUNT = "local function f() local i = 0 while i < %d do i = i + 1 end end f()\n"
LUA_SIEVE = """local left = {}
local function f()
    local count
    local n = 0
    while n < %d do
        count = 0
        local i = 0
        while i < 4096 do
            left[i] = 1
            i = i + 1
        end
        i = 2
        while i < 4096 do
            if left[i] ~= 0 then
                count = count + 1
                local j = i + i
                while j < 4096 do
                    left[j] = 0
                    j = j + i
                end
            end
            i = i + 1
        end
        n = n + 1
    end
    print(count)
end
f()
"""


def turns(steps):
    """Of the counting loop: its declaration, two steps a turn, and its last test."""
    return (steps - 2) // 2


def primes():
    return sum(all(n % d for d in range(2, int(n**0.5) + 1)) for n in range(2, 4096))


def best(words, wanted, runs):
    """The least time of these words, each run of which has to print what is wanted."""
    times = []
    for _ in range(runs):
        begin = time.perf_counter()
        done = subprocess.run(words, capture_output=True)
        times.append(time.perf_counter() - begin)
        if done.returncode != 0 or not wanted(done.stdout.decode()):
            sys.exit(f"{words} ended with {done.returncode} and printed {done.stdout!r}")
    return min(times)


class Timer:
    """Times texts of one language, the time of an empty one taken off."""

    def __init__(self, folder, ending, words, tail, empty, runs=7):
        self.folder, self.ending, self.words, self.tail, self.runs = folder, ending, words, tail, runs
        self.start = 0
        self.start = self.time(empty, lambda out: True)

    def time(self, text, wanted):
        file = pathlib.Path(self.folder) / f"x.{self.ending}"
        file.write_text(text)
        return best([*self.words, str(file), *self.tail], wanted, self.runs) - self.start


def counted(steps):
    """Whether a report is that of the counting loop: 11 instructions a turn and 10 beside."""
    line = f"a: finished after {2 * turns(steps) + 2} steps, {11 * turns(steps) + 10} instructions\n"
    return lambda out: out == line


def main():
    count = primes()
    with tempfile.TemporaryDirectory() as folder:
        ac = Timer(folder, "ac", [str(PROGRAM), "run"], ["--steps", str(STEPS)], EMPTY)
        python = Timer(folder, "py", [sys.executable, "-S", "-E"], [], PYTHON_EMPTY)
        whole = ac.time(COUNT % turns(STEPS), counted(STEPS))
        half = ac.time(COUNT % turns(STEPS // 2), counted(STEPS // 2))
        looped = python.time(PYTHON_COUNT % turns(STEPS), lambda out: out == "")
        sieved = ac.time(SIEVE % TIMES, lambda out: out.startswith("a: finished ") and out.endswith(f"\n{count}\n"))
        sifted = python.time(PYTHON_SIEVE % TIMES, lambda out: out == f"{count}\n")
        lua = shutil.which("lua5.4")
        if lua:
            timer = Timer(folder, "lua", [lua], [], LUA_EMPTY)
            quick = timer.time(LUA_COUNT % turns(STEPS), lambda out: out == "")
            strained = timer.time(LUA_SIEVE % TIMES, lambda out: out == f"{count}\n")
    print(f"start of ac: {ac.start * 1000:.1f} ms, of CPython {python.start * 1000:.1f} ms")
    print(f"counting loop of {STEPS} steps: {whole * 1000:.1f} ms, {(11 * turns(STEPS) + 10) / whole / 1e6:.0f} million instructions a second")
    print(f"CPython's: {looped * 1000:.1f} ms")
    print(f"ratio to it: {whole / looped:.2f} (goal: at most 1.0)")
    print(f"sieve, {TIMES} times: {sieved * 1000:.1f} ms")
    print(f"CPython's: {sifted * 1000:.1f} ms")
    print(f"ratio to it: {sieved / sifted:.2f} (goal: at most 1.0)")
    print(f"counting loop of {STEPS // 2} steps: {half * 1000:.1f} ms")
    print(f"ratio of the whole to it: {whole / half:.2f} (goal: at most 2.1)")
    if lua:
        print(f"Lua's counting loop: {quick * 1000:.1f} ms")
        print(f"ratio to it: {whole / quick:.2f} (goal: at most 1.0)")
        print(f"Lua's sieve: {strained * 1000:.1f} ms")
        print(f"ratio to it: {sieved / strained:.2f} (goal: at most 1.5)")


main()
