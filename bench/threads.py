#!/usr/bin/env python3
"""Times calls and threads of `ac run`.

    python3 bench/threads.py

The program must have been built (the README's first command). The programs run in rounds, each once in
a round, so that a change of the machine's speed meets all of them. Each time is the least of its runs,
less that of an empty program in the same language. These ratios are printed, each with its goal:

- Fibonacci's number of 26 by recursion, with a variable for each call, against the same functions in CPython, and in Lua 5.4, where
  `lua5.4` is installed;
- the same in one expression, `fibonacci(n - 1) + fibonacci(n - 2)`, against that form in CPython and against the one with variables;
- 250,000 times `x = 1 + g(x)`, a million steps in all, against the same with a variable for the call;
- 200,000 times a `do` with one thread in it, against 100,000 times;
- 20,000 threads alive at once, each of which yields ten times, against 10,000.
"""
import pathlib
import shutil
import subprocess
import sys
import tempfile
import time

PROGRAM = pathlib.Path(__file__).resolve().parent.parent / "crates" / "ac" / "out" / "ac"
STEPS = 2_000_000
DEPTH = 26
ROUNDS = 21
CALLED = 250_000
EMPTY = "core a(f);\nasync void f() { }\n"
RECURSION = r"""core a(f);
int fibonacci(int n) {
    if (n < 2) return n;
    int a = fibonacci(n - 1);
    int b = fibonacci(n - 2);
    return a + b;
}
async void f() {
    int r = fibonacci(%d);
    printf("%%d\n", r);
}
"""
IN_ONE = r"""core a(f);
int fibonacci(int n) {
    if (n < 2) return n;
    return fibonacci(n - 1) + fibonacci(n - 2);
}
async void f() {
    printf("%%d\n", fibonacci(%d));
}
"""
CALLS = r"""core a(f);
int g(int x) { return x + 1; }
async void f() {
    int x;
    for (int i = 0; i < %d; i = i + 1) %s
    printf("%%d\n", x);
}
"""
OPERAND, VARIABLE = "x = 1 + g(x);", "{ int y = g(x); x = 1 + y; }"
PYTHON_EMPTY = "def f():\n    pass\nf()\n"
PYTHON_RECURSION = """def fibonacci(n):
    if n < 2:
        return n
    a = fibonacci(n - 1)
    b = fibonacci(n - 2)
    return a + b
print(fibonacci(%d))
"""
PYTHON_IN_ONE = """def fibonacci(n):
    if n < 2:
        return n
    return fibonacci(n - 1) + fibonacci(n - 2)
print(fibonacci(%d))
"""
LUA_EMPTY = "local function f() end f()\n"
LUA_RECURSION = """local function fibonacci(n)
    if n < 2 then return n end
    local a = fibonacci(n - 1)
    local b = fibonacci(n - 2)
    return a + b
end
print(fibonacci(%d))
"""
BLOCKS = """core a(f);
async void f() {
    for (int i = 0; i < %d; i = i + 1) do { async ; } finish;
}
"""
YIELDS = """core a(f);
async void f() {
    do {
        for (int i = 0; i < %d; i = i + 1)
            async { yield; yield; yield; yield; yield; yield; yield; yield; yield; yield; }
    } finish;
}
"""


def run(words, wanted):
    """The time of these words, whose run has to begin with what is wanted."""
    begin = time.perf_counter()
    done = subprocess.run(words, capture_output=True)
    taken = time.perf_counter() - begin
    if done.returncode != 0 or not done.stdout.decode().startswith(wanted):
        sys.exit(f"{words} ended with {done.returncode} and printed {done.stdout[:200]!r}")
    return taken


def best(jobs):
    """The least time of each of these words, of some rounds."""
    times = [[run(words, wanted) for words, wanted in jobs] for _ in range(ROUNDS)]
    return [min(column) for column in zip(*times)]


def fibonacci(n):
    a, b = 0, 1
    for _ in range(n):
        a, b = b, a + b
    return a


def report(steps, instructions):
    return f"a: finished after {steps} steps, {instructions} instructions\n"


def recursion():
    """Steps and instructions of the recursion: calls of less than 2 take an `if` and a `return`, the others two more statements."""
    inner = fibonacci(DEPTH + 1) - 1
    leaves = inner + 1
    return report(2 + 4 * inner + 2 * leaves, 9 + inner * (5 + 6 + 6 + 5) + leaves * (5 + 3))


def in_one():
    """The same in one expression: each call takes two statements."""
    inner = fibonacci(DEPTH + 1) - 1
    leaves = inner + 1
    return report(1 + 2 * inner + 2 * leaves, 6 + inner * (5 + 11) + leaves * (5 + 3))


def calls(count, steps, instructions):
    """The loop with statements of so many steps and instructions, of which `g` has one and five."""
    return report(4 + count * (2 + steps), 16 + count * (11 + instructions)) + f"{2 * count}\n"


def blocks(count):
    return report(2 + 6 * count, 10 + 19 * count)


def yields(count):
    return report(4 + 13 * count, 14 + count * (5 + 2 + 20 + 1 + 5 + 1))


def main():
    with tempfile.TemporaryDirectory() as folder:
        jobs = []

        def add(ending, text, words, tail, wanted):
            file = pathlib.Path(folder) / f"{len(jobs)}.{ending}"
            file.write_text(text)
            jobs.append(([*words, str(file), *tail], wanted))

        def ac(text, wanted):
            add("ac", text, [str(PROGRAM), "run"], ["--steps", str(STEPS)], wanted)

        def python(text, wanted):
            add("py", text, [sys.executable, "-S", "-E"], [], wanted)

        ac(EMPTY, report(0, 2))
        python(PYTHON_EMPTY, "")
        ac(RECURSION % DEPTH, recursion())
        python(PYTHON_RECURSION % DEPTH, f"{fibonacci(DEPTH)}\n")
        ac(IN_ONE % DEPTH, in_one())
        python(PYTHON_IN_ONE % DEPTH, f"{fibonacci(DEPTH)}\n")
        ac(CALLS % (CALLED, OPERAND), calls(CALLED, 2, 6 + 5))
        ac(CALLS % (CALLED, VARIABLE), calls(CALLED, 3, 4 + 5 + 5))
        for n in (100_000, 200_000):
            ac(BLOCKS % n, blocks(n))
        for n in (10_000, 20_000):
            ac(YIELDS % n, yields(n))
        lua = shutil.which("lua5.4")
        if lua:
            add("lua", LUA_EMPTY, [lua], [], "")
            add("lua", LUA_RECURSION % DEPTH, [lua], [], f"{fibonacci(DEPTH)}\n")
        start, python_start, seen, other, one, other_one, operand, variable, half, whole, few, many, *of_lua = best(jobs)
    seen, other, one, other_one = seen - start, other - python_start, one - start, other_one - python_start
    operand, variable = operand - start, variable - start
    half, whole, few, many = half - start, whole - start, few - start, many - start
    print(f"Fibonacci's number of {DEPTH}: {seen * 1000:.1f} ms, CPython's {other * 1000:.1f} ms")
    print(f"ratio: {seen / other:.2f} (goal: at most 1.0)")
    if of_lua:
        quick = of_lua[1] - of_lua[0]
        print(f"Lua's: {quick * 1000:.1f} ms")
        print(f"ratio to it: {seen / quick:.2f} (goal: at most 1.5)")
    print(f"the same in one expression: {one * 1000:.1f} ms, CPython's {other_one * 1000:.1f} ms")
    print(f"ratio: {one / other_one:.2f} (goal: at most 1.0)")
    print(f"ratio to that with variables: {one / seen:.2f} (goal: at most 1.0)")
    print(f"{CALLED:,} times 1 + g(x): {operand * 1000:.1f} ms, with a variable: {variable * 1000:.1f} ms")
    print(f"ratio: {operand / variable:.2f} (goal: at most 1.0)")
    print(f"100,000 blocks with a thread: {half * 1000:.1f} ms, 200,000: {whole * 1000:.1f} ms")
    print(f"ratio: {whole / half:.2f} (goal: at most 2.2)")
    print(f"10,000 threads that yield ten times: {few * 1000:.1f} ms, 20,000: {many * 1000:.1f} ms")
    print(f"ratio: {many / few:.2f} (goal: at most 2.2)")


main()
