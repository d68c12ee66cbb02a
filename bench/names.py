#!/usr/bin/env python3
"""Times `ac run` on bodies with 10,000 and with 20,000 distinct names.

The program must have been built (the README's first command). The walk over names should be linear:
the ratio that is printed is to be at most 3.
"""
import pathlib
import subprocess
import sys
import tempfile
import time

PROGRAM = pathlib.Path(__file__).resolve().parent.parent / "crates" / "ac" / "out" / "ac"
HEAD = "core a(f); async void f() {\n"
TAIL = 'printf("%d\\n", v0);\n}\n'


def source(count):
    """A body that declares so many names, and then sets each from the one after it."""
    declared = "".join(f"int v{n} = {n};\n" for n in range(count))
    set_again = "".join(f"v{n} = v{n + 1};\n" for n in range(count - 1))
    return HEAD + declared + set_again + TAIL


def best(file, count, runs=5):
    steps = 2 * count
    report = f"a: finished after {steps} steps, {3 * count + 3 * (count - 1) + 3 + 2} instructions\n1\n"
    times = []
    for _ in range(runs):
        begin = time.perf_counter()
        done = subprocess.run([PROGRAM, "run", file], capture_output=True, check=True)
        times.append(time.perf_counter() - begin)
        if done.stdout != report.encode():
            sys.exit("the report is not that of the source")
    return min(times)


def main():
    with tempfile.TemporaryDirectory() as folder:
        seen = []
        for count in (10_000, 20_000):
            file = pathlib.Path(folder) / f"{count}.ac"
            file.write_text(source(count))
            seen.append(best(file, count))
    half, whole = seen
    print(f"10,000 names: {half * 1000:.1f} ms")
    print(f"20,000 names: {whole * 1000:.1f} ms")
    print(f"ratio: {whole / half:.2f}")


main()
