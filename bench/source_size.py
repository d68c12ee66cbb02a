#!/usr/bin/env python3
"""Times `ac run` on a source of the greatest size and on one half as large.

The program must have been built (the README's first command). The cost should grow linearly:
the ratio that is printed is to be near 2.
"""
import pathlib
import subprocess
import sys
import tempfile
import time

PROGRAM = pathlib.Path(__file__).resolve().parent.parent / "crates" / "ac" / "out" / "ac"
GREATEST = 1_048_576
HEAD = 'core a(f); async void f() {\n'
STATEMENT = 'printf("%d\\n", 1+2*3);\n'
TAIL = "}\n"


def source(size):
    count = (size - len(HEAD) - len(TAIL)) // len(STATEMENT)
    text = HEAD + STATEMENT * count + TAIL
    return count, text + " " * (size - len(text))


def best(file, count, runs=5):
    times = []
    for _ in range(runs):
        begin = time.perf_counter()
        done = subprocess.run([PROGRAM, "run", file], capture_output=True, check=True)
        times.append(time.perf_counter() - begin)
        head = f"a: finished after {count} steps, {7 * count + 2} instructions\n"
        if done.stdout != head.encode() + b"7\n" * count:
            sys.exit("the report is not that of the source")
    return min(times)


def main():
    with tempfile.TemporaryDirectory() as folder:
        seen = []
        for size in (GREATEST // 2, GREATEST):
            count, text = source(size)
            file = pathlib.Path(folder) / f"{size}.ac"
            file.write_text(text)
            seen.append(best(file, count))
    half, whole = seen
    print(f"{GREATEST // 2} bytes: {half * 1000:.1f} ms")
    print(f"{GREATEST} bytes: {whole * 1000:.1f} ms")
    print(f"ratio: {whole / half:.2f}")


main()
