#!/usr/bin/env python3
"""Times the front of `ac` by `ac check` on sources that use every form and are accepted.

The program must have been built (the README's first command). Three ratios are printed: a source
of the greatest size against one half as large, which is to be at most 2.3; that source against
CPython's own `ast.parse` of a program of equal size; and 10,000 functions that call each other in
a chain, reached from 16 cores, against 5,000.
"""
import ast
import pathlib
import subprocess
import sys
import tempfile
import time

PROGRAM = pathlib.Path(__file__).resolve().parent.parent / "crates" / "ac" / "out" / "ac"
GREATEST = 1_048_576
HEAD = "core a(f); int g; int h[8];\n"
FILE = 'file log("x");'
READ = "Read(log, 0, 1, b);"
FUNCTION = """int p{n}(int x, int v[]) {{
  for (int i = 0; i < 8 && x != 3; i = i + 1) {{ v[i] = x * (i << 2) - ~g; if (v[i] > 5) continue; else break; }}
  while (x) {{ x = x / 2 | 1; printf("%d %c\\n", x, h[x % 8]); }}
  return -x;
}}
"""
TAIL = FILE + "\nasync void f() { int b[1]; l: do { async { yield; } cancel l; } finish; " + READ + " }\n"
PYTHON = """def p{n}(x, v):
    for i in range(0, 8):
        v[i] = x * (i << 2) - ~g
        if v[i] > 5 and x != 3: continue
        else: break
    while x:
        x = x // 2 | 1; print("%d %c\\n", x, h[x % 8])
    return -x

"""


def filled(head, part, tail, size):
    """As many parts as fit between head and tail."""
    parts, left, count = [], size - len(head) - len(tail), 0
    while True:
        text = part.format(n=count)
        if len(text) > left:
            return head + "".join(parts) + tail + " " * left
        parts.append(text)
        left -= len(text)
        count += 1


def chain(count):
    """Functions of which each calls the next, reached from sixteen cores."""
    cores = "".join(f"core {c}(f);" for c in "abcdeghijklmnopq") + FILE
    calls = "".join(f"void p{n}(){{p{n + 1}();}}\n" for n in range(count - 1))
    return cores + calls + f"void p{count - 1}(){{}}\nasync void f(){{int b[1];p0();{READ}}}\n"


def best(act, runs=5):
    times = []
    for _ in range(runs):
        begin = time.perf_counter()
        act()
        times.append(time.perf_counter() - begin)
    return min(times)


def accepted(file):
    done = subprocess.run([PROGRAM, "check", file], capture_output=True)
    if done.returncode != 0 or done.stdout != b"accepted\n":
        sys.exit(f"status {done.returncode} and {done.stdout!r}")


def timed(folder, name, text):
    """The time in which a text is read, judged and accepted."""
    file = pathlib.Path(folder) / f"{name}.ac"
    file.write_text(text)
    return best(lambda: accepted(file))


def main():
    with tempfile.TemporaryDirectory() as folder:
        half, whole = (
            timed(folder, size, filled(HEAD, FUNCTION, TAIL, size))
            for size in (GREATEST // 2, GREATEST)
        )
        few, many = (timed(folder, count, chain(count)) for count in (5_000, 10_000))
    python = filled("", PYTHON, "", GREATEST)
    parsed = best(lambda: ast.parse(python))
    print(f"{GREATEST // 2} bytes: {half * 1000:.1f} ms")
    print(f"{GREATEST} bytes: {whole * 1000:.1f} ms")
    print(f"ratio: {whole / half:.2f}")
    print(f"ast.parse of {GREATEST} bytes: {parsed * 1000:.1f} ms")
    print(f"ratio to it: {whole / parsed:.3f}")
    print(f"chain of 5,000: {few * 1000:.1f} ms")
    print(f"chain of 10,000: {many * 1000:.1f} ms")
    print(f"ratio: {many / few:.2f}")


main()
