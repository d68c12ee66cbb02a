#!/usr/bin/env python3
"""compare.py FIRST COUNT [--ac PATH] [--threads]: programs of the seeds FIRST, FIRST + 1, ..

The meaning of the tree against that of its code, and the code against the built program, byte for byte, where its path is given.
Each difference is printed with its program, shrunk by taking out lines."""
import collections
import os
import subprocess
import sys
import tempfile

import programs as gen
import tokens_and_trees as lang
import report as oracle
import rules


def ac(path, text, steps, folder):
    file = os.path.join(folder, "x.ac")
    with open(file, "w") as f:
        f.write(text)
    done = subprocess.run([path, "run", file, "--steps", str(steps)], capture_output=True, timeout=300)
    return done.returncode, done.stdout


def differs(text, steps, path, folder):
    """What differs, or None; lang.Fault where the program is not accepted."""
    try:
        want = oracle.both(text.encode(), steps)
    except AssertionError as e:
        return "tree and code", str(e), None
    if path:
        got = ac(path, text, steps, folder)
        if got != want:
            return "code and ac", want, got
    return None


def shrink(text, steps, path, folder, what):
    lines = text.splitlines()
    size = len(lines) // 2
    tries = 0
    while size >= 1:
        k = 0
        while k < len(lines) and tries < 600:
            part = lines[:k] + lines[k + size:]
            tries += 1
            try:
                if path:
                    rules.refusal("\n".join(part).encode(), steps)
                d = differs("\n".join(part), steps, path, folder)
            except Exception:
                d = None
            if d and d[0] == what and not (d[2] and d[2][0] in (2, 3, 10)):
                lines = part
            else:
                k += 1 if size == 1 else size
        size //= 2
    return "\n".join(lines)


def main():
    args = sys.argv[1:]
    path = None
    if "--ac" in args:
        k = args.index("--ac")
        path = args[k + 1]
        del args[k:k + 2]
    threads = "--threads" in args
    args = [a for a in args if a != "--threads"]
    first, count = int(args[0]), int(args[1])
    words, bad, forms, instr = collections.Counter(), 0, collections.Counter(), 0
    with tempfile.TemporaryDirectory() as folder:
        for seed in range(first, first + count):
            text, steps = gen.Gen(seed, threads).program()
            try:
                d = differs(text, steps, path, folder)
            except lang.Fault as f:
                print(f"seed {seed}: the generator's program is refused: {f.line}")
                print(text)
                bad += 1
                continue
            if d:
                bad += 1
                small = shrink(text, steps, path, folder, d[0])
                d = differs(small, steps, path, folder) or d
                print(f"seed {seed}, --steps {steps}: {d[0]} differ\n{small}\nwant {str(d[1])[:600]}\ngot  {str(d[2])[:600]}", flush=True)
                if bad > 10:
                    break
            else:
                status, out = oracle.run_code(text.encode(), steps)
                head = out.split(b"\n")[0].split()
                words[head[1].decode()] += 1
                instr += int(head[5])
            if (seed - first) % 500 == 499:
                print(f"{seed - first + 1} programs, {dict(words)}", flush=True)
    print(f"seeds {first} to {first + count - 1}: {count} programs, {bad} differences, {dict(words)}, {instr} instructions in all")
    sys.exit(bad != 0)


if __name__ == "__main__":
    oracle.deep(main)
