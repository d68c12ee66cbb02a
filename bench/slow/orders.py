#!/usr/bin/env python3
"""orders.py FIRST COUNT [--cancels] [--orders N] [--ac PATH] [--cases FOLDER]: programs of several cores of the seeds FIRST, FIRST + 1, ..

They are those of networks.py, or with `--cancels` those of cancels.py.

Each is run in N orders (8 where none is given) that have to have one report, half of them orders of `ac`; and with the built
program, whose report has to be that one too, where its path is given. Each run is checked as cores.py says. What differs is
printed with its program. The programs and their reports are written into a new folder, as `rt try --cases` takes them, where one
is given."""
import collections
import pathlib
import sys
import tempfile

import cancels
import compare
import networks
import report as oracle
import rules
import texts
import tokens_and_trees as lang


def differs(text, steps, orders, path, folder):
    """The report, and what differs between the orders of a program, or None."""
    first = None
    for seed in range(orders):
        try:
            came = oracle.both(text.encode(), steps, seed, seed % 4 >= 2)
        except AssertionError as e:
            return None, f"in order {seed}: {e}"
        first = first or came
        if came != first:
            return None, f"order 0 and order {seed} differ\n{first}\n{came}"
    if path:
        came = compare.ac(path, text, steps, folder)
        if came != first:
            return None, f"ac differs\nwant {first}\ngot  {came}"
    return first, None


def count(report, seen):
    seen["status", report[0]] += 1
    for line in report[1].decode().splitlines():
        if " instructions" in line:
            seen[line.split()[1]] += 1
            seen["instructions"] += int(line.split()[5])


def main():
    args = sys.argv[1:]
    path, orders = oracle.option(args, "--ac", None), int(oracle.option(args, "--orders", 8))
    cases = oracle.option(args, "--cases", None)
    kind = networks
    if "--cancels" in args:
        args.remove("--cancels")
        kind = cancels
    first, programs = int(args[0]), int(args[1])
    bad, seen, tests = 0, collections.Counter(), []
    with tempfile.TemporaryDirectory() as folder:
        for seed in range(first, first + programs):
            text, steps = kind.program(seed)
            try:
                rules.refusal(text.encode(), steps)
                report, wrong = differs(text, steps, orders, path, folder)
            except lang.Fault as f:
                wrong = f"the generator's program is refused: {f.line}"
            if wrong:
                bad += 1
                print(f"seed {seed}, --steps {steps}: {wrong}\n{text}", flush=True)
                if bad > 5:
                    break
                continue
            count(report, seen)
            words = ["run", "x.ac", "--steps", str(steps)]
            tests.append((f"cores {seed}", (words, "x.ac", text.encode(), *report)))
    print(f"seeds {first} to {first + programs - 1}: {programs} programs in {orders} orders, {bad} differences, {dict(seen)}")
    if cases:
        texts.tests_of_programs().write_cases(pathlib.Path(cases), tests)
    sys.exit(bad != 0)


if __name__ == "__main__":
    oracle.deep(main)
