#!/usr/bin/env python3
"""texts.py FOLDER [ORDERS]: the tests of a folder that run a program, each in so many orders (20 where none is given).

The report has to be the wanted one in each, or one of several right ones. Where it is not in every order, it has to be in every
order of `ac`."""
import importlib.util
import pathlib
import sys

import disk as outside
import report as oracle
import rules
import tokens_and_trees as lang

TESTS = pathlib.Path(__file__).resolve().parent.parent.parent / "tests"


def tests_of_programs():
    """The script tests/run.py as a module."""
    spec = importlib.util.spec_from_file_location("tests_run", TESTS / "run.py")
    module = importlib.util.module_from_spec(spec)
    spec.loader.exec_module(module)
    return module


def disk_of(files):
    """A disk of the files of a test."""
    return outside.Disk({name.encode(): content for name, content in files.items()})


def came(source, steps, wanted, orders, polls, before, after):
    """The first report that is none of the wanted ones, or file that is left otherwise, or None."""
    for seed in range(orders):
        disk = disk_of(before)
        try:
            rules.refusal(source, steps)
            got = oracle.both(source, steps, seed, polls, disk)
        except lang.Fault as f:
            got = f.status, f.line.encode() + b"\n"
        if got not in wanted:
            return f"in order {seed}: {got[0]}, {got[1][:600]!r}"
        for name, held in after.items():
            left = disk.files.get(name.encode())
            if left != held:
                return f"in order {seed}: in {name} is left {left!r}"
    return None


def main():
    orders = int(sys.argv[2]) if len(sys.argv) > 2 else 20
    read, bad, count = tests_of_programs().read, 0, 0
    for path in sorted(pathlib.Path(sys.argv[1]).glob("*.txt")):
        test = read(path)
        if test.program or test.words[:1] != ["run"] or "# Only real files show it." in path.read_text():
            continue
        count += 1
        steps, wanted = int(test.words[3]) if len(test.words) == 4 else 100_000, test.answers or ((test.status, test.output),)
        wrong = came(test.source, steps, wanted, orders, True, test.before, test.after)
        if wrong:
            print(f"{path.name}: wanted {wanted}\nof ac, {wrong}")
        else:
            wrong = came(test.source, steps, wanted, orders, False, test.before, test.after)
            if wrong:
                print(f"{path.name}: right in each order of ac, and not {wrong}")
            continue
        bad += 1
    print(f"{count} tests in {orders} orders, {bad} wrong")
    sys.exit(bad != 0)


if __name__ == "__main__":
    oracle.deep(main)
