#!/usr/bin/env python3
"""Times `merge` and `Legal::step` of the crate ac_history, which the program `ac` does not call.

    python3 bench/history.py

A small program, history_program.txt, is built in a temporary folder over copies of the crates that it needs, by the toolchain's
own command; what of them stands proved in this repository is taken as it is. Messages cross eight channels, and their journals
have 1,000,000 entries in all, and then twice as many: the same times are taken of the journals alone, of these merged, and of the
merged history with each entry taken by `Legal::step`. Each time is processor time, and the least of five runs. The ratios are to
be at most 2.3.
"""
import pathlib
import resource
import shutil
import subprocess
import sys
import tempfile

HERE = pathlib.Path(__file__).resolve().parent
CRATES = HERE.parent / "crates"
NAME = "history_times"
# a message makes three entries, on each of eight channels
MESSAGES = 41_667
GOAL = 2.3


def needed():
    """The lines of crates.txt of all that ac_history stands on, and of itself."""
    lines = (HERE.parent / "crates.txt").read_text().splitlines()
    below = {line.partition(":")[0].strip(): line.partition(":")[2].split() for line in lines if ":" in line}
    todo, found = ["ac_history"], []
    while todo:
        name = todo.pop()
        if name in below and name not in found:
            found.append(name)
            todo += below[name]
    return [f"{name}: {' '.join(below[name])}" for name in found]


def build(folder):
    """The program, built in this folder."""
    lines = needed()
    for line in lines:
        name = line.partition(":")[0]
        shutil.copytree(CRATES / name, folder / "crates" / name, symlinks=True)
    source = folder / "crates" / NAME / "src"
    source.mkdir(parents=True)
    shutil.copyfile(HERE / "history_program.txt", source / "main.rt")
    lines.append(f"{NAME}: ac_base ac_history")
    (folder / "crates.txt").write_text("\n".join(lines) + "\n")
    words = ["rt", "run", "--jobs", "1", "--", "make", "1"]
    done = subprocess.run(words, cwd=source.parent, capture_output=True, text=True)
    if done.returncode != 0:
        sys.exit(f"{' '.join(words)} ended with {done.returncode}\n{done.stdout[-3000:]}\n{done.stderr[-3000:]}")
    return source.parent / "out" / NAME


def used():
    """The processor time that the programs have taken which were run and have ended."""
    usage = resource.getrusage(resource.RUSAGE_CHILDREN)
    return usage.ru_utime + usage.ru_stime


def best(words, runs=5):
    """The least processor time of these words."""
    times = []
    for _ in range(runs):
        before = used()
        done = subprocess.run(words)
        times.append(used() - before)
        if done.returncode != 0:
            sys.exit(f"{words} ended with {done.returncode}")
    return min(times)


def main():
    with tempfile.TemporaryDirectory() as folder:
        program = build(pathlib.Path(folder))
        times = {part: [best([program, part, str(n)]) for n in (MESSAGES, 2 * MESSAGES)] for part in ("make", "merge", "step")}
    for part, before, what in (
        ("make", None, "journals"),
        ("merge", None, "journals, merged"),
        ("step", None, "journals, merged, each entry taken"),
        ("merge", "make", "merge alone"),
        ("step", "merge", "Legal::step alone"),
    ):
        half, whole = (a - b for a, b in zip(times[part], times.get(before, [0, 0])))
        print(f"{what}: {24 * MESSAGES} entries: {half:.2f} s, {48 * MESSAGES}: {whole:.2f} s")
        # beside other work a difference of two times may be less than nothing
        print(f"ratio: {whole / half:.2f} (goal: at most {GOAL})" if half > 0 else "ratio: not to be told")


main()
