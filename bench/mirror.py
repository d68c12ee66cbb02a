#!/usr/bin/env python3
"""Times `load 500`, the file server with clients of 500 turns, over one device and over two.

    python3 bench/mirror.py [RUNS]

Both programs must have been built (the README's first command builds `ac`; `rt run -- one/ other/ load 1` in
`crates/ac_mirror` builds the other). Each run is in a folder of its own, by turns `ac load 500` and `ac_mirror
one/ other/ load 500`; it has to write the summary that is due, and both sides of a mirror have to hold the same
files as the one device. The least time of each is printed, of RUNS runs, which is 20, and their ratio, which is
to be at most 2.2.
"""
import pathlib
import subprocess
import sys
import tempfile
import time

CRATES = pathlib.Path(__file__).resolve().parent.parent / "crates"
ONE, TWO = CRATES / "ac" / "out" / "ac", CRATES / "ac_mirror" / "out" / "ac_mirror"
TURNS, RATIO, USUAL = 500, 2.2, 20
SIDES = ("one", "other")


def summary(turns):
    """What a load writes."""
    sums = [sum((7 * j + k) % 256 for j in range(turns)) for k in range(3)]
    return "".join(f"{line}\n" for line in (f"load {turns} status 0", *sums))


def files(folder):
    return {path.name: path.read_bytes() for path in folder.iterdir() if path.is_file()}


def run(words):
    """The time of a call, and the files of each side that it has left."""
    with tempfile.TemporaryDirectory() as name:
        folder = pathlib.Path(name)
        for side in SIDES:
            (folder / side).mkdir()
        begin = time.perf_counter()
        done = subprocess.run([str(word) for word in words], cwd=folder, stdout=subprocess.PIPE, text=True)
        taken = time.perf_counter() - begin
        if (done.returncode, done.stdout) != (0, summary(TURNS)):
            sys.exit(f"a call ended with {done.returncode} and wrote {done.stdout[:400]!r}")
        return taken, files(folder), [files(folder / side) for side in SIDES]


def main():
    for program in (ONE, TWO):
        if not program.exists():
            sys.exit(f"{program} is not there: build it first")
    runs, one, two = int(sys.argv[1]) if len(sys.argv) > 1 else USUAL, [], []
    for _ in range(runs):
        taken, held, _ = run((ONE, "load", TURNS))
        one.append(taken)
        taken, none, sides = run((TWO, *(f"{side}/" for side in SIDES), "load", TURNS))
        two.append(taken)
        if none or not held or sides != [held, held]:
            sys.exit("the files of the two sides are not those of one device")
    ratio = min(two) / min(one)
    print(f"load {TURNS}: one device {min(one):.3f} s, two {min(two):.3f} s, ratio {ratio:.2f}")
    sys.exit(0 if ratio <= RATIO else 1)


if __name__ == "__main__":
    main()
