#!/usr/bin/env python3
"""Merges many messages on real threads, again and again, and looks at what is written.

    python3 bench/merge.py [TIMES]

The program must have been built (the README's first command builds `ac`; `rt run -- 3 2` in
`crates/ac_merge` builds this one). Each time it merges 10,000 messages from each of 8 producers; TIMES is 20,
and 1000 in the long form. What is wanted is worked out here: producer i sends j * 8 + i for each j below
10,000. It prints how many runs there were, how many wrote something else, and the least and the mean time of
a run; any other answer, and any time over a minute, ends it with status 1.
"""
import pathlib
import subprocess
import sys
import time

PROGRAM = pathlib.Path(__file__).resolve().parent.parent / "crates" / "ac_merge" / "out" / "ac_merge"
MESSAGES, PRODUCERS = 10_000, 8
USUAL = 20
LIMIT = 60


def wanted(messages, producers):
    """The lines of a merge of so many messages of each of so many producers."""
    lines, total = [], 0
    for producer in range(producers):
        numbers = range(producer, messages * producers, producers)
        lines.append(f"{producer}: {len(numbers)} messages, sum {sum(numbers)}\n")
        total += sum(numbers)
    return "".join(lines) + f"total {total}\n"


def merge(messages, producers):
    """What a merge writes, its status, and how long it took."""
    start = time.monotonic()
    run = subprocess.run([str(PROGRAM), str(messages), str(producers)], stdout=subprocess.PIPE, timeout=LIMIT, check=False)
    return run.stdout.decode(), run.returncode, time.monotonic() - start


def main():
    if not PROGRAM.exists():
        sys.exit(f"{PROGRAM} is not there: build it first")
    times = int(sys.argv[1]) if len(sys.argv) > 1 else USUAL
    right, spent, wrong = wanted(MESSAGES, PRODUCERS), [], 0
    for _ in range(times):
        text, status, took = merge(MESSAGES, PRODUCERS)
        spent.append(took)
        if text != right or status != 0:
            wrong += 1
            print(f"status {status}: {text!r}")
    print(f"{times} merges of {MESSAGES} messages of each of {PRODUCERS} producers, {wrong} wrong")
    print(f"least {min(spent):.3f} s, mean {sum(spent) / times:.3f} s")
    sys.exit(1 if wrong else 0)


if __name__ == "__main__":
    main()
