#!/usr/bin/env python3
"""Times `ac_order` against `ac audit` of the same trace, of 100,000 entries.

    python3 bench/order.py crates/ac_order/out/ac_order crates/ac/out/ac

Each time is the least of several runs, less that of an empty program. A call of `ac_order` reads the two files, audits the trace, makes
the vectors of all entries, and then answers. These ratios to the audit alone are printed, the last with its goal:

- the order of two entries: the first and the last of the trace, the other way round, and one and itself;
- a cut that is open at the last offer, for which two vectors are looked at for each entry that answers another; and the cut of all
  entries, for which the cores are run as well;
- 1,000 orders in one process: one call, and 2,000 of the entries that the open cut looked at, by the time that this took beside the
  order of an entry and itself. An order compares the counts of at most two vectors with those of two others.
"""
import pathlib
import sys
import tempfile

import audit

RUNS, PAIRS = 9, 1_000


def made(text):
    """How many entries each of the two cores has made, the place of the last offer, and how many entries answer another."""
    lines = [line.split(b" ") for line in text.splitlines()[2:-2]]
    offers = [place for place, line in enumerate(lines) if line[3] == b"offer"]
    return [sum(line[1] == party for line in lines) for party in (b"0", b"1")], offers[-1], len(lines) - len(offers)


def questions(own, offer):
    """Each name of what is asked for, with its words, and the status and the output that are due: each core sends or takes one message
    after the other, and the first offer is before all that comes later. The last two entries of core a are the last offer and that it
    knows of its taking."""
    last, middle = sum(own) - 1, sum(own) // 2
    ends = f"a: finished after {3 * audit.MESSAGES + 2} steps\nb: finished after {3 * audit.MESSAGES + 4} steps\n"
    return {
        "the first and the last": (("order", 0, last), 0, "before\n"), "the last and the first": (("order", last, 0), 0, "after\n"),
        "one and itself": (("order", middle, middle), 0, "same\n"), "an open cut": (("cut", f"{own[0] - 2},{own[1]},0"), 17, f"open at {offer}\n"),
        "the cut of all": (("cut", f"{own[0]},{own[1]},0"), 0, ends),
    }


def main():
    if len(sys.argv) != 3:
        sys.exit(__doc__)
    order, ac = (pathlib.Path(path).resolve() for path in sys.argv[1:])
    with tempfile.TemporaryDirectory() as name:
        file, trace = pathlib.Path(name) / "x.ac", pathlib.Path(name) / "x.trace"

        def audited():
            return audit.best((0, b"yes\n"), "audit", file, trace, runs=RUNS, program=ac)

        def asked(words, status, output):
            command, *numbers = words
            return audit.best((status, output.encode()), command, file, trace, *map(str, numbers), runs=RUNS, program=order)

        file.write_text(audit.EMPTY)
        trace.write_text(audit.EMPTY_TRACE)
        start = asked(("cut", "0,0"), 0, "a: finished after 0 steps\n")
        alone = -audited()
        file.write_text(audit.SOURCE % (audit.MESSAGES, audit.MESSAGES))
        text = audit.traced(file, ac)
        trace.write_bytes(text)
        own, offer, answers = made(text)
        alone += audited()
        times = {name: asked(*question) - start for name, question in questions(own, offer).items()}
    print(f"audit of {sum(own)} entries: {alone * 1000:.1f} ms")
    for name, time in times.items():
        print(f"{name}: {time * 1000:.1f} ms, ratio {time / alone:.2f}")
    one = max(times["the first and the last"], times["the last and the first"])
    more = max(0, times["an open cut"] - times["one and itself"]) * 2 * PAIRS / answers
    print(f"{PAIRS} orders: {(one + more) * 1000:.1f} ms, ratio {(one + more) / alone:.2f} (goal: at most 2)")


if __name__ == "__main__":
    main()
