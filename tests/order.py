#!/usr/bin/env python3
"""What a built `ac_order` tells of small runs, against the definitions, which are tried the slow way.

    python3 tests/order.py crates/ac_order/out/ac_order crates/ac/out/ac

Of 300 traces of random programs, every second one of which `ac trace` has made, and the others in an order that `ac` never makes, over
disks whose calls may fail, these are asked for:

- how one entry stands to another: all pairs of a trace with at most 12 entries, and as many drawn ones of a longer one. One was before
  the other where a way leads from it to that, by steps to a later entry of the same party or to one that answers it;
- cuts: all of a trace where there are at most 24, and else 24 drawn ones, of which every second has with each entry what was before it.
  The least entry outside that one inside answers is looked for among all pairs; and of a closed cut, the tree of each core of bench/slow
  is run under its entries inside;
- numbers of no entry, and counts that are no cut.

What is asked for is drawn by the number of the trace alone. It ends with status 1 where anything is wrong, or was never seen.
"""
import itertools
import math
import pathlib
import sys
import tempfile

import audits
import diagram
import trials

import cores
import source

TRACES, LEAST, MOST = 300, 4, 60
PAIRS, CUTS = 144, 24
# The bounds on steps of the runs: most are to be short.
BOUNDS = (12, 16, 24, 40, 100)
CORES = (2, 2, 3, 4)
ORDERS = ("same", "before", "after", "concurrent")
DUE = ORDERS + ("no entry", "closed", "open at", "no such cut", "finished", "stalled", "out-of-steps")


def order_of(known, one, other):
    """How one entry stands to another, of which `known` has the pairs with a way from the first to the second."""
    if one == other:
        return "same"
    return "before" if (one, other) in known else "after" if (other, one) in known else "concurrent"


def states(run, counts):
    """For each core how it ends under its first so many entries, by its tree."""
    for item in run.names.cores:
        core = source.TreeCore(run.names, item, run.trace.steps)
        assert cores.replay(core, trials.journal(run.trace, item.number)[:counts[item.number]]) is None
        word, steps = core.end()[:2]
        yield item.name, word, steps


def pairs(r, count):
    every = list(itertools.product(range(count), repeat=2))
    return every if len(every) <= PAIRS else r.sample(every, PAIRS)


def made(run):
    """How many entries each party has made."""
    return [len(trials.journal(run.trace, party)) for party in range(len(run.names.cores) + 1)]


def past(r, run, known):
    """The counts of some entries and of all that were before one of them: this is a closed cut."""
    every = range(len(run.trace.entries))
    some = r.sample(every, r.randrange(min(5, len(every) + 1)))
    inside = [run.trace.entries[i].party for i in every if any((i, j) in known for j in some)]
    return [inside.count(party) for party in range(len(run.names.cores) + 1)]


def cuts(r, run, known):
    most = made(run)
    if math.prod(count + 1 for count in most) <= CUTS:
        yield from itertools.product(*(range(count + 1) for count in most))
        return
    for number in range(CUTS):
        yield past(r, run, known) if number % 2 else [r.randrange(count + 1) for count in most]


def no_cuts(r, run):
    """Counts of too many parties, of too few and with one that is too large."""
    most = made(run)
    party = r.randrange(len(most))
    yield [*most, 0]
    yield most[:-1]
    yield [count + (number == party) for number, count in enumerate(most)]


def questions(r, run, seen):
    """Words, and the status and the output that are due."""
    entries = run.trace.entries
    known = diagram.hops(entries)[1]
    for one, other in pairs(r, len(entries)):
        word = order_of(known, one, other)
        seen[word] += 1
        yield ("order", one, other), 0, word
    count = len(entries)
    for one, other, first in ((0, count, count), (count, 0, count), (count + 1, count, count + 1)):
        seen["no entry"] += 1
        yield ("order", one, other), 16, f"no entry {first}"
    for counts in cuts(r, run, known):
        least = diagram.open_at(entries, counts)
        if least is not None:
            seen["open at"] += 1
            yield ("cut", *counts), 17, f"open at {least}"
            continue
        ends = list(states(run, counts))
        seen["closed"] += 1
        seen.update(word for _, word, _ in ends)
        yield ("cut", *counts), 0, "\n".join(f"{name}: {word} after {steps} steps" for name, word, steps in ends)
    for counts in no_cuts(r, run):
        seen["no such cut"] += 1
        yield ("cut", *counts), 18, "no such cut"


def small_run(r, ac, folder, is_traced):
    """A run with neither few nor many entries, in this folder."""
    for number, (text, _) in enumerate(trials.programs(r, CORES)):
        text, steps, inside = text.encode(), r.choice(BOUNDS), folder / str(number)
        before = trials.files_before(r, text)
        inside.mkdir()
        run = trials.of_program(ac, inside, text, steps, before)[0] if is_traced else trials.of_an_order(r, text, steps, before)[0]
        if LEAST <= len(run.trace.entries) <= MOST:
            (inside / "x.ac").write_bytes(text)
            (inside / "run.trace").write_bytes(run.text)
            return run, inside


def words_of(asked):
    """The words of a question: a cut has its counts in one word."""
    command, *numbers = asked
    return command, "x.ac", "run.trace", *(map(str, numbers) if command == "order" else [",".join(map(str, numbers))])


def asked_of_a_run(programs, r, seen, wrong, number):
    order, ac = programs
    with tempfile.TemporaryDirectory() as folder:
        run, inside = small_run(r, ac, pathlib.Path(folder), number % 2 == 0)
        for asked, status, line in questions(r, run, seen):
            wanted, came = (status, line.encode() + b"\n"), audits.ac(order, inside, *words_of(asked))
            if came != wanted:
                wrong.append(f"{asked}: wanted {wanted}, came {came}, of\n{run.source.decode()}\n{run.text.decode()}")


def main():
    if len(sys.argv) != 3:
        sys.exit(__doc__)
    programs = [str(pathlib.Path(path).resolve()) for path in sys.argv[1:]]
    return trials.outcome(lambda *trial: asked_of_a_run(programs, *trial), TRACES, DUE)


if __name__ == "__main__":
    sys.exit(main())
