"""Small runs of random programs, and what tries many of them side by side: for order.py and again.py."""
import collections
import concurrent.futures
import multiprocessing
import random
import typing

import audits
import racing
import run

import cancels
import cores
import disk as outside
import history
import networks
import races
import report as slow
import traces

FILE = b"log.dat"


class Run(typing.NamedTuple):
    """A run of a program: the names of its text, what its file held before, where there was one, and its trace."""

    source: bytes
    names: typing.Any
    before: dict
    text: bytes
    trace: traces.Trace


def journal(trace, party):
    return [e for e in trace.entries if e.party == party]


def of_trace(source, before, text):
    return Run(source, slow.load(source)[1], before, text, traces.read(text))


def of_program(ac, folder, source, steps, before):
    """The run that `ac trace` makes in this folder, which has these files and then what the run has made of them; and its status."""
    run.put(folder, {"x.ac": source} | before)
    status, text = audits.ac(ac, folder, "trace", "x.ac", "--steps", str(steps))
    return of_trace(source, before, text), status


def of_an_order(r, source, steps, before):
    """A run in an order that `ac` never makes, over a disk whose calls may fail; its report; and the disk."""
    files = {name.encode(): held for name, held in before.items()}
    disk = outside.Disk(files, {call + 2: taken for call, taken in audits.failing(r).items()})
    program, names = slow.load(source)
    disk.start([file.path for file in names.files])
    start = disk.held()[:len(disk.bound)]
    ended, journals = cores.Program(names, program, steps).run(r.randrange(1, 1 << 30), False, disk)
    ends = [core.end()[:3] for core in ended]
    text = traces.written(traces.Trace(steps, start, history.merged(journals), ends))
    return of_trace(source, before, text), slow.of(names, ended), disk


def programs(r, counts):
    """Random programs without end, each with a bound on steps: whose cores race, as many as one of these counts, and whose answer has
    no order."""
    while True:
        kind = r.choice([races, races, networks, cancels])
        yield kind.program(r.randrange(1 << 30), r.choice(counts)) if kind is races else kind.program(r.randrange(1 << 30))


def files_before(r, source):
    """What may be in the file of a random program."""
    if FILE not in source or r.random() < 0.3:
        return {}
    return {FILE.decode(): bytes(r.randrange(256) for _ in range(r.randrange(9)))}


# ---- side by side

# What is tried: set before the processes begin that share it.
SHARED = []


def tried(number):
    """What a trial has seen, with how often, and what is wrong."""
    seen, wrong = collections.Counter(), []
    try:
        slow.deep(lambda: SHARED[0](random.Random(number), seen, wrong, number))
    except Exception as fault:
        wrong.append(f"trial {number}: {type(fault).__name__} {fault}")
    return seen, wrong


def outcome(trial, count, due):
    """Makes the trials 0, 1, .. side by side, and prints what they have seen and what is wrong. The status is 0 where nothing is, and
    each of these words was seen."""
    SHARED[:] = [trial]
    seen, failed = collections.Counter(), 0
    # Where one of these processes is ended from outside, this raises, while a Pool would wait for ever.
    with concurrent.futures.ProcessPoolExecutor(mp_context=multiprocessing.get_context("fork")) as pool:
        for done in concurrent.futures.as_completed([pool.submit(tried, number) for number in range(count)]):
            found, wrong = done.result()
            seen += found
            failed += len(wrong)
            for fault in wrong[:3]:
                print(fault, flush=True)
    print(", ".join(f"{word} {times}" for word, times in sorted(seen.items())))
    for word in due:
        if not seen[word]:
            failed += 1
            print(f"there was no `{word}`")
    print(f"{sum(seen.values())} answers, {failed} failed")
    return 1 if failed or not seen else 0
