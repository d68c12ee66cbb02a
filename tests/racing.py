#!/usr/bin/env python3
"""Programs of several cores at the schedules of this machine, with a built `ac`.

    python3 tests/racing.py crates/ac/out/ac [SEEDS]

Of so many seeds (24 where none is given; the long form has 700) three random programs each, with 2, 4 and 16 cores, whose answer
depends on the order of their run, are run three times, one of these on a single processor. Each run is traced, and `ac audit` and the
plain slow program of bench/slow have to say yes of the trace; its file has to hold what the run has made of it. How many programs
showed more than one answer is printed, and is no matter of right or wrong.

Of as many seeds a program of networks.py and one of cancels.py, whose answer is the same in every order, have to give that one at
each of three runs; and what `ac load 50` and `ac load 500` run is traced and audited.

Each text and example with several right answers, and each text of an answer that comes in time, too late or never to a receive with a
timer core or with turns of a `yield` for a clock, is run 40 times, every second time on a single processor. What comes has to be one
of its answers. It ends with status 1 where anything is wrong.
"""
import collections
import concurrent.futures
import multiprocessing
import os
import pathlib
import subprocess
import sys
import tempfile

import run
import server

sys.path.insert(0, str(run.ROOT / "bench" / "slow"))
import cancels  # noqa: E402
import cores  # noqa: E402
import history  # noqa: E402
import networks  # noqa: E402
import races  # noqa: E402
import report as slow  # noqa: E402
import traces  # noqa: E402

SEEDS, RUNS = 24, 3
CORES = (2, 4, 16)
TIMES = 40
CLOCKS = ("an_answer_*.txt", "turns_of_a_yield_*.txt", "a_receive_waits_no_longer_than_its_timeout.txt")
# The turns of a load, the bound on its steps, and whether the slow program judges it as well.
LOADS = ((50, 100_000, True), (500, 1_000_000, False))


def ac(program, folder, *words, one=False):
    """The status and the output of a call, on a single processor where that is asked for."""
    here = os.sched_getaffinity(0)
    if one:
        os.sched_setaffinity(0, {max(here)})
    try:
        done = subprocess.run([program, *words], cwd=folder, stdout=subprocess.PIPE, timeout=run.SECONDS)
    finally:
        os.sched_setaffinity(0, here)
    return done.returncode, done.stdout


def shown(source, text):
    return f"of the program\n{source.decode()}and its trace\n{text.decode('latin-1')}"


def file_fault(names, trace, folder):
    """What a file holds that the entries have not made of it, or nothing."""
    files = list(trace.start) + [b""] * (16 - len(trace.start))
    history.legal(trace.entries, cores.capacities(names), cores.widths(names), len(names.cores), files)
    for file, held in zip(names.files, files):
        came = (folder / file.path.decode()).read_bytes()
        if came != held:
            return f"{file.path.decode()} holds {came}, and the run has made {held} of it"
    return None


def traced(program, source, steps, judge=True, one=False):
    """The answer of a run, and what is wrong with its trace, or nothing."""
    with tempfile.TemporaryDirectory() as folder:
        folder = pathlib.Path(folder)
        (folder / "x.ac").write_bytes(source)
        status, text = ac(program, folder, "trace", "x.ac", "--steps", str(steps), one=one)
        (folder / "run.trace").write_bytes(text)
        try:
            trace = traces.read(text)
        except traces.WrongLine as wrong:
            return None, f"status {status}, wrong at line {wrong.args[0]}, {shown(source, text)}"
        audit = ac(program, folder, "audit", "x.ac", "run.trace")
        if audit != (0, b"yes\n"):
            return None, f"`ac audit` says {audit}, {shown(source, text)}"
        if judge:
            judged = slow.judged(source, text)
            if judged != (0, "yes"):
                return None, f"the slow program says {judged}, {shown(source, text)}"
            wrong = file_fault(slow.load(source)[1], trace, folder)
            if wrong:
                return None, f"{wrong}, {shown(source, text)}"
        told = slow.report([("", word, steps, 0, output) for word, steps, output in trace.ends])
        if status != told[0]:
            return None, f"status {status}, {shown(source, text)}"
    return told, None


# ---- what is tried: each gives how many answers it has seen, and what is wrong, or nothing


def raced(program, seed, count):
    source, steps = races.program(seed, count)
    answers = set()
    for number in range(RUNS):
        answer, wrong = traced(program, source.encode(), steps, one=number == 1)
        if wrong:
            return 0, wrong
        answers.add(answer)
    return len(answers), None


def has_one_answer(program, seed, kind):
    source, steps = kind.program(seed)
    wanted = slow.both(source.encode(), steps)
    for number in range(RUNS):
        with tempfile.TemporaryDirectory() as folder:
            (pathlib.Path(folder) / "x.ac").write_text(source)
            came = ac(program, folder, "run", "x.ac", "--steps", str(steps), one=number == 1)
        if came != wanted:
            return 0, f"wanted {wanted}\ncame   {came}, of the program with {steps} steps\n{source}"
    return 1, traced(program, source.encode(), steps)[1]


def loaded(program, turns, steps, judge):
    return 1, traced(program, server.text(turns).encode(), steps, judge)[1]


def answered(program, test):
    answers, seen = test.answers or ((test.status, test.output),), set()
    for number in range(TIMES):
        with tempfile.TemporaryDirectory() as folder:
            folder = pathlib.Path(folder)
            run.put(folder, {test.name: test.source} | test.before)
            came = ac(program, folder, *test.words, one=number % 2 == 1)
            wrong = run.other_file(folder, test.after)
        if wrong or came not in answers:
            return 0, wrong or f"run {number} has given {came}, of the program\n{test.source.decode()}"
        seen.add(came)
    return len(seen), None


def answered_tests():
    """The texts and the examples with several answers, and the texts of the clocks, by how many answers they have."""
    texts = {*run.HERE.glob("**/*.any"), *(path for name in CLOCKS for path in (run.HERE / "cancel").glob(name))}
    for path in sorted({path.with_suffix(".txt") for path in texts}):
        test = run.read(path)
        yield "texts with several answers" if test.answers else "texts with one answer", test
    named = {name.rpartition(" ")[2]: run.Test(*test) for name, test in run.command_tests()}
    for name, test in named.items():
        if test.answers or name == "examples/timeout.ac":
            yield "examples", test


def cases(seeds):
    """What is tried, by the kind that is counted, with what it is tried with."""
    for kind, test in answered_tests():
        yield kind, answered, (test,)
    for turns, steps, judge in reversed(LOADS):
        yield "load", loaded, (turns, steps, judge)
    for seed in range(seeds):
        for count in CORES[::-1]:
            yield f"{count} cores", raced, (seed, count)
        for kind in (networks, cancels):
            yield kind.__name__, has_one_answer, (90_000 + seed, kind)


# The program and what is tried: set before the processes begin that share them.
SHARED = []


def tried(number):
    program, tests = SHARED
    kind, test, words = tests[number]
    try:
        return kind, *slow.deep(lambda: test(program, *words))
    except Exception as fault:
        return kind, 0, f"{test.__name__} {words}: {type(fault).__name__} {fault}"


def main():
    if len(sys.argv) < 2:
        sys.exit(__doc__)
    program = str(pathlib.Path(sys.argv[1]).resolve())
    SHARED[:] = program, [*cases(int(sys.argv[2]) if len(sys.argv) > 2 else SEEDS)]
    seen, several, failed = collections.Counter(), collections.Counter(), 0
    # Where one of these processes is ended from outside, this raises, while a Pool would wait for ever.
    with concurrent.futures.ProcessPoolExecutor(mp_context=multiprocessing.get_context("fork")) as pool:
        for done in concurrent.futures.as_completed([pool.submit(tried, number) for number in range(len(SHARED[1]))]):
            kind, answers, wrong = done.result()
            seen[kind] += 1
            several[kind] += answers > 1
            if wrong:
                failed += 1
                print(f"{kind}: {wrong}", flush=True)
    for kind in [f"{count} cores" for count in CORES] + [*dict.fromkeys(kind for kind, _ in answered_tests())]:
        runs = RUNS if kind.endswith(" cores") else TIMES
        print(f"{kind}: {seen[kind]} programs, {several[kind]} showed more than one answer in {runs} runs")
    print(f"{sum(seen.values()) - failed} passed, {failed} failed")
    return 1 if failed or not seen else 0


if __name__ == "__main__":
    sys.exit(main())
