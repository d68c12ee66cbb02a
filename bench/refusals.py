#!/usr/bin/env python3
"""Every growth of a whole run is refused once, with a built `ac`.

    python3 bench/refusals.py crates/ac/out/ac [--jobs N] [WORD ..]

A growth is a call by which the process asks for memory: its own, and those that the C library makes for it. Of each call below the
first growth is refused, then the second, and so on, until a run has made no more: `examples/two.ac`, each text of `tests/cancel` that
is run and has one answer, three cores that write and read a file each, a trace of these, an audit of that trace, and a load of 7.
A growth that is refused is answered by status 11, with nothing written; or the run goes without, and its answer is the usual one.
The files then have a front of what is written into them, block by block, and nothing else stands beside them. How many growths
there were, and how each was answered, is printed; the status is 1 where an answer is another one. Words pick the calls whose name
has one of them in it.
"""
import collections
import concurrent.futures
import pathlib
import subprocess
import sys
import tempfile
import typing

import made_to_fail

ROOT = pathlib.Path(__file__).resolve().parent.parent
sys.path[:0] = [str(ROOT / "tests"), str(ROOT / "bench" / "slow")]
import report as slow  # noqa: E402
import run  # noqa: E402
import server  # noqa: E402

NO_MEMORY = (11, b"")
TURNS = 7
# So many runs that end before the growth that is to be refused, one after the other, end the search: cores race, and one run may
# grow oftener than another.
LAST = 5

BLOCK, BLOCKS = 10, 4


def core(name, number):
    return f"""async void {name}() {{
    int text[{BLOCK}];
    int back[{BLOCK}];
    int sum;
    for (int k = 0; k < {BLOCKS}; k = k + 1) {{
        for (int i = 0; i < {BLOCK}; i = i + 1) text[i] = {number} * 16 + k;
        sum = sum + Write({name}_file, k * {BLOCK}, {BLOCK}, text);
        sum = sum + Read({name}_file, k * {BLOCK}, {BLOCK}, back);
        sum = sum + back[{BLOCK - 1}];
    }}
    printf("%d\\n", sum);
}}
"""


NAMES = ("first", "second", "third")
THREE = "".join(f'core {name}_core({name});\nfile {name}_file("{name}.dat");\n' for name in NAMES)
THREE += "".join(core(name, number) for number, name in enumerate(NAMES, 1))


def held_by_three():
    return {f"{name}.dat": b"".join(bytes([number * 16 + k]) * BLOCK for k in range(BLOCKS)) for number, name in enumerate(NAMES, 1)}


class Case(typing.NamedTuple):
    """A call; the files before it; what it leaves in files, with the size of the blocks that go in; and whether an answer is right."""

    name: str
    words: list
    before: dict
    whole: dict
    block: int
    is_right: typing.Callable


def is_answer(*answers):
    return lambda status, output: (status, output) in answers


def is_trace(status, output):
    return status == 0 and slow.deep(lambda: slow.judged(THREE.encode(), output)) == (0, "yes")


def cancel_texts():
    for path in sorted((ROOT / "tests" / "cancel").glob("*.txt")):
        test = run.read(path)
        if test.words[:1] == ["run"] and not test.answers and not test.before and not test.after:
            yield Case(f"cancel {path.stem}", test.words, {test.name: test.source}, {}, 1, is_answer((test.status, test.output)))


def cases(program):
    two = (ROOT / "examples" / "two.ac").read_bytes()
    yield Case("two.ac", ["run", "x.ac"], {"x.ac": two}, {}, 1, is_answer((0, b"a: finished after 1 steps, 9 instructions\n7\n")))
    yield from cancel_texts()
    usual = slow.deep(lambda: slow.both(THREE.encode(), 100_000))
    yield Case("three cores", ["run", "x.ac"], {"x.ac": THREE.encode()}, held_by_three(), BLOCK, is_answer(usual))
    yield Case("a trace", ["trace", "x.ac"], {"x.ac": THREE.encode()}, held_by_three(), BLOCK, is_trace)
    with tempfile.TemporaryDirectory() as folder:
        run.put(pathlib.Path(folder), {"x.ac": THREE.encode()})
        trace = subprocess.run([program, "trace", "x.ac"], cwd=folder, stdout=subprocess.PIPE, timeout=run.SECONDS).stdout
    files = {"x.ac": THREE.encode(), "x.trace": trace}
    yield Case("an audit", ["audit", "x.ac", "x.trace"], files, {}, 1, is_answer((0, b"yes\n")))
    held = bytes(server.byte(place) for place in range(3 * TURNS))
    sums = "".join(f"{sum(held[client::3])}\n" for client in range(3))
    summary = f"load {TURNS} status 0\n{sums}".encode()
    yield Case(f"load {TURNS}", ["load", str(TURNS)], {}, {"one.dat": held, "two.dat": held}, 0, is_answer((0, summary)))


def left_fault(case, folder, is_whole):
    """What is wrong with the files, or nothing."""
    files = {path.name: path.read_bytes() for path in folder.iterdir()}
    for name, held in case.before.items():
        if files.pop(name, None) != held:
            return f"{name} is not as it was"
    for name, held in files.items():
        whole = case.whole.get(name)
        if whole is None:
            return f"{name} was not there"
        if case.block:
            is_front = held == whole[: len(held)] and len(held) % case.block == 0
        else:
            is_front = len(held) <= len(whole) and all(byte in (0, due) for byte, due in zip(held, whole))
        if not is_front or is_whole and held != whole:
            return f"{name} holds {held}"
    return f"there is no {sorted(set(case.whole) - set(files))}" if is_whole and set(case.whole) - set(files) else None


def refused(loaded, program, case, number):
    """How many growths the run made, how it answered where one of this number is refused, and what is wrong, or nothing."""
    with tempfile.TemporaryDirectory() as folder:
        folder = pathlib.Path(folder)
        run.put(folder, case.before)
        growths = [made_to_fail.at(number)] if number else []
        try:
            came = loaded.run(program, case.words, folder, growths=growths)
        except subprocess.TimeoutExpired:
            return None, "hangs", f"growth {number}: not done after {made_to_fail.SECONDS} seconds"
        is_right = case.is_right(came.status, came.output)
        is_11 = number and (came.status, came.output) == NO_MEMORY
        fault = left_fault(case, folder, is_right) if is_right or is_11 else f"status {came.status}, {came.output[:200]}"
    return came.growths, "status 11" if is_11 else "usual", fault and f"growth {number}: {fault}"


def tried(loaded, program, case, jobs):
    """What is wrong with a call, and how the refusals were answered."""
    growths, _, fault = refused(loaded, program, case, 0)
    if fault or growths is None:
        return 0, {}, [fault or "it tells no number of growths"]
    answers, faults, most, number, past = collections.Counter(), [], growths, 0, 0
    with concurrent.futures.ThreadPoolExecutor(jobs) as pool:
        while past < LAST:
            numbers = range(number + 1, max(number + 1, most) + 1)
            for at, (made, answer, fault) in zip(numbers, pool.map(lambda n: refused(loaded, program, case, n), numbers)):
                is_made = made is None or made >= at
                past = 0 if is_made else past + 1
                answers[answer] += is_made
                faults += [fault] if fault else []
            number = numbers[-1]
    return growths, answers, faults


def main():
    words, program = made_to_fail.read_words(__doc__)
    total, failed = collections.Counter(), 0
    with tempfile.TemporaryDirectory() as folder:
        loaded = made_to_fail.Loaded(folder)
        for case in cases(program):
            if words.picks and not any(pick in case.name for pick in words.picks):
                continue
            growths, answers, faults = tried(loaded, program, case, words.jobs)
            for fault in faults[:5]:
                print(f"{case.name}: {fault}", flush=True)
            total += collections.Counter(answers)
            failed += len(faults)
            told = ", ".join(f"{count} {answer}" for answer, count in sorted(answers.items()))
            print(f"{case.name}: {growths} growths; refused in turn: {told}; {len(faults)} wrong", flush=True)
    print(f"refusals: {sum(total.values())} in all, " + ", ".join(f"{total[answer]} {answer}" for answer in sorted(total)) + f", {failed} wrong")
    return 1 if failed or not total else 0


if __name__ == "__main__":
    sys.exit(main())
