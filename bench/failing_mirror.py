#!/usr/bin/env python3
"""One of two devices fails, with a built `ac_mirror`.

    python3 bench/failing_mirror.py crates/ac_mirror/out/ac_mirror [--jobs N] [WORD ..]

Each call of the system for one file of one side, an open, a question for its length, a read or a write, is made to fail once; and from
that call on each fails, as of a device that is pulled out, or each write does, as of a full one. So it is with three programs and with
`load 500` behind some of its writes, on the first side and on the second. Whatever fails there, the status and the report have to be
those of a run in which nothing does, and the files of the other side those that it leaves; both are worked out by the slow program of
bench/slow, or by tests/server.py. How many runs there were is printed, and each that was wrong. Words pick the programs whose name has
one of them in it.
"""
import concurrent.futures
import errno
import pathlib
import sys
import tempfile

import failing_calls
import made_to_fail
from made_to_fail import ALWAYS, Rule, at

ROOT = pathlib.Path(__file__).resolve().parent.parent
sys.path[:0] = [str(ROOT / "tests")]
import run  # noqa: E402
import server  # noqa: E402

# Files that stand beside one another, so that each has a name of its own.
SIDES = ("one-", "other-")
TURNS = 500
LOADED = (1, 2, 3, 400, 1499, 1500)


class Case:
    """A call: its words, the files before it, the answer that is due, and the files that are left."""

    def __init__(self, name, words, texts, before, answer, after):
        self.name, self.words, self.texts, self.before, self.answer, self.after = name, words, texts, before, answer, after


def cases():
    for name, source, files in (
        ("a read and a write", failing_calls.READ_WRITE.source, failing_calls.READ_WRITE.before),
        ("four writes", failing_calls.FOUR, {}),
        ("two files", failing_calls.BOTH, {"p.dat": b"xyz", "q.dat": b"uvw"}),
    ):
        answer, after, _ = failing_calls.by_slow(source, files)
        yield Case(name, ["run", "x.ac"], {"x.ac": source}, files, answer, after)
    held = bytes(server.byte(place) for place in range(3 * TURNS))
    summary = "".join(f"{line}\n" for line in (f"load {TURNS} status 0", *(sum(held[client::3]) for client in range(3))))
    yield Case("load", ["load", str(TURNS)], {}, {}, (0, summary.encode()), {"one.dat": held, "two.dat": held})


def tried(loaded, program, case, side, name, rules, kind):
    """What is wrong with a call in which this file of this side fails by these rules, or nothing; and its calls for the file."""
    with tempfile.TemporaryDirectory() as folder:
        folder = pathlib.Path(folder)
        run.put(folder, case.texts | {prefix + path: held for prefix in SIDES for path, held in case.before.items()})
        came = loaded.run(program, [*SIDES, *case.words], folder, calls=rules, only=side + name, kind=kind)
        other = SIDES[1 - SIDES.index(side)]
        held = {path.name.removeprefix(other): path.read_bytes() for path in folder.iterdir() if path.name.startswith(other)}
    own = [call for call, path in failing_calls.paths_of(came.calls) if path == side + name]
    if (came.status, came.output) != case.answer:
        return f"wanted {case.answer}, came {came.status}, {came.output[:300]}", own
    return None if held == case.after else f"the other side holds {str(held)[:300]}", own


def ways(case, calls):
    """The rules that are tried of these calls for a file, each with its name and the kind of calls that it counts."""
    numbers = LOADED if case.name == "load" else range(1, len(calls) + 1)
    for number in numbers:
        yield f"call {number} fails", [at(number, errno.EIO)], None
        yield f"pulled out at call {number}", [Rule(number, ALWAYS, errno.EIO)], None
    for number in numbers:
        yield f"full at write {number}", [Rule(number, ALWAYS, errno.ENOSPC)], "pwrite"


def main():
    words, program = made_to_fail.read_words(__doc__)
    count = wrong = 0
    with tempfile.TemporaryDirectory() as folder, concurrent.futures.ThreadPoolExecutor(words.jobs) as pool:
        loaded = made_to_fail.Loaded(folder)
        for case in cases():
            if words.picks and not any(pick in case.name for pick in words.picks):
                continue
            for side in SIDES:
                for name in case.after:
                    fault, calls = tried(loaded, program, case, side, name, [], None)
                    todo = [("nothing fails", [], None), *ways(case, calls)]
                    faults = [fault, *pool.map(lambda one: tried(loaded, program, case, side, name, *one[1:])[0], todo[1:])]
                    count += len(todo)
                    for (what, _, _), found in zip(todo, faults):
                        if found:
                            wrong += 1
                            print(f"{case.name}, {side}{name}, {what}: {found}")
    print(f"{count} runs, {wrong} wrong")
    sys.exit(1 if wrong or not count else 0)


if __name__ == "__main__":
    main()
