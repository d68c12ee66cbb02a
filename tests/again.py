#!/usr/bin/env python3
"""What a built `ac_again` makes of traces, against the runs that made them and the plain slow program of bench/slow.

    python3 tests/again.py crates/ac_again/out/ac_again crates/ac/out/ac

- 300 runs of random programs whose cores race, with 2, 4 and 16 of them, at least every second with a file. `ac trace` has made them,
  and has left a file; `ac_again`, on a copy of what the file held before, has to leave the same, with the status of the run and the
  report of the code of bench/slow under the journals of the trace. Over a file that holds something else it changes nothing, and says
  which it is.
- The trace changed in one place, a few times, in a digit or a word of a line, or in an entry: it has to be refused as `ac audit` and the
  slow program refuse it, with nothing changed and nothing made; or it is a run, and has the report and leaves the file of that.
- 100 runs in orders that `ac` never makes, over disks whose calls may fail, which the slow program has made.
- Each text of this folder that runs a program: the report and the files are those that were worked out by hand.

What is changed is drawn by the number of the run alone. It ends with status 1 where anything is wrong, or was never seen.
"""
import itertools
import pathlib
import re
import sys
import tempfile

import audits
import racing
import run as texts
import trials

import cores
import history
import races
import report as slow
import traces

RACES, ORDERS = 300, 100
CHANGES = 3
STEPS = (40, 400, 2_000)
DUE = ("run", "order", "text", "other file", "no at", "no at end", "trace fault", "run still")


def replayed(run):
    """The status and the report of the code of each core under its journal."""
    codes = cores.Program(run.names, slow.load(run.source)[0], run.trace.steps).codes()
    for item, code in zip(run.names.cores, codes):
        assert cores.replay(code, trials.journal(run.trace, item.number)) is None
    return slow.of(run.names, codes)


def folder_of(top, name, files):
    folder = top / name
    folder.mkdir()
    texts.put(folder, files)
    return folder


def held(folder):
    """What each file of a folder holds, but for the program and the trace."""
    return {path.name: path.read_bytes() for path in folder.iterdir() if path.is_file() and path.name not in ("x.ac", "run.trace")}


def first_other(run, files):
    """The number of the first file that holds other bytes than the trace tells; one that is not there holds none."""
    came = [files.get(file.path.decode(), b"") for file in run.names.files]
    return next((number for number, (one, other) in enumerate(zip(came, run.trace.start)) if one != other), None)


def left(run, files):
    """The files after the run, each of which is there."""
    after = list(run.trace.start) + [b""] * (16 - len(run.trace.start))
    history.legal(run.trace.entries, cores.capacities(run.names), cores.widths(run.names), len(run.names.cores), after)
    return files | {file.path.decode(): now for file, now in zip(run.names.files, after)}


def verdict(run, files):
    """What is due of a trace that is a run over these files: the status, the output, and the files after it."""
    other = first_other(run, files)
    if other is None:
        return *replayed(run), left(run, files)
    return 19, f"file {other} differs\n".encode(), {file.path.decode(): b"" for file in run.names.files} | files


def told(again, folder, run, name, files):
    """What `ac_again` answers in a new folder with these files, and leaves there."""
    inside = folder_of(folder, name, {"x.ac": run.source, "run.trace": run.text} | files)
    return *audits.ac(again, inside, "x.ac", "run.trace"), held(inside)


def differs(what, wanted, came, run):
    if wanted == came:
        return []
    return [f"{what}: wanted {wanted}\ncame   {came}\nof the program\n{run.source.decode('latin-1')}\nand\n{run.text.decode('latin-1')}"]


# ---- changes of a text in one place


def other_word(r, text, word):
    """A word with another digit, or another word of the text."""
    digits = [at for at, letter in enumerate(word) if letter.isdigit()]
    if digits and r.random() < 0.7:
        at = r.choice(digits)
        return word[:at] + r.choice([d for d in "0123456789" if d != word[at]]) + word[at + 1:]
    return r.choice([other for other in text.split() if other != word])


def other_line(r, text):
    """The text with one word of one line changed."""
    lines = text.decode().split("\n")
    at = r.randrange(len(lines) - 1)
    words = lines[at].split(" ")
    place = r.randrange(len(words))
    words[place] = other_word(r, text.decode(), words[place])
    lines[at] = " ".join(words)
    return "\n".join(lines).encode()


def changed(r, run):
    """The text of the trace with one place changed."""
    return other_line(r, run.text) if r.random() < 0.5 else traces.written(audits.changed(r, run.trace))


# ---- what is tried


def of_changes(programs, r, seen, folder, run):
    again, ac = programs
    for number in range(CHANGES):
        text = changed(r, run)
        if text == run.text:
            continue
        status, line = slow.judged(run.source, text)
        other = run._replace(text=text)
        came = told(again, folder, other, f"change {number}", run.before)
        audited = audits.ac(ac, folder / f"change {number}", "audit", "x.ac", "run.trace")
        yield from differs("an audit", (status, line.encode() + b"\n"), audited, other)
        if status == 0:
            other = other._replace(trace=traces.read(text))
            wanted = verdict(other, run.before)
            seen["run still" if wanted[0] != 19 else "other file"] += 1
        else:
            seen[re.sub(r" at (line )?\d+$", " at" if line.startswith("no") else "", line)] += 1
            wanted = status, line.encode() + b"\n", run.before
        yield from differs("a changed trace", wanted, came, other)


def of_other_files(again, r, seen, folder, run):
    """The file of the program holds other bytes, or is not there."""
    for file in run.names.files:
        name = file.path.decode()
        now = audits.other_bytes(r, run.before.get(name, b""))
        for number, files in enumerate(({name: now}, {})):
            seen["other file"] += first_other(run, files) is not None
            yield from differs("another file", verdict(run, files), told(again, folder, run, f"other {number}", files), run)


def raced(programs, r, seen, wrong, number):
    again, ac = programs
    count, needs_file = racing.CORES[number % 3], number % 2 == 0
    programs_of = (races.program(seed, count)[0].encode() for seed in itertools.count(1000 * number))
    source = next(text for text in programs_of if trials.FILE in text or not needs_file)
    with tempfile.TemporaryDirectory() as top:
        top = pathlib.Path(top)
        live = folder_of(top, "live", {})
        run, status = trials.of_program(ac, live, source, r.choice(STEPS), trials.files_before(r, source))
        seen["run"] += 1
        wanted = verdict(run, run.before)
        wrong += differs("what the run left", (wanted[0], wanted[2]), (status, held(live)), run)
        wrong += differs("a run", wanted, told(again, top, run, "again", run.before), run)
        wrong += of_other_files(again, r, seen, top, run)
        wrong += of_changes(programs, r, seen, top, run)


def ordered(programs, r, seen, wrong, number):
    text, steps = next(trials.programs(r, racing.CORES[:2]))
    source = text.encode()
    run, report, disk = trials.of_an_order(r, source, steps, trials.files_before(r, source))
    with tempfile.TemporaryDirectory() as top:
        seen["order"] += 1
        files = {name.decode(): now for name, now in disk.files.items()}
        wrong += differs("an order", (*report, files), told(programs[0], pathlib.Path(top), run, "again", run.before), run)


def worked_out(programs, r, seen, wrong, test):
    """A text that runs a program is traced, and run again on a copy of its files."""
    again, ac = programs
    seen["text"] += 1
    with tempfile.TemporaryDirectory() as top:
        live, copy = (folder_of(pathlib.Path(top), name, {test.name: test.source} | test.before) for name in ("live", "copy"))
        status, text = audits.ac(ac, live, "trace", *test.words[1:])
        (copy / "run.trace").write_bytes(text)
        came = audits.ac(again, copy, "--", test.name, "run.trace")
        if came not in (test.answers or ((test.status, test.output),)) or came[0] != status:
            wrong.append(f"{test.words}: the trace has status {status}, and came {texts.shown(came[1])}, status {came[0]}, of\n"
                         f"{test.source.decode('latin-1')[:2000]}")
        other = texts.other_file(copy, test.after) or held(live) != held(copy) and "  the files are not those that the run left"
        if other:
            wrong.append(f"{other}, of\n{test.source.decode('latin-1')[:2000]}")


def main():
    if len(sys.argv) != 3:
        sys.exit(__doc__)
    programs = [str(pathlib.Path(path).resolve()) for path in sys.argv[1:]]
    tests = [test for test in map(texts.read, sorted(texts.HERE.glob("**/*.txt"))) if audits.is_run(test)]

    def tried(r, seen, wrong, number):
        if number < len(tests):
            worked_out(programs, r, seen, wrong, tests[number])
        else:
            (raced if number < len(tests) + RACES else ordered)(programs, r, seen, wrong, number)

    return trials.outcome(tried, len(tests) + RACES + ORDERS, DUE)


if __name__ == "__main__":
    sys.exit(main())
