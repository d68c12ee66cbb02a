#!/usr/bin/env python3
"""Prints what `ac` does; the status is the exit status.

    report.py run FILE [--steps N] [--order SEED]
    report.py trace FILE [--steps N] [--order SEED]
    report.py audit FILE TRACE

Several cores run in an order of `ac`, or in the order of a seed, in which arrivals may come late. The files of the program are those
of the folder, and none of them is changed."""
import pathlib
import sys
import threading

import audit
import cores
import disk as outside
import history
import rules
import tokens_and_trees as lang
import traces

sys.setrecursionlimit(200_000)
STATUS = {"finished": 0, "stalled": 5, "out-of-steps": 6}


def report(ends):
    out = bytearray()
    for name, word, steps, instructions, output in ends:
        out += f"{name}: {word} after {steps} steps, {instructions} instructions\n".encode() + output
        if output and not output.endswith(b"\n"):
            out += b"\n"
    status = 0
    for _, word, *_ in ends:
        s = STATUS.get(word, 4)
        status = min((status, s), key=lambda x: [4, 6, 5, 0].index(x))
    return status, bytes(out)


def load(text):
    program = lang.parse(text)
    return program, lang.Names(program)


def of(names, codes):
    return report([(c.name, m.end()[0], m.steps, m.instructions, bytes(m.out)) for c, m in zip(names.cores, codes)])


def run_code(text, limit):
    """status, bytes of `ac run`"""
    try:
        program, names = load(text)
    except lang.Fault as f:
        return f.status, f.line.encode() + b"\n"
    codes = cores.Program(names, program, limit).codes()
    cores.Run(names, codes, cores.Order(0, len(codes)), outside.Disk({})).whole()
    return of(names, codes)


def both(text, limit, seed=0, polls=False, disk=None):
    """The report of the tree and of its code over a disk, which is empty where none is given, in the order of this seed; raises
    where they differ, and lang.Fault where the disk refuses the program's files."""
    program, names = load(text)
    disk = disk or outside.Disk({})
    disk.start([file.path for file in names.files])
    return of(names, cores.Program(names, program, limit).run(seed, polls, disk)[0])


def trace(text, limit, seed=0, polls=False, disk=None):
    """The status of a run in the order of this seed, and its trace."""
    program, names = load(text)
    disk = disk or outside.Disk({})
    disk.start([file.path for file in names.files])
    start = [disk.files[path] for path in disk.bound]
    ended, journals = cores.Program(names, program, limit).run(seed, polls, disk)
    told = traces.Trace(limit, start, history.merged(journals), [core.end()[:3] for core in ended])
    return of(names, ended)[0], told


def judged(text, told):
    """The status and the line of an audit of this text of a trace."""
    try:
        rules.refusal(text, 0)
        if len(told) > traces.LIMIT:
            return 10, "limit: trace"
        run = traces.read(told)
        rules.refusal(text, run.steps)
    except lang.Fault as f:
        return f.status, f.line
    except traces.WrongLine as w:
        return 14, f"trace fault at line {w.args[0]}"
    line = audit.verdict(load(text)[1], run)
    return 0 if line == "yes" else 13, line


def deep(act):
    """Runs with a large stack."""
    got = []

    def go():
        try:
            got.append(act())
        except BaseException as e:
            got.append(e)
    threading.stack_size(512 << 20)
    t = threading.Thread(target=go)
    t.start()
    t.join()
    if isinstance(got[0], BaseException):
        raise got[0]
    return got[0]


def option(args, name, other):
    """The word after this one, both taken out, or another where it is not there."""
    if name not in args:
        return other
    k = args.index(name)
    value = args[k + 1]
    del args[k:k + 2]
    return value


def here():
    """A disk of the files of this folder."""
    return outside.Disk({path.name.encode(): path.read_bytes() for path in pathlib.Path().iterdir() if path.is_file()})


def main():
    command, *args = sys.argv[1:]
    limit, order = int(option(args, "--steps", 100_000)), option(args, "--order", None)
    seed, polls = (int(order), False) if order else (0, True)
    text = open(args[0], "rb").read()

    def go():
        if command == "audit":
            status, line = judged(text, open(args[1], "rb").read())
            return status, line.encode() + b"\n"
        try:
            rules.refusal(text, limit)
            if command == "run":
                return both(text, limit, seed, polls, here())
            status, run = trace(text, limit, seed, polls, here())
            written = traces.written(run)
            return (status, written) if len(written) <= traces.LIMIT else (10, b"limit: trace\n")
        except lang.Fault as f:
            return f.status, f.line.encode() + b"\n"
    status, out = deep(go)
    sys.stdout.buffer.write(out)
    sys.stdout.flush()
    sys.exit(status)


if __name__ == "__main__":
    main()
