#!/usr/bin/env python3
"""Compares examples/server.ac with the text of the file server for twenty turns, as crates/ac_file_server/specs defines it.

With a built `ac`, loads of several numbers of turns are run too: what they write and what they leave in the files is compared with
what the clients are to do. The text for seven turns is traced, and the trace has to be a run.

Run from anywhere: python3 tests/server.py [PROGRAM]. It ends with status 1 where something differs.
"""
import pathlib
import re
import subprocess
import sys
import tempfile

ROOT = pathlib.Path(__file__).resolve().parent.parent
DEFINITION = ROOT / "crates" / "ac_file_server" / "specs" / "ServerText.antt"
EXAMPLE = ROOT / "examples" / "server.ac"
TURNS = 20
LOADS = (1, 2, 7, 10, 20, 36, 37, 255, 256, 257, 499, 500)
TRACED = 7


def text(turns):
    """The lines of the definition in their order: each is a row of texts, with the number of turns between them in those of the loops."""
    lines = []
    for row in DEFINITION.read_text().splitlines():
        texts = re.findall(r'codes "((?:[^"\\]|\\.)*)"', row)
        if texts:
            lines.append(re.sub(r"\\(.)", r"\1", str(turns).join(texts)))
    return "".join(line + "\n" for line in lines)


def byte(place):
    """The byte that a client writes at this place."""
    return (7 * (place // 3) + place % 3) % 256


def ac(program, folder, *words):
    done = subprocess.run([program, *words], cwd=folder, stdout=subprocess.PIPE, timeout=120)
    return done.returncode, done.stdout


def load_fault(program, turns):
    """What is wrong with a load of so many turns on new files, or nothing."""
    held = bytes(byte(place) for place in range(3 * turns))
    sums = "".join(f"{sum(held[client::3])}\n" for client in range(3))
    with tempfile.TemporaryDirectory() as folder:
        came = ac(program, folder, "load", str(turns))
        if came != (0, f"load {turns} status 0\n{sums}".encode()):
            return f"load {turns}: {came}"
        files = [(pathlib.Path(folder) / name).read_bytes() for name in ("one.dat", "two.dat")]
    return None if files == [held, held] else f"load {turns}: other bytes in its files"


def trace_fault(program):
    with tempfile.TemporaryDirectory() as folder:
        (pathlib.Path(folder) / "x.ac").write_text(text(TRACED))
        status, trace = ac(program, folder, "trace", "x.ac")
        (pathlib.Path(folder) / "x.trace").write_bytes(trace)
        came = ac(program, folder, "audit", "x.ac", "x.trace")
    return None if (status, came) == (0, (0, b"yes\n")) else f"the trace of {TRACED} turns: {status}, {came}"


def main():
    faults = []
    if EXAMPLE.read_text() != text(TURNS):
        faults.append(f"examples/server.ac is not the text of the definition for {TURNS} turns")
    if len(sys.argv) > 1:
        program = str(pathlib.Path(sys.argv[1]).resolve())
        faults += [fault for fault in (*(load_fault(program, turns) for turns in LOADS), trace_fault(program)) if fault]
    for fault in faults:
        print(fault)
    sys.exit(1 if faults else 0)


if __name__ == "__main__":
    main()
