#!/usr/bin/env python3
"""Times runs whose cores go on side by side, against a built `ac` of before.

    python3 bench/parallel.py PROGRAM BASELINE [ROUNDS]

PROGRAM and BASELINE are two built programs `ac`, the second one that lets the cores go on in turn. What is timed runs in rounds (7
where none are given), each once in a round with both, so that a change of the machine's speed meets both; each time is by the clock,
from start to end, and the least of its runs; behind the ratio of two stands the median of the ratios of the rounds, which tells more
where other work runs beside. Printed are, each with its goal on four processors:

- four cores that only compute, against one of them; and four processes with such a core each, which is what the machine gives;
- sixteen cores that only compute, a million steps in all, against the baseline;
- 190,000 messages from one core to another with room for 64, sent by one thread and by 64, against the baseline, and beside them
  a `sync_channel` of 64 where there is a `rustc`;
- ping-pong with room for 1, and one token that goes round rings of 3, 8 and 16 cores, 160, 1,600 and 16,000 hops each, against the
  baseline, and 16,000 against 8,000;
- `two.ac` against the baseline, and `ac load 500`, with its exponent from 50 turns on;
- all of these against the baseline once more, on a single processor.

Behind each time stands what the run took of the processors. Where a run takes longer than 20 seconds it is ended, and its row says so.
"""
import math
import os
import pathlib
import shutil
import signal
import statistics
import subprocess
import sys
import tempfile
import time

ROOT = pathlib.Path(__file__).resolve().parent.parent
ROUNDS, SECONDS = 7, 20
COMPUTING = "async void f%d() {\n    int x = 1;\n    for (int i = 0; i < %d; i = i + 1) x = x" + " * 3 + i" * 20 + ";\n    printf(\"%%d\\n\", x);\n}\n"
MESSAGES, THREADS, HOPS = 190_016, 64, 16_000
RINGS, SIZES = (2, 3, 8, 16), (160, 1_600, HOPS // 2, HOPS)
# So many processes with the same words at once.
AT_ONCE = 'for k in 1 2 3 4; do "$@" > printed.$k & done; wait; cat printed.1'
STREAM = """core a(f);
core b(g);
channel c(a, b, 64);
async void f() { %s }
async void g() {
    int x;
    for (int i = 0; i < %d; i = i + 1) Recv(c, &x);
    printf("%%d\\n", x);
}
"""
SENDS = "for (int i = 0; i < %d; i = i + 1) Send(c, i);"
FIRST = """async void f0() {
    int x;
    for (int i = 0; i < %d; i = i + 1) { Send(to%d, x + 1); Recv(to0, &x); }
    printf("%%d\\n", x);
}
"""
OTHER = """async void f%d() {
    int x;
    for (int i = 0; i < %d; i = i + 1) { Recv(to%d, &x); Send(to%d, x + 1); }
}
"""
RUST = """fn main() {
    let (to, from) = std::sync::mpsc::sync_channel::<i64>(64);
    let sender = std::thread::spawn(move || for i in 0..%d { to.send(i).unwrap(); });
    let mut last = 0;
    for _ in 0..%d { last = from.recv().unwrap(); }
    sender.join().unwrap();
    println!("{last}");
}
"""


# ---- the programs


def computing(cores, turns):
    return "".join(f"core c{k}(f{k});\n" + COMPUTING % (k, turns) for k in range(cores))


def stream(threads):
    sends = SENDS % (MESSAGES // threads)
    if threads > 1:
        sends = f"do {{ for (int t = 0; t < {threads}; t = t + 1) async {{ {sends} }} }} finish;"
    return STREAM % (sends, MESSAGES)


def ring(cores, hops):
    rounds, after = hops // cores, [(k + 1) % cores for k in range(cores)]
    text = "".join(f"core c{k}(f{k});\nchannel to{after[k]}(c{k}, c{after[k]}, 1);\n" for k in range(cores))
    return text + FIRST % (rounds, after[0]) + "".join(OTHER % (k, rounds, k, after[k]) for k in range(1, cores))


# The name of each program, its cores and its text.
PROGRAMS = {
    "one": (1, computing(1, 300_000)),
    "four": (4, computing(4, 300_000)),
    "sixteen": (16, computing(16, 20_832)),
    "stream": (2, stream(1)),
    "streams": (2, stream(THREADS)),
    **{f"ring {cores} {hops}": (cores, ring(cores, hops)) for cores in RINGS for hops in SIZES},
    "two": (1, (ROOT / "examples" / "two.ac").read_text()),
}


# ---- the times


class Times:
    """Of each name the words of its call, its times by the clock, what the run of the least of these took of the processors, and
    what it printed; and the names of those that took too long."""

    def __init__(self):
        self.words, self.all, self.used, self.late, self.printed = {}, {}, {}, set(), {}

    def least(self, name):
        return min(self.all[name])

    def median(self, name, other):
        """The median of the ratios of the rounds."""
        return statistics.median(one / two for one, two in zip(self.all[name], self.all[other]))

    def once(self, name, folder, one):
        """One run, in a new folder, on a single processor where that is asked for."""
        here = os.sched_getaffinity(0)
        if one:
            os.sched_setaffinity(0, {min(here)})
        with tempfile.TemporaryDirectory(dir=folder) as new, open(pathlib.Path(folder) / "printed", "w+b") as into:
            begin = time.perf_counter()
            child = subprocess.Popen(self.words[name], cwd=new, stdout=into, stderr=subprocess.DEVNULL)
            signal.signal(signal.SIGALRM, lambda *_: child.kill())
            signal.setitimer(signal.ITIMER_REAL, SECONDS)
            _, status, usage = os.wait4(child.pid, 0)
            taken = time.perf_counter() - begin
            signal.setitimer(signal.ITIMER_REAL, 0)
            child.returncode = os.waitstatus_to_exitcode(status)
            into.seek(0)
            printed = into.read()
        os.sched_setaffinity(0, here)
        if taken >= SECONDS:
            self.late.add(name)
        elif child.returncode != 0 or self.printed.setdefault(name, printed) != printed:
            sys.exit(f"{self.words[name]} ended with {child.returncode} and printed {printed[:400]!r}")
        self.all.setdefault(name, []).append(taken)
        if taken == self.least(name):
            self.used[name] = usage.ru_utime + usage.ru_stime

    def rounds(self, rounds, folder, one):
        for _ in range(rounds):
            for name in self.words:
                if name not in self.late:
                    self.once(name, folder, one)


def rusted(folder):
    """The program that sends by a `sync_channel`, or none where there is no compiler."""
    compiler, source = shutil.which("rustc"), pathlib.Path(folder) / "sync.rs"
    if compiler is None:
        return None
    source.write_text(RUST % (MESSAGES, MESSAGES))
    built = subprocess.run([compiler, "-O", "-o", str(source.with_suffix("")), str(source)], capture_output=True)
    return str(source.with_suffix("")) if built.returncode == 0 else None


def measured(programs, rounds, folder, one):
    """The times of all that is run, by the program (`new` and `old`) and the name."""
    times = Times()
    for name, (cores, text) in PROGRAMS.items():
        file = pathlib.Path(folder) / f"{name.replace(' ', '_')}.ac"
        file.write_text(text)
        for which, program in programs.items():
            times.words[which, name] = [program, "run", str(file), "--steps", str(min(2_000_000, 4_000_000 // cores))]
    for turns in (50, 500):
        for which, program in programs.items():
            times.words[which, f"load {turns}"] = [program, "load", str(turns)]
    if not one:
        times.words["old", "at once"] = ["sh", "-c", AT_ONCE, "sh", *times.words["old", "one"]]
    rust = None if one else rusted(folder)
    if rust:
        times.words["rust", "stream"] = [rust]
    times.rounds(rounds, folder, one)
    for which, name in times.words:
        if which == "new" and ("old", name) not in times.late and (which, name) not in times.late:
            if times.printed[which, name] != times.printed["old", name]:
                sys.exit(f"{name}: the two programs print\n{times.printed[which, name]!r}\n{times.printed['old', name]!r}")
    return times


# ---- what is printed


def row(times, what, name, other, goal):
    """One line: the two times, their ratio and its goal."""
    def one(key):
        late = " (ended)" if key in times.late else ""
        return f"{times.least(key) * 1000:.1f} ms of the clock and {times.used[key] * 1000:.1f} of the processors{late}"
    ratio = times.least(name) / times.least(other)
    aim = f"goal: at most {goal}, {'met' if ratio <= goal else 'missed'}" if goal else "no goal"
    median = f"median {times.median(name, other):.2f}"
    print(f"{what}: {ratio:.2f}, {median} ({aim})\n    {one(name)}, against {one(other)}", flush=True)


def against(times, what, name, goal):
    row(times, what, ("new", name), ("old", name), goal)


def table(times):
    row(times, "four cores that compute, against one", ("new", "four"), ("new", "one"), 1.2)
    row(times, "four processes with one such core each, against one", ("old", "at once"), ("old", "one"), None)
    against(times, "sixteen cores that compute, against the baseline", "sixteen", 0.35)
    for name, who in (("stream", "one thread"), ("streams", f"{THREADS} threads")):
        against(times, f"{MESSAGES:,} messages of {who}, against the baseline", name, 0.6)
        if ("rust", "stream") in times.words:
            row(times, f"{MESSAGES:,} messages of {who}, against a sync_channel", ("new", name), ("rust", "stream"), 1)
    for cores in RINGS:
        what = f"a ring of {cores}" if cores > 2 else "ping-pong"
        for hops in (size for size in SIZES if size != HOPS // 2):
            against(times, f"{what}, {hops:,} hops, against the baseline", f"ring {cores} {hops}", 3)
        row(times, f"{what}, {HOPS:,} hops against {HOPS // 2:,}", *(("new", f"ring {cores} {hops}") for hops in (HOPS, HOPS // 2)), 2.2)
    against(times, "two.ac, against the baseline", "two", 1.3)
    against(times, "load 500, against the baseline", "load 500", 3)
    seconds, start = times.least(("new", "load 500")), times.least(("new", "two"))
    print(f"load 500: {seconds:.2f} s (goal: less than 2 s)")
    print(f"its exponent from 50: {math.log10((seconds - start) / (times.least(('new', 'load 50')) - start)):.2f} (goal: at most 1.1)")


def table_of_one_processor(times):
    print("\non a single processor, all against the baseline there")
    for name in [name for which, name in times.words if which == "new"]:
        against(times, name, name, 3)


def main():
    if len(sys.argv) < 3:
        sys.exit(__doc__)
    programs = {"new": str(pathlib.Path(sys.argv[1]).resolve()), "old": str(pathlib.Path(sys.argv[2]).resolve())}
    rounds = int(sys.argv[3]) if len(sys.argv) > 3 else ROUNDS
    print(f"{len(os.sched_getaffinity(0))} processors, load {' '.join(f'{load:.1f}' for load in os.getloadavg())}")
    with tempfile.TemporaryDirectory() as folder:
        table(measured(programs, rounds, folder, False))
        table_of_one_processor(measured(programs, max(3, rounds // 2), folder, True))


if __name__ == "__main__":
    main()
