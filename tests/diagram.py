"""The tests of tools/ac-diagram: each trace of diagram/ has the picture beside it, to the byte; a run of a thousand
entries is drawn as the range of its stamps that is asked for; a text that is no trace is refused at its first wrong
line; with a program the names and lines are those of its text; cuts and the causal order are those of small runs, worked
out by hand, and of random ones, where the order is computed the slow way; and a page loads nothing, and does in a browser
what it says, where chromium is installed.

Run from anywhere: python3 tests/diagram.py. It ends with `N passed, M failed`; the status is 0 only where none failed.
"""
import importlib.machinery
import importlib.util
import json
import re
import shutil
import subprocess
import sys
import tempfile
from pathlib import Path

ROOT = Path(__file__).resolve().parent.parent
TOOL = ROOT / "tools" / "ac-diagram"
FOLDER = ROOT / "tests" / "diagram"
sys.path.insert(0, str(ROOT / "bench" / "slow"))
import races  # noqa: E402
import report as slow  # noqa: E402
import traces  # noqa: E402
passed, failed = 0, []


def drawn(*words):
    """The status of the tool, and what it writes to standard output and to standard error."""
    done = subprocess.run([sys.executable, str(TOOL), *map(str, words)], capture_output=True, timeout=60)
    return done.returncode, done.stdout.decode(), done.stderr.decode()


def check(name, seen, wanted):
    global passed
    if seen == wanted:
        passed += 1
    else:
        failed.append(name)
        print(f"{name}: wanted\n{wanted}\ncame\n{seen}")


def lines(*body):
    return "".join(line + "\n" for line in ("ac-trace 1", "steps 100000", *body))


def messages(count):
    """A run in which so many messages go from core 0 to core 1, one after the other: three entries each."""
    body = []
    for k in range(count):
        body.append(f"{3 * k + 1} 0 {k + 1} offer 0 {k} int {k}")
        body.append(f"{3 * k + 2} 1 {k + 1} got 0 {k} {k}")
        body.append(f"{3 * k + 3} 0 {k + 1} know 0 {k}")
    return lines(*body, "end 0 finished 9 -", "end 1 finished 9 -")


def labels(picture):
    """The labels of the entries that are drawn, in their order."""
    return re.findall(r'class="halo[^"]*">([^<]*)<', picture)


# Each with the first line that is wrong.
WRONG = [
    ("", 1),
    ("ac-trace 3\n", 1),
    ("ac-trace 2\n", 2),
    ("ac-trace 1\nsteps 0\nend 0 finished 1 -\n", 2),
    ("ac-trace 1\nsteps 2000001\nend 0 finished 1 -\n", 2),
    (lines(), 3),
    (lines("end 0 finished 1 -")[:-1], 3),
    (lines("end 0 finished 1 -", "end 2 finished 1 -"), 4),
    (lines("end 0 finished 1 -", "1 0 1 know 0 0"), 4),
    (lines("end 0 ended 1 -"), 3),
    (lines("file 1 -", "end 0 finished 1 -"), 3),
    (lines("file 0 0A", "end 0 finished 1 -"), 3),
    (lines("file 0 350", "end 0 finished 1 -"), 3),
    (lines("1 0 1 know 0 0", "file 0 -", "end 0 finished 1 -"), 4),
    (lines("01 0 1 know 0 0", "end 0 finished 1 -"), 3),
    (lines("0 0 1 know 0 0", "end 0 finished 1 -"), 3),
    (lines("1152921504606846976 0 1 know 0 0", "end 0 finished 1 -"), 3),
    (lines("1 0 1 know 4294967296 0", "end 0 finished 1 -"), 3),
    (lines("1 0 1 know 0 18446744073709551616", "end 0 finished 1 -"), 3),
    (lines("1 0 1 got 0 0 -0", "end 0 finished 1 -"), 3),
    (lines("1 0 1 got 0 0 9223372036854775808", "end 0 finished 1 -"), 3),
    (lines("1 0 1 did 0 0 count 4294967296", "end 0 finished 1 -"), 3),
    (lines("1  0 1 know 0 0", "end 0 finished 1 -"), 3),
    (lines("1 0 1 know 0 0 ", "end 0 finished 1 -"), 3),
    (lines("1 0 1 know 0 0\r", "end 0 finished 1 -"), 3),
    (lines("1 0 1 offer 0 0 int 5", "2 1 1 got"), 4),
]


# ---- with a program

# Two cores that send and receive at once. The trace is a run of it: each has offered before it gets the other's message.
SWAP = """core a(f); core b(g); channel c(a, b, 1); channel d(b, a, 1);
async void f() {
    int x;
    do {
        async Recv(d, &x);
        Send(c, 5);
    } finish;
}
async void g() { int y; do { async Recv(c, &y); Send(d, 6); } finish; }
"""
SWAP_TRACE = lines(
    "1 0 2 offer 0 0 int 5", "1 1 2 offer 1 0 int 6", "2 0 2 got 1 0 6", "2 1 2 got 0 0 5", "3 0 2 know 0 0", "3 1 2 know 1 0",
    "end 0 finished 6 -", "end 1 finished 6 -",
)
SWAP_LABELS = [
    "0: offer c.0 = 5, line 6", "1: offer d.0 = 6, line 9", "2: got d.0 = 6, line 5", "3: got c.0 = 5, line 9", "4: know c.0, line 6",
    "5: know d.0, line 9",
]
# The first write is called off before the worker has begun it, and the second is done: the requests of a core have its name.
FILES = """core a(f);
file log("log.dat");
async void f() {
    int v[2];
    t: do {
        async Write(log, 0, 1, v);
        cancel t;
    } finish;
    Write(log, 7, 2, v);
}
"""
FILES_TRACE = lines(
    "file 0 -", "1 0 1 offer 0 0 write 0 0 00", "2 0 2 withdraw 0 0", "3 0 4 offer 0 1 write 0 7 0000", "3 1 0 pass 0 0",
    "4 0 4 room 0 0", "4 1 0 did 0 1 count 2", "5 0 4 know 0 1", "6 0 4 reply 0 1 count 2", "end 0 finished 7 -",
)
FILES_LABELS = [
    "0: offer a.0 write log at 0, 1 byte, line 6", "1: withdraw a.0, line 6 (cancel, line 7)",
    "2: offer a.1 write log at 7, 2 bytes, line 9", "3: pass a.0, line 6", "4: room a.0, line 6", "5: did a.1 count 2, line 9",
    "6: know a.1, line 9", "7: reply a.1 count 2, line 9",
]
RACE = ROOT / "examples" / "race.ac", ROOT / "docs" / "race.trace"
RACE_LABELS = [
    "0: offer request.0 = 42, line 11", "1: offer time.0 = 1, line 26", "2: got time.0 = 1, line 12", "3: got request.0 = 42, line 21",
    "4: know request.0, line 11 (cancel, line 13)", "5: know time.0, line 26",
]


def notes(picture):
    """What stands above the diagram."""
    return re.findall(r'class="note">([^<]*)<', picture)


def points(picture, kind):
    """The points of the line of this class, or nothing."""
    found = re.search(rf'<polyline points="([^"]*)" class="{kind}"/>', picture)
    return found and [tuple(map(int, point.split(","))) for point in found.group(1).split(" ")]


def marks(picture):
    """Where the marks of the entries stand."""
    return [(int(x), int(y)) for x, y in re.findall(r'<circle cx="(\d+)" cy="(\d+)" r="5"', picture)]


def with_names(folder):
    swap, trace = folder / "swap.ac", folder / "swap.trace"
    swap.write_text(SWAP)
    trace.write_text(SWAP_TRACE)
    status, picture, said = drawn(swap, trace)
    check("names of channels, and lines", (status, said, labels(picture)), (0, "", SWAP_LABELS))
    check("names of cores", re.findall(r'class="name">([^<]*)<', picture), ["a", "b"])
    (folder / "files.ac").write_text(FILES)
    (folder / "files.trace").write_text(FILES_TRACE)
    status, picture, _ = drawn(folder / "files.ac", folder / "files.trace")
    check("names of files, and a cancel", (status, labels(picture)), (0, FILES_LABELS))
    check("the worker has its own name", re.findall(r'class="name">([^<]*)<', picture), ["a", "files"])
    check("the picture of the README", drawn(*RACE), (0, (ROOT / "docs" / "race.svg").read_text(), ""))
    check("a cancel that loses its race", labels(drawn(*RACE)[1]), RACE_LABELS)
    return swap, trace


def refusals(folder, swap, trace):
    other = folder / "other.ac"
    other.write_text(SWAP.replace("Send(c, 5)", "Send(c, 7)"))
    check("a trace of another program", drawn(other, trace), (13, "", f"ac-diagram: {other}: no at 0\n"))
    other.write_text(SWAP.replace("finish;\n}", "finish; ;\n}"))
    check("a trace that ends otherwise", drawn(other, trace), (13, "", f"ac-diagram: {other}: no at end\n"))
    other.write_text(SWAP.replace("int x;", "int y;"))
    check("a program that is refused", drawn(other, trace), (3, "", f"ac-diagram: {other}: rule C2 at 122\n"))
    check("no such program", drawn(folder / "none.ac", trace)[0], 7)
    check("no such entry", drawn("--order", 0, 6, trace), (16, "", "ac-diagram: no entry 6\n"))
    check("of two that are not there the first is told", drawn("--order", 8, 7, trace), (16, "", "ac-diagram: no entry 8\n"))
    for counts in "4,0,0", "1,1", "1,1,0,0", "0,0,1":
        check(f"no cut {counts}", drawn("--cut", counts, trace), (18, "", "ac-diagram: no such cut\n"))


def orders(swap, trace):
    wanted = ((0, 1, "0 concurrent 1"), (0, 3, "0 before 3: 0, 3"), (4, 3, "4 after 3: 3, 4"), (0, 5, "0 before 5: 0, 2, 5"),
              (2, 2, "2 same 2"))
    for i, j, note in wanted:
        status, picture, _ = drawn("--order", i, j, swap, trace)
        check(f"order {i} {j}", (status, notes(picture)[1:]), (0, [note]))
    picture = drawn("--order", 0, 5, swap, trace)[1]
    at = marks(picture)
    check("the chain leads from mark to mark", points(picture, "chain"), [at[0], at[2], at[5]])
    check("the two entries have rings", re.findall(r'<circle cx="(\d+)" cy="(\d+)" r="8" class="chosen"/>', picture),
          [tuple(map(str, at[k])) for k in (0, 5)])
    picture = drawn("--order", 0, 1, swap, trace)[1]
    check("no chain where two are concurrent", points(picture, "chain"), None)
    check("without a program entries have their numbers", labels(drawn("--order", 0, 1, trace)[1])[3], "3: got 0.0 = 5")


def cuts(swap, trace):
    status, picture, _ = drawn("--cut", "1,1,0", swap, trace)
    at = marks(picture)
    check("a closed cut", (status, notes(picture)[1:]), (0, ["cut 1,1,0: closed"]))
    check("how far the cores are at a cut", re.findall(r'class="stands">([^<]*)<', picture),
          ["stalled after 5 steps, line 5, 6", "stalled after 5 steps, line 9"])
    # A row has 30, and the cut is half of it below the last mark that is inside.
    check("a cut is behind its last entries", points(picture, "closed")[1:3], [(x, y + 15) for x, y in at[:2]])
    status, picture, _ = drawn("--cut", "2,0,0", swap, trace)
    at = marks(picture)
    check("an open cut", (status, notes(picture)[1:], points(picture, "closed")), (0, ["cut 2,0,0: open at 1"], None))
    check("an open cut is behind its last entries", [y for _, y in points(picture, "torn")[1:3]], [at[2][1] + 15, at[0][1] - 15])
    rings = re.findall(r'cx="(\d+)" cy="(\d+)" r="8" class="ring"/>', picture)
    check("the entry that is missing has a ring", rings, [tuple(map(str, at[1]))])
    check("the whole run is closed", notes(drawn("--cut", "3,3,0", trace)[1])[1:], ["cut 3,3,0: closed"])


# ---- the order of random runs, the slow way


def tool():
    """ac-diagram as a module."""
    loader = importlib.machinery.SourceFileLoader("ac_diagram", str(TOOL))
    module = importlib.util.module_from_spec(importlib.util.spec_from_loader("ac_diagram", loader))
    loader.exec_module(module)
    return module


ANSWERS = {("offer", "got"), ("offer", "did"), ("withdraw", "pass"), ("got", "know"), ("did", "know"), ("did", "reply"), ("pass", "room")}


def answers(first, second):
    """Whether the second entry answers the first: its event does, of the same offer, as docs/LANGUAGE.md says."""
    return (first.event, second.event) in ANSWERS and (first.link, first.number) == (second.link, second.number)


def hops(entries):
    """From each pair of entries of which one was before the other the fewest steps between them, by trying all ways."""
    n = len(entries)
    direct = [[j for j in range(i + 1, n) if entries[i].party == entries[j].party or answers(entries[i], entries[j])] for i in range(n)]
    found = {}
    for i in range(n):
        front, steps = {i}, 0
        while front:
            found.update({(i, j): steps for j in front})
            front, steps = {k for j in front for k in direct[j] if (i, k) not in found}, steps + 1
    return direct, found


def some_runs():
    """Runs of random programs whose cores race, and of small programs with a withdrawn offer."""
    for seed in range(12):
        text, steps = races.program(seed, (2, 4)[seed % 2])
        run = slow.deep(lambda: slow.trace(text.encode(), steps, seed, seed % 4 < 2))[1]
        if 6 <= len(run.entries) <= 90:
            yield seed, run
    yield "files", traces.read(FILES_TRACE.encode())
    for path in sorted(FOLDER.glob("*.trace")):
        yield path.stem, traces.read(path.read_bytes())


def wrong_orders(name, run, causes):
    """The pairs whose order or chain is another than that which is computed the slow way."""
    direct, found = hops(run.entries)
    for i in range(len(run.entries)):
        for j in range(len(run.entries)):
            wanted = "same" if i == j else "before" if (i, j) in found else "after" if (j, i) in found else "concurrent"
            answer, chain = causes.order(i, j)
            links = all(b in direct[a] for a, b in zip(chain, chain[1:]))
            ends = [] if wanted == "concurrent" else [min(i, j), max(i, j)]
            length = found.get((min(i, j), max(i, j)), -1) + 1
            if answer != wanted or not links or len(chain) != length or chain[:1] + chain[-1:] != ends:
                yield name, i, j, answer, chain


def orders_of_runs():
    """Pairs, chains and cuts of some runs: what differs from the order that is computed the slow way."""
    module, wrong, tried, open_ones = tool(), [], 0, 0
    for name, run in some_runs():
        trace = module.Trace(traces.written(run).decode())
        causes = module.Causes(trace.entries)
        wrong += wrong_orders(name, run, causes)
        tried += len(run.entries) ** 2
        for counts in some_counts(run, len(run.entries)):
            wanted = open_at(run.entries, counts)
            open_ones += wanted is not None
            if module.Cut(trace, causes, counts).open_at != wanted:
                wrong.append((name, counts, wanted))
    check("orders and cuts of random runs", (wrong[:3], tried > 1_000, open_ones > 20), ([], True, True))


def some_counts(run, seed):
    """Cuts of a run: each has some share of the entries of each party."""
    made = [sum(e.party == party for e in run.entries) for party in range(len(run.ends) + 1)]
    for k in range(40):
        yield [(most * ((seed + 7 * k + 3 * party * k) % 11)) // 10 if most else 0 for party, most in enumerate(made)]


def open_at(entries, counts):
    """The least entry outside that an entry inside answers, or None."""
    seen, inside = {}, []
    for e in entries:
        seen[e.party] = seen.get(e.party, 0) + 1
        inside.append(seen[e.party] <= counts[e.party])
    least = [i for i in range(len(entries)) for j in range(len(entries)) if inside[j] and not inside[i] and answers(entries[i], entries[j])]
    return min(least, default=None)


# ---- pages


def page_data(page):
    return json.loads(re.search(r"<script>const data = (.*?);\n'use strict'", page, re.S).group(1))


def pages(folder):
    status, page, said = drawn("--html", *RACE)
    check("a page", (status, said, page.count("<svg "), page.count("<script>")), (0, "", 1, 1))
    loads = re.findall(r"""\b(?:src|href|action|data)=|url\((?!#head\d\))|@import|\bimport\b|fetch\(|XMLHttp"""
                       r"""|https?:(?!//www\.w3\.org/2000/svg")""", page)
    check("a page loads nothing", loads, [])
    check("and forbids it", "default-src 'none'; style-src 'unsafe-inline'; script-src 'unsafe-inline'" in page, True)
    data = page_data(page)
    check("what a page knows of entries", [(e["label"], e["line"], e["previous"], e["answers"]) for e in data["entries"]],
          list(zip(RACE_LABELS, (11, 26, 12, 21, 11, 26), (None, None, 0, None, 2, 1), (None, None, 1, 0, 3, 2))))
    check("a page has the program", data["source"], RACE[0].read_text().splitlines())
    tricky = folder / "tricky.ac"
    tricky.write_text('core a(f); async void f() { printf("</script><b>"); } // &amp;\n')
    trace = folder / "tricky.trace"
    trace.write_text(lines("end 0 finished 1 3c2f7363726970743e3c623e"))
    page = drawn("--html", tricky, trace)[1]
    check("a program that looks like a page", (page.count("</script>"), page_data(page)["source"][0]), (1, tricky.read_text()[:-1]))
    in_browser(folder)


# What is done with the page of the race, and is seen then: by hand from its trace.
BROWSER = """
const seen = [], text = () => document.getElementById('told').textContent;
const event = (name, on) => on.dispatchEvent(new Event(name, {bubbles: name === 'input'}));
const classes = () => entries.map(e => (document.getElementById('e' + e.place).getAttribute('class') + ' ').split(' ')[1]);
const hidden = () => entries.filter(e => document.getElementById('e' + e.place).classList.contains('left-out')).map(e => e.place);
seen.push(text().split('\\n')[0].slice(0, 14));
event('mouseenter', document.getElementById('e4'));
seen.push(classes(), text().split('\\n'), document.querySelector('#source .here b').textContent);
event('mouseleave', document.getElementById('e4'));
seen.push(classes());
event('click', document.getElementById('e0'));
event('mouseenter', document.getElementById('e5'));
seen.push(text().split('\\n').pop());
event('mouseenter', document.getElementById('e3'));
seen.push(text().split('\\n').pop());
event('mouseleave', document.getElementById('e3'));
event('click', document.getElementById('e0'));
const boxes = Object.fromEntries([...form.querySelectorAll('[type=checkbox]')].map(box => [box.value, box]));
boxes.server.checked = false;
event('input', boxes.server);
seen.push(hidden(), document.querySelectorAll('#picture line.left-out').length, document.getElementById('count').textContent);
boxes.server.checked = true;
form.elements.words.value = 'know line 11';
event('input', form.elements.words);
seen.push(hidden());
document.body.innerHTML = '<pre id="seen"></pre>';
document.getElementById('seen').textContent = JSON.stringify(seen);
"""
SEEN = [
    "Point at an en",
    ["past", "past", "past", "past", "here", "beside"],
    ["4: know request.0, line 11 (cancel, line 13)", "client, stamp 3, turn 3, answers entry 3", "line 11: async sent = Send(request, 42);",
     "4 before it, 0 after it, 1 concurrent with it"],
    "11",
    ["", "", "", "", "", ""],
    "0 before 5",
    "0 before 3",
    [3], 2, "5 of 6 entries",
    [0, 1, 2, 3, 5],
]


def in_browser(folder):
    browser = shutil.which("chromium")
    if browser is None:
        print("diagram: chromium is not installed, and looked at no page")
        return
    page = folder / "page.html"
    page.write_text(drawn("--html", *RACE)[1].replace("</script>\n</body>", f"{BROWSER}</script>\n</body>"))
    words = ["--headless", "--no-sandbox", "--disable-gpu", "--disable-dev-shm-usage", f"--user-data-dir={folder}/browser", "--dump-dom"]
    try:
        shown = subprocess.run([browser, *words, page.as_uri()], stdout=subprocess.PIPE, stderr=subprocess.DEVNULL, timeout=600).stdout
    except subprocess.TimeoutExpired:
        shown = b""
    found = re.search(r'<pre id="seen">(.*?)</pre>', shown.decode(), re.S)
    check("a page in a browser", found and json.loads(found.group(1).replace("&lt;", "<").replace("&gt;", ">").replace("&amp;", "&")), SEEN)


def main():
    for trace in sorted(FOLDER.glob("*.trace")):
        check(trace.stem, drawn(trace), (0, trace.with_suffix(".svg").read_text(), ""))
    with tempfile.TemporaryDirectory() as folder:
        path = Path(folder) / "run.trace"
        path.write_text(messages(334))
        status, picture, _ = drawn(path)
        check("a long run begins with its first hundred stamps",
              (status, len(labels(picture)), labels(picture)[-1]), (0, 100, "offer 0.33 = 33"))
        check("a long run says what it shows", "stamps 1 to 100 of 1 to 1002;" in picture, True)
        check("a long run has no ends in the middle", "finished" in picture, False)
        status, picture, _ = drawn("--from=1000", path)
        check("the end of a long run", (status, labels(picture), picture.count("finished")),
              (0, ["offer 0.333 = 333", "got 0.333 = 333", "know 0.333"], 2))
        status, picture, _ = drawn("--from=5", "--to=6", path)
        check("two stamps of a long run", (status, labels(picture)), (0, ["got 0.1 = 1", "know 0.1"]))
        status, picture, _ = drawn("--from=2000", path)
        check("no stamp of a long run", (status, labels(picture), "no stamp of 1 to 1002" in picture), (0, [], True))
        for text, line in WRONG:
            path.write_bytes(text.encode())
            check(f"line {line} of {text!r}", drawn(path), (14, "", f"ac-diagram: trace fault at line {line}\n"))
        check("no such file", drawn(Path(folder) / "none")[0], 7)
        swap, trace = with_names(Path(folder))
        refusals(Path(folder), swap, trace)
        orders(swap, trace)
        cuts(swap, trace)
        orders_of_runs()
        pages(Path(folder))
    usage = (1, "", "usage: ac-diagram [--html] [--from=STAMP] [--to=STAMP] [--cut COUNTS] [--order I J] [FILE.ac] FILE.trace\n")
    for words in ([], ["a", "b", "c"], ["--from=x", "a"], ["-x"], ["--order", "0", "a"], ["--order", "00", "1", "a"],
                  ["--cut", "1,,0", "a"], ["a", "--cut"], ["--order", "1234567890", "0", "a"]):
        check(f"words {words}", drawn(*words), usage)
    print(f"{passed} passed, {len(failed)} failed")
    return 1 if failed else 0


if __name__ == "__main__":
    sys.exit(main())
