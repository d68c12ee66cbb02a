"""The text of a trace, written and read line by line, in two versions: the first where every message has one int, else the second.

A trace is the bound on steps, the files at the start, the entries of all parties in order, and of each core its word, its steps and
its output. Each line is read by splitting it at its blanks, and is right where what was read is spelled as the line is."""
from collections import namedtuple

from history import Entry

LIMIT = 268_435_456
WORDS = ("finished", "zero-divisor", "index", "stack-full", "output-full", "file-range", "out-of-steps", "stalled")
Trace = namedtuple("Trace", "steps start entries ends")


class WrongLine(Exception):
    """`args[0]` is the line, counted from 1."""


class Wrong(Exception):
    pass


# ---- spelling


def hexed(data):
    return data.hex() or "-"


def message(value, version):
    return f"ints {len(value)} {' '.join(map(str, value))}" if version == 2 else str(value[0])


def payload(value, version):
    if isinstance(value, list):
        return message(value, version) if version == 2 else f"int {message(value, version)}"
    kind, file, place, what = value
    return f"{kind} {file} {place} {what if kind == 'read' else hexed(what)}"


def answer(value):
    kind, what = value
    return f"{kind} {hexed(what) if kind == 'bytes' else what}"


def entry_line(e, version):
    parts = f"{e.stamp} {e.party} {e.turn} {e.event} {e.link} {e.number}"
    if e.event == "offer":
        return f"{parts} {payload(e.value, version)}"
    if e.event == "got":
        return f"{parts} {message(e.value, version)}"
    return f"{parts} {answer(e.value)}" if e.event in ("did", "reply") else parts


def end_line(core, end):
    word, steps, output = end
    return f"end {core} {word} {steps} {hexed(output)}"


def is_wide(e):
    return isinstance(e.value, list) and len(e.value) > 1


def version_of(entries):
    return 2 if any(map(is_wide, entries)) else 1


def lines(trace):
    version = version_of(trace.entries)
    yield f"ac-trace {version}"
    yield f"steps {trace.steps}"
    yield from (f"file {k} {hexed(held)}" for k, held in enumerate(trace.start))
    yield from (entry_line(e, version) for e in trace.entries)
    yield from (end_line(k, end) for k, end in enumerate(trace.ends))


def written(trace):
    return "".join(line + "\n" for line in lines(trace)).encode()


# ---- reading


def need(holds):
    if not holds:
        raise Wrong


def number(part, limit, least=0):
    need(part.isascii() and part.isdigit() and len(part) <= 20)
    need(least <= int(part) < limit)
    return int(part)


def value(part):
    n = number(part.removeprefix("-"), 1 << 64)
    n = -n if part.startswith("-") else n
    need(-(1 << 63) <= n < 1 << 63)
    return n


def data(part):
    if part == "-":
        return b""
    need(len(part) % 2 == 0 and part != "" and set(part) <= set("0123456789abcdef"))
    return bytes.fromhex(part)


def low(part):
    return number(part, 1 << 32)


def ints_of(parts):
    need(parts)
    count = number(parts[0], 17, 1)
    need(len(parts) == 1 + count)
    return [value(part) for part in parts[1:]]


def payload_of(kind, parts, version):
    if version == 2 and kind == "ints":
        return ints_of(parts)
    if version == 1 and kind == "int":
        need(len(parts) == 1)
        return [value(parts[0])]
    need(kind in ("read", "write") and len(parts) == 3)
    return kind, low(parts[0]), low(parts[1]), low(parts[2]) if kind == "read" else data(parts[2])


def answer_of(kind, parts):
    need(kind in ("bytes", "count", "fault") and len(parts) == 1)
    return kind, data(parts[0]) if kind == "bytes" else low(parts[0])


def entry_of(parts, version):
    need(len(parts) >= 6)
    stamp, party, turn, event, link, offer, *rest = parts
    if event in ("offer", "did", "reply"):
        need(rest)
        told = payload_of(rest[0], rest[1:], version) if event == "offer" else answer_of(rest[0], rest[1:])
    elif event == "got" and version == 2:
        need(rest and rest[0] == "ints")
        told = ints_of(rest[1:])
    elif event == "got":
        need(len(rest) == 1)
        told = [value(rest[0])]
    else:
        need(event in ("withdraw", "know", "room", "pass") and not rest)
        told = None
    return Entry(number(stamp, 1 << 60, 1), low(party), number(turn, 1 << 64), event, low(link), number(offer, 1 << 64), told)


def end_of(parts, core):
    need(len(parts) == 5 and number(parts[1], 1 << 32) == core and parts[2] in WORDS)
    return parts[2], number(parts[3], 1 << 64), data(parts[4])


def read(text):
    """The trace that the text spells; raises WrongLine at its first line that is not as said, or at its first where a text of the
    second version has no need of it."""
    version, steps, start, entries, ends = 1, None, [], [], []
    *whole, broken = text.split(b"\n")
    for at, line in enumerate(whole):
        try:
            line = line.decode("latin-1")
            parts = line.split(" ")
            if at == 0:
                version = 2 if line == "ac-trace 2" else 1
                spelled = f"ac-trace {version}"
            elif at == 1:
                need(parts[0] == "steps" and len(parts) == 2)
                steps = number(parts[1], 2_000_001, 1)
                spelled = f"steps {steps}"
            elif parts[0] == "end":
                ends.append(end_of(parts, len(ends)))
                spelled = end_line(len(ends) - 1, ends[-1])
            elif parts[0] == "file":
                need(not entries and not ends and len(parts) == 3 and low(parts[1]) == len(start))
                start.append(data(parts[2]))
                spelled = f"file {len(start) - 1} {hexed(start[-1])}"
            else:
                need(not ends)
                entries.append(entry_of(parts, version))
                spelled = entry_line(entries[-1], version)
            need(line == spelled)
        except Wrong:
            raise WrongLine(at + 1) from None
    if broken or not ends:
        raise WrongLine(len(whole) + 1)
    if version != version_of(entries):
        raise WrongLine(1)
    return Trace(steps, start, entries, ends)
