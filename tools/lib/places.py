"""Where in its text a program was: at each entry of a trace, and at the end of each core.

The code goes through the journals of the trace, as the tree does in an audit. Places count the bytes of the text from 0."""
import re
from collections import Counter, namedtuple

import rules
import tokens_and_trees as lang
from code_of_trees import CodeCore, Compiled, around
from cores import capacities, replay, widths
from history import FILE, Illegal, Links, unrest

LONGEST, FILES = 40, 16
# Where a thread stands, or where its core ended: the place, what stands there, why it goes no further, the places of the calls in
# which it stands, the innermost first, and how many threads are there.
Standing = namedtuple("Standing", "at what why calls threads")


class Misfit(Exception):
    """`args[0]` is the least entry of the trace that does not fit its core."""


def spelled(text, node):
    """An operation as it stands in the text, on one line, without comments."""
    part = re.sub(rb"/\*.*?\*/|//[^\n]*", b" ", text[node.at:node.end], flags=re.S)
    line = " ".join(part.decode("latin-1").split())
    return line if len(line) <= LONGEST else line[:LONGEST - 2] + ".."


def counted(number, what):
    return f"{number} {what}" if number == 1 else f"{number} {what}s"


class Followed:
    """A program under the journals of a trace. `operations` has for each entry the part of the text whose operation it is about, and
    `cancels` the `cancel` that asked for it, where one did."""

    def __init__(self, text, trace):
        self.text, self.trace = text, trace
        program = rules.refusal(text, trace.steps)
        self.names = lang.Names(program)
        self.compiled = Compiled(self.names, program)
        self.operations, self.cancels = [None] * len(trace.entries), [None] * len(trace.entries)
        self.offered = {}
        taken, self.cores = self.legal(trace), []
        least = taken
        for item in self.names.cores:
            try:
                self.cores.append(self.core(item, taken))
            except Misfit as misfit:
                least = min(least, misfit.args[0])
        if least < len(trace.entries):
            raise Misfit(least)
        for place, e in enumerate(trace.entries):
            self.operations[place] = self.operations[place] or self.offered[e.link, e.number]

    def legal(self, trace):
        """How many entries the links, the stamps and the files take; `links` are those after them."""
        files = list(trace.start) + [b""] * (FILES - len(trace.start))
        after, taken = Links(capacities(self.names), widths(self.names), len(self.names.cores), files), 0
        self.links = after.links
        for e in trace.entries:
            try:
                after.take(e)
            except Illegal:
                break
            taken += 1
        return taken

    def core(self, item, taken, count=None):
        """The core of this item after so many of its entries, or after all, of so many of the trace that are taken."""
        core = CodeCore(self.compiled, self.names, item, self.trace.steps)
        entries = self.trace.entries[:taken]
        places = [place for place, e in enumerate(entries) if e.party == item.number][:count]

        def sees(at, e, asked):
            node = self.operation(core, e)
            self.operations[places[at]] = node
            if e.event == "offer":
                self.offered[e.link, e.number] = node
            if asked:
                self.cancels[places[at]] = self.compiled.nodes[core.stood[1]]

        first = replay(core, [entries[place] for place in places], sees)
        if first is not None:
            raise Misfit(places[first])
        return core

    def operation(self, core, e):
        """The operation that an entry is about, as it comes in; that of a `room` has ended before."""
        if e.event == "offer":
            waiting = core.sends[e.link][0]
        elif e.event in ("know", "withdraw"):
            waiting = core.offers[e.link, e.number]
        elif e.event == "reply":
            waiting = core.begun[e.link, e.number]
        elif e.event in ("got", "pass"):
            waiting = core.receives[e.link][0]
        else:
            return None
        return self.node(waiting[1])

    def node(self, thread):
        """What a thread that waits stands at."""
        return self.compiled.nodes[thread.pc - 1]

    def is_told(self):
        """Whether the run is over, and the cores have come to the ends that the trace tells, with files as the program has them."""
        start = self.trace.start
        files = len(start) == len(self.names.files) and all(len(held) <= FILE for held in start)
        ends = [core.end()[:3] for core in self.cores] == list(self.trace.ends)
        return files and ends and unrest(self.cores, self.names, self.links) is None

    def cut(self, counts):
        """The cores after so many entries of each."""
        return [self.core(item, len(self.trace.entries), count) for item, count in zip(self.names.cores, counts)]

    # ---- where a core stands

    def standing(self, number, cores=None):
        """Where the core of this number ended, or where each of its threads waits."""
        cores = cores or self.cores
        core = cores[number]
        if core.word == "finished":
            return []
        if core.stood is None and core.word == "stack-full":
            item = self.names.cores[number]
            return [Standing(item.at, "", "the variables of the top level and the first frame have no room", (), 1)]
        if core.word is not None:
            thread, instruction = core.stood
            return [Standing(self.compiled.nodes[instruction].at, "", self.cause(core, instruction), self.calls(thread), 1)]
        found = Counter(self.waits(core, cores))
        return sorted(Standing(*one, count) for one, count in found.items())

    def calls(self, thread):
        return tuple(self.compiled.nodes[after - 1].at for after, _ in reversed(thread.callers))

    def cause(self, core, instruction):
        """Why a core ended at this instruction."""
        name, word = self.compiled.c[instruction][0], core.word
        if word == "stalled":
            return "it is not known whether what is called off was taken"
        if word == "out-of-steps":
            return f"no step is left for this after {counted(core.steps, 'step')}"
        if word == "zero-divisor":
            return f"the right side of {'/' if name == 'Div' else '%'} is 0"
        if word == "index":
            index, length = core.told
            return f"the index is {index}, and the array has {counted(length, 'element')}"
        if word == "file-range":
            return range_cause(*core.told)
        if word == "stack-full":
            return f"the frame of this {'call' if name == 'Call' else 'thread'} has no room among 4,194,304 words"
        return "with this text the output has more than 4,194,304 bytes"

    def waits(self, core, cores):
        """For each thread that waits where it stands, what it waits for, and its calls."""
        waiting = [(o[1], self.why(cores, core, link, False, True)) for link, queue in enumerate(core.receives) for o in queue]
        waiting += [(o[1], self.why(cores, core, link, False)) for link, queue in enumerate(core.sends) for o in queue]
        waiting += [(o[1], self.why(cores, core, link, True)) for (link, _), o in core.offers.items()]
        waiting += [(o[1], "its answer has not come") for o in core.begun.values()]
        blocks = {block for thread, _ in waiting for block in around(thread.home) if block.owner is not None}
        within = Counter(block for block in blocks for thread, _ in waiting if block in around(thread.home))
        within.update(block for block in blocks for other in blocks if block in around(other.owner.home))
        for thread, why in waiting:
            node = self.node(thread)
            yield node.at, spelled(self.text, node), why, self.calls(thread)
        for block in blocks:
            why = "a thread of its do waits" if within[block] == 1 else f"{within[block]} threads of its do wait"
            yield self.node(block.owner).at, "finish", why, self.calls(block.owner)

    def why(self, cores, core, link, is_offered, receives=False):
        """Why a send, a receive or a request of this link goes no further."""
        if link >= len(self.names.channels):
            return "the file worker has not done it"
        channel = self.names.channels[link]
        other = channel.sender if receives else channel.receiver
        name, word = self.names.cores[other].name, cores[other].word
        if word is None:
            said = f"nobody {'sends' if receives else 'receives'} any more, core {name} waits too"
        else:
            said = f"core {name} " + {"finished": "has ended", "out-of-steps": "was out of steps"}.get(word, f"has ended by {word}")
        return said if receives or is_offered else f"no room in {channel.name}: {said}"


def range_cause(place, length, elements):
    """What is wrong with the range of a read or a write."""
    if place < 0:
        return f"the place is {place}"
    if length < 0:
        return f"the length is {length}"
    if length > 256:
        return f"the length is {length}, and over 256"
    if length > elements:
        return f"the length is {length}, and the array has {counted(elements, 'element')}"
    return f"place {place} and length {length} end past 1,048,576"


def functions_at(text, at):
    """The function in which a place stands, and the function that a core enters whose item stands there, or `main` for the place of
    the whole program; None for each that is not there."""
    program = lang.parse(text)
    top = {item.name: item for item in reversed(program.items)}
    function = next((item for item in reversed(program.items) if item.at <= at), None)
    core = next((item for item in program.items if item.kind == "Core" and item.at == at), None)
    entry = top.get(core.entry if core else "main")
    return [item if item is not None and item.kind == "Function" else None for item in (function, entry)]
