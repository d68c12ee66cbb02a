"""A run of several cores and the file worker in an order that a seed picks, and its checks.

At a dispatch point of a core any arrival may come that its links allow, and then the front of its ready list runs; which core is
next is free too. The run is over where nothing can come and no thread is ready. What came is the journal of each core.
"""
import random
from collections import Counter

from code_of_trees import CodeCore, Compiled
from disk import Disk
from history import Entry, Illegal, Offer, front, legal, merged, room, unrest
from source import Cut, TreeCore


class Difference(AssertionError):
    pass


class Order:
    """Which core is next, and what comes to it: each is weighed by the seed, so that some come as early, others as late as can be.

    Where it `polls`, it is an order of `ac`: at each dispatch point every link of the core is looked at once for an arrival and
    tried once for an offer, and only then a thread goes on."""

    def __init__(self, seed, cores, polls=False):
        self.random = random.Random(seed)
        weigh = [1] if seed == 0 else [1, 1, 30, 1000]
        self.cores = [self.random.choice(weigh) for _ in range(cores + 1)]
        self.kinds = {kind: self.random.choice(weigh) for kind in ("offer", "know", "room", "got", "pass", "go", "reply")}
        self.polls = polls

    def core(self, able):
        return self.random.choices(able, [self.cores[k] for k in able])[0]

    def move(self, moves):
        return self.random.choices(moves, [self.kinds[m[0]] for m in moves])[0]

    def shuffled(self, links):
        links = list(links)
        self.random.shuffle(links)
        return links


def comes(core, e):
    """The entry comes to the core."""
    if e.event == "offer":
        core.offer(e.link, e.number)
    elif e.event == "know":
        core.know(e.link, e.number)
    elif e.event == "got":
        core.got(e.link, e.value)
    elif e.event == "reply":
        core.reply(e.link, e.number, e.value)


def capacities(names):
    """Of the channels, and after them of the requests of each core."""
    return [c.cap for c in names.channels] + [16 for _ in names.cores]


def widths(names):
    """How many ints a message of each channel has."""
    return [c.width for c in names.channels]


class Run:
    """Cores, the file worker and the links between them; the journal of a core has an entry for each arrival, and the last journal is
    the worker's, with an entry for each request that it has done or passed over."""

    def __init__(self, names, cores, order, disk):
        self.names, self.cores, self.order, self.disk = names, cores, order, disk
        self.caps = capacities(names)
        self.channels, self.worker = len(names.channels), len(cores)
        self.links = [[] for _ in self.caps]
        self.journals = [[] for _ in range(len(cores) + 1)]
        self.sends = [[c.number for c in names.channels if c.sender == k] + [self.channels + k] for k in range(len(cores))]
        self.receives = [[c.number for c in names.channels if c.receiver == k] for k in range(len(cores))]
        for k, core in enumerate(cores):
            core.outcome = lambda link, number, k=k: self.withdraws(k, link, number)

    def offers(self, k, link):
        there = self.cores[k].to_offer(link) is not None and room(self.caps[link], self.links[link])
        return [("offer", link, len(self.links[link]))] if there else []

    def knows(self, link):
        return [("know" if o.passed is None else "room", link, n) for n, o in enumerate(self.links[link])
                if o.is_decided() and not o.known]

    def replies(self, k, link):
        """The answers that have come to requests which the core knows to be at work."""
        return [("reply", link, n) for n, o in enumerate(self.links[link])
                if o.answer is not None and not o.replied and self.cores[k].has_begun(link, n)]

    def gets(self, k, link):
        n = front(self.links[link]) if self.cores[k].wants(link) else None
        return [] if n is None else [("got" if self.links[link][n].is_there() else "pass", link, n)]

    def arrivals(self, k):
        """All that can come to this core."""
        if self.cores[k].word is not None:
            return []
        found = []
        for link in self.sends[k]:
            found += self.offers(k, link) + self.knows(link) + self.replies(k, link)
        for link in self.receives[k]:
            found += self.gets(k, link)
        return found

    def works(self):
        """The links whose front is before the worker."""
        return [link for link in range(self.channels, len(self.links)) if front(self.links[link]) is not None]

    def moves(self, k):
        if k == self.worker:
            return self.works()
        core = self.cores[k]
        return self.arrivals(k) + ([("go", 0, 0)] if core.word is None and core.ready else [])

    def noted(self, k, event, link, number):
        """The entry of this event, which the journal and the link have now."""
        core, journal = None if k == self.worker else self.cores[k], self.journals[k]
        last, value = journal[-1].stamp if journal else 0, None
        if event == "offer":
            value, stamp = core.to_offer(link), 1 + last
            self.links[link].append(Offer(value, stamp))
        offer = self.links[link][number]
        if event == "withdraw":
            offer.withdrawn = stamp = 1 + last
        elif event == "know":
            stamp, offer.known = 1 + max(last, offer.taken), True
        elif event == "room":
            stamp, offer.known = 1 + max(last, offer.passed), True
        elif event == "got":
            value, stamp = offer.value, 1 + max(last, offer.stamp)
            offer.taken = stamp
        elif event == "pass":
            offer.passed = stamp = 1 + max(last, offer.withdrawn)
        elif event == "did":
            value = offer.answer = self.disk.does(offer.value)
            offer.taken = stamp = 1 + max(last, offer.stamp)
        elif event == "reply":
            value, stamp, offer.replied = offer.answer, 1 + max(last, offer.taken), True
        journal.append(Entry(stamp, k, 0 if core is None else core.turn, event, link, number, value))
        return journal[-1]

    def arrive(self, k, event, link, number):
        comes(self.cores[k], self.noted(k, event, link, number))

    def withdraws(self, k, link, number):
        """Whether a cancel of the core withdraws the offer; it comes to know where its peer was first."""
        withdrawn = self.links[link][number].is_there()
        self.noted(k, "withdraw" if withdrawn else "know", link, number)
        return withdrawn

    def one(self, k):
        """One move of this party."""
        if k == self.worker:
            # what `ac` does is a round: one request of each core
            for link in self.works() if self.order.polls else [self.order.random.choice(self.works())]:
                n = front(self.links[link])
                self.noted(k, "did" if self.links[link][n].is_there() else "pass", link, n)
            return
        if self.order.polls:
            return self.polled(k)
        kind, link, number = self.order.move(self.moves(k))
        if kind == "go":
            self.cores[k].go()
        else:
            self.arrive(k, kind, link, number)

    def polled(self, k):
        for link in self.order.shuffled(self.sends[k] + self.receives[k]):
            for look in self.order.shuffled((0, 1)):
                if link in self.receives[k]:
                    found = self.gets(k, link) if look else []
                else:
                    found = self.knows(link) + self.replies(k, link) if look else self.offers(k, link)
                if found:
                    self.arrive(k, *found[0])
        if self.cores[k].ready:
            self.cores[k].go()

    def whole(self):
        parties = range(len(self.cores) + 1)
        able = list(parties)
        while able:
            k = self.order.core(able)
            if self.moves(k):
                self.one(k)
                # what a party does may let its peers go on
                able = [j for j in parties if j in able or self.moves(j)]
            else:
                able.remove(k)


class Before:
    """What came to a core before: how many offers it has made on each link, and those that it has withdrawn and whose room is not
    back."""

    def __init__(self):
        self.made, self.withdrawn = Counter(), set()

    def note(self, e):
        if e.event == "offer":
            self.made[e.link] += 1
        elif e.event == "withdraw":
            self.withdrawn.add((e.link, e.number))
        elif e.event == "room":
            self.withdrawn.discard((e.link, e.number))


def fits(core, e, before):
    """Whether the entry may come to the core now, to which these came before."""
    if e.event == "offer":
        return e.number == before.made[e.link] and core.to_offer(e.link) == e.value is not None
    if e.event == "know":
        return core.has_offered(e.link, e.number)
    if e.event == "room":
        return (e.link, e.number) in before.withdrawn
    if e.event == "reply":
        return core.has_begun(e.link, e.number)
    return e.event in ("got", "pass") and core.wants(e.link)


def replay(core, journal, sees=None):
    """Runs a core under a journal; the first place that does not fit, or None. Just before an entry comes in, `sees` is called with its
    place in the journal, the entry, and whether a `cancel` asked for it."""
    at, before = 0, Before()

    def outcome(link, number):
        nonlocal at
        if at == len(journal):
            raise Cut()
        e = journal[at]
        if e.event not in ("withdraw", "know") or (e.turn, e.link, e.number) != (core.turn, link, number):
            raise Cut()
        if sees:
            sees(at, e, True)
        before.note(e)
        at += 1
        return e.event == "withdraw"

    core.outcome = outcome
    while core.word is None:
        if at < len(journal) and journal[at].turn == core.turn:
            e = journal[at]
            if not fits(core, e, before):
                return at
            if sees:
                sees(at, e, False)
            comes(core, e)
            before.note(e)
            at += 1
        elif core.ready:
            core.go()
        else:
            break
    return None if at == len(journal) else at


class Program:
    """A program with its code, of which runs are made."""

    def __init__(self, names, program, limit):
        self.names, self.limit = names, limit
        self.compiled = Compiled(names, program)

    def trees(self):
        return [TreeCore(self.names, c, self.limit) for c in self.names.cores]

    def codes(self):
        return [CodeCore(self.compiled, self.names, c, self.limit) for c in self.names.cores]

    def run(self, seed=0, polls=False, disk=None):
        """The code's cores after a run in the order of this seed over this disk, which has bound the program's files, and its journals.

        The run is made by the tree where the seed is even, and else by the code; the other is run under its journals."""
        order = Order(seed, len(self.names.cores), polls)
        made, other = (self.codes(), self.trees()) if seed % 2 else (self.trees(), self.codes())
        disk = disk or Disk({})
        start = disk.held()
        live = Run(self.names, made, order, disk)
        live.whole()
        self.check(live.journals, made, other, start, disk)
        return made if seed % 2 else other, live.journals

    def check(self, journals, made, other, start, disk):
        """The other cores come to the same ends under the journals, and these are one run, which has left the disk what it holds;
        raises Difference where not."""
        for k, (core, journal) in enumerate(zip(other, journals)):
            place = replay(core, journal)
            if place is not None:
                raise Difference(f"core {k}: entry {place} of its journal does not fit: {journal[place]}")
            if core.end() != made[k].end():
                shown = [f"{word} {steps} {out[:300]!r} {waiting}" for word, steps, out, _, waiting in (core.end(), made[k].end())]
                raise Difference(f"core {k}: {type(made[k]).__name__} {shown[1]}\n{type(core).__name__} {shown[0]}")
        try:
            links = legal(merged(journals), capacities(self.names), widths(self.names), len(other), start)
        except Illegal as i:
            raise Difference(f"the history is not legal: {i}") from None
        if start != disk.held():
            raise Difference("the disk holds other files than the history leaves")
        wrong = unrest(other, self.names, links)
        if wrong:
            raise Difference(f"the run is not quiet: {wrong}")
