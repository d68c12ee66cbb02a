"""Entries of a run, the history into which they are merged, which histories are legal, and which runs are quiet.

The links are the channels and after them one of requests for each core, whose peer is the worker, the party after the cores. A link
is a list of offers. The owner offers, and knows later that an offer was taken; the peer gets the least that is not taken. The
owner may withdraw an offer that was not taken; the peer passes over it in its turn, and later the owner has its room back."""
from collections import namedtuple

# `event` is offer, withdraw, know, room, got, pass, did or reply; `value` is what an offer carries or a got takes, the answer of a
# did or a reply, and None for the others. A message is a list of ints, a request a tuple. An answer is ("bytes", bytes), ("count", n) or ("fault", n)
Entry = namedtuple("Entry", "stamp party turn event link number value")


FILE = 1_048_576


class Illegal(Exception):
    pass


class Offer:
    def __init__(self, value, stamp):
        self.value, self.stamp = value, stamp
        # the stamps of its got, its withdraw and its pass
        self.taken = self.withdrawn = self.passed = None
        self.known = False
        # of a request: its answer, and whether its core has had it
        self.answer, self.replied = None, False

    def is_decided(self):
        return self.taken is not None or self.passed is not None

    def is_there(self):
        return self.taken is None and self.withdrawn is None


def room(capacity, offers):
    """Whether one more may be offered: how many of the leading offers are known counts, and no later one that is."""
    leading = next((k for k, o in enumerate(offers) if not o.known), len(offers))
    return len(offers) - leading < capacity


def front(offers):
    """The number of the least offer that is neither taken nor passed, or None."""
    return next((k for k, o in enumerate(offers) if not o.is_decided()), None)


def merged(journals):
    """All entries by stamp, then party, then place in the journal."""
    return sorted((e for journal in journals for e in journal), key=lambda e: (e.stamp, e.party))


def overwritten(file, place, data):
    """The file with these bytes at that place; zeros fill a gap before them, and no bytes change nothing."""
    if not data:
        return file
    return file[:place] + bytes(max(0, place - len(file))) + data + file[place + len(data):]


def is_request(value):
    if not isinstance(value, tuple):
        return False
    kind, file, place, what = value
    length = what if kind == "read" else len(what)
    return 0 <= file < 16 and 0 <= length <= 256 and 0 <= place and place + length <= FILE


def answers(value, answer, files):
    """Whether a request may have this answer; what it then has done to the files is done."""
    kind, file, place, what = value
    how, told = answer
    if kind == "read":
        return answer == ("fault", 0) or answer == ("bytes", files[file][place:place + what])
    if not (answer == ("count", len(what)) or how == "fault" and 0 <= told <= len(what)):
        return False
    files[file] = overwritten(files[file], place, what if how == "count" else what[:told])
    return True


class Links:
    """The links of so many cores, whose last links are those of their requests, and the files, after the entries that were taken."""

    def __init__(self, capacities, widths, cores, files):
        self.capacities, self.widths, self.cores, self.files = capacities, widths, cores, files
        self.links = [[] for _ in capacities]
        self.last, self.before = [0] * (cores + 1), (0, 0)

    def take(self, e):
        """Takes the entry, and raises Illegal where it does not fit those before it. The files become what it makes of them."""
        def needs(holds, what):
            if not holds:
                raise Illegal(what)

        links, cores = self.links, self.cores
        needs((e.stamp, e.party) > self.before, "not after the entry before it")
        needs(0 <= e.party <= cores and 0 <= e.link < len(links), "no such party or link")
        asked = e.link >= len(links) - cores
        needs((e.party == cores) == (e.event == "did" or e.event == "pass" and asked), "of another party")
        needs(e.party < cores or e.turn == 0, "a turn of the worker")
        offers = links[e.link]
        answered = 0
        if e.event == "offer":
            needs(e.number == len(offers), "not the next number")
            needs(is_request(e.value) if asked else self.is_message(e), "no such link carries it")
            needs(room(self.capacities[e.link], offers), "no room")
        elif e.event in ("did", "got"):
            needs(asked == (e.event == "did") and e.number == front(offers), "not the least that is not decided")
            needs(offers[e.number].is_there(), "withdrawn")
            needs(e.event == "did" or offers[e.number].value == e.value, "another value")
            answered = offers[e.number].stamp
        elif e.event == "reply":
            needs(e.number < len(offers) and offers[e.number].answer == e.value is not None, "not its answer")
            needs(not offers[e.number].replied, "replied already")
            answered = offers[e.number].taken
        elif e.event == "pass":
            needs(e.number == front(offers), "not the least that is not decided")
            needs(offers[e.number].withdrawn is not None, "not withdrawn")
            answered = offers[e.number].withdrawn
        elif e.event == "withdraw":
            needs(e.number < len(offers) and offers[e.number].is_there(), "taken or withdrawn already")
        elif e.event == "room":
            needs(e.number < len(offers) and offers[e.number].passed is not None, "not passed")
            needs(not offers[e.number].known, "known already")
            answered = offers[e.number].passed
        else:
            needs(e.number < len(offers) and offers[e.number].taken is not None, "not taken")
            needs(not offers[e.number].known, "known already")
            answered = offers[e.number].taken
        needs(e.stamp == 1 + max(self.last[e.party], answered), "another stamp")
        needs(e.event != "did" or answers(offers[e.number].value, e.value, self.files), "not an answer of the disk")
        self.note(e)

    def is_message(self, e):
        """Whether an offer on a channel has as many ints as its messages."""
        return isinstance(e.value, list) and len(e.value) == self.widths[e.link]

    def note(self, e):
        """What the entry makes of its link and its party."""
        offers = self.links[e.link]
        if e.event == "offer":
            offers.append(Offer(e.value, e.stamp))
        elif e.event in ("did", "got"):
            offers[e.number].taken = e.stamp
            offers[e.number].answer = e.value if e.event == "did" else None
        elif e.event == "reply":
            offers[e.number].replied = True
        elif e.event == "pass":
            offers[e.number].passed = e.stamp
        elif e.event == "withdraw":
            offers[e.number].withdrawn = e.stamp
        else:
            offers[e.number].known = True
        self.last[e.party], self.before = e.stamp, (e.stamp, e.party)


def legal(history, capacities, widths, cores, files):
    """The links after a legal history of so many cores; raises Illegal at the first entry that does not fit those before it. The
    files become what the history has made of them."""
    after = Links(capacities, widths, cores, files)
    for place, e in enumerate(history):
        try:
            after.take(e)
        except Illegal as i:
            raise Illegal(f"entry {place}, {e}: {i}") from None
    return after.links


def unrest(cores, names, links):
    """What keeps a run from being quiet, or None: `cores` are at their ends, `links` those after the history."""
    if any(front(offers) is not None for offers in links[len(names.channels):]):
        return "a request waits for the worker"
    for k, core in enumerate(cores):
        if core.cut:
            return f"core {k} stands at a cancel that needs an entry"
        if core.word is not None:
            continue
        if core.ready:
            return f"core {k} has a ready thread"
        own = len(names.channels) + k
        if any(o.answer is not None and not o.replied for o in links[own]):
            return f"core {k} has not had an answer"
        if any(o.is_decided() and not o.known for o in links[own]):
            return f"core {k} does not know of a request that was done or passed"
        if core.to_offer(own) is not None and room(16, links[own]):
            return f"core {k} has a request that waits, and room"
        for channel in names.channels:
            offers = links[channel.number]
            if channel.receiver == k and core.wants(channel.number) and front(offers) is not None:
                return f"a message waits for a receive of core {k}"
            if channel.sender == k and any(o.is_decided() and not o.known for o in offers):
                return f"core {k} does not know of an offer that was taken or passed"
            if channel.sender == k and core.to_offer(channel.number) is not None and room(channel.cap, offers):
                return f"core {k} has a send that waits, and room"
    return None
