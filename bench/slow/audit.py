"""Whether a trace is a run of a program: the first of its entries that does not fit those before it, or that its end does not.

An entry fits where the links, the stamps and the files take it after those before, and where the journal of its core through it can be
replayed by the meaning of the source. Every journal is replayed from the beginning of its core."""
from cores import capacities, replay, widths
from history import FILE, Illegal, Links, unrest
from source import TreeCore


def misfit(names, trace):
    """The place of the first entry that does not fit, or None; the cores after all entries that do; and the links."""
    links = Links(capacities(names), widths(names), len(names.cores), list(trace.start) + [b""] * (16 - len(trace.start)))
    least = len(trace.entries)
    for place, e in enumerate(trace.entries):
        try:
            links.take(e)
        except Illegal:
            least = place
            break
    taken, cores = trace.entries[:least], []
    for item in names.cores:
        core = TreeCore(names, item, trace.steps)
        places = [place for place, e in enumerate(taken) if e.party == item.number]
        first = replay(core, [taken[place] for place in places])
        if first is not None:
            least = min(least, places[first])
        cores.append(core)
    return (least if least < len(trace.entries) else None), cores, links.links


def verdict(names, trace):
    """`yes`, `no at K` or `no at end`."""
    place, cores, links = misfit(names, trace)
    if place is not None:
        return f"no at {place}"
    ends_well = (
        len(trace.start) == len(names.files)
        and all(len(held) <= FILE for held in trace.start)
        and list(trace.ends) == [core.end()[:3] for core in cores]
        and unrest(cores, names, links) is None
    )
    return "yes" if ends_well else "no at end"
