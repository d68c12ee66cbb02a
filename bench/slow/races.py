"""Random programs of several cores whose answer depends on the order of their run.

Each core has a row of threads, which send and receive, read and write, compute and yield, and print what came of it: so the order in
which messages come to a core is seen, and what its threads have made of a variable that they share. A core may wait for the first of
two messages and call off the other, and it may call off all its threads, at any of which a message of another core may then be left
over. A message is an int, or an array of several that each thread has of its own.
"""
import random
import re

MOST_CHANNELS = 60


class Thread:
    def __init__(self, core):
        self.core, self.lines = core, []


class Writer:
    def __init__(self, r, cores):
        self.r, self.fresh, self.channels = r, 0, {}
        most = 4 if cores < 16 else 3
        self.cores = [[Thread(core) for _ in range(r.randrange(2, most + 1))] for core in range(cores)]
        self.threads = [t for threads in self.cores for t in threads]
        self.acts = [self.message] * 12 + [self.first] * 4 + [self.file, self.compute, self.give_turn] + [self.call_off] * (cores < 16)

    def number(self):
        self.fresh += 1
        return self.fresh

    def channel(self, sender, receiver):
        """A channel from this core to that one, or none."""
        old = [name for name, (a, b, *_) in self.channels.items() if (a, b) == (sender, receiver)]
        if old and (self.r.random() < 0.7 or len(self.channels) >= MOST_CHANNELS):
            return self.r.choice(old)
        if len(self.channels) >= MOST_CHANNELS:
            return None
        name = f"c{len(self.channels)}"
        self.channels[name] = (sender, receiver, self.r.choice([1, 1, 2, 3, 64]), self.r.choice([1, 1, 1, 2, 3, 16]))
        return name

    def sent(self, receiver):
        """A channel on which a thread of another core has sent to this core, or none."""
        thread = self.r.choice([t for t in self.threads if t.core != receiver])
        name = self.channel(thread.core, receiver)
        if name:
            width, what = self.channels[name][3], f"g + {self.number()}"
            if width > 1:
                thread.lines.append(f"m{width}[0] = {what}; m{width}[{width - 1}] = g;")
                what = f"m{width}"
            q = f"Send({name}, {what})"
            thread.lines.append(self.r.choice([f'q = {q}; if (q != OK) printf("{self.number()}:%d ", q);', f'if ({q}) printf("{self.number()} ");',
                                               f"g = g + {q} + g;"]))
        return name

    def received(self, name):
        width = self.channels[name][3]
        if width > 1:
            m, last = f"m{width}", f"m{width}[{width - 1}]"
            return self.r.choice([f'q = Recv({name}, &{m}); g = g * 3 + {m}[0]; printf("{self.number()}:%d,%d,%d ", q, {m}[0], {last});',
                                  f'g = g * 3 + Recv({name}, &{m}) + {last}; printf("{self.number()}:%d,%d ", g, {m}[0]);'])
        return self.r.choice([f'q = Recv({name}, &x); g = g * 3 + x; printf("{self.number()}:%d,%d ", q, x);',
                              f'g = g * 3 + Recv({name}, &x) + x; printf("{self.number()}:%d,%d ", g, x);',
                              f'printf("{self.number()}:%d,%d ", Recv({name}, &x) + x, g); g = g * 3 + x;'])

    # ---- acts

    def message(self, thread):
        name = self.sent(thread.core)
        if name:
            thread.lines.append(self.received(name))

    def first(self, thread):
        """The first of two messages calls off the wait for the other."""
        one, other = self.sent(thread.core), self.sent(thread.core)
        if one and other:
            label = self.r.choice("st")
            both = "".join(f" async {{ int q; int x; {self.received(c)} cancel {label}; }}" for c in (one, other))
            thread.lines.append(f"{label}: do {{{both} }} finish;")

    def file(self, thread):
        place, length = self.r.randrange(0, 6), self.r.randrange(1, 5)
        thread.lines.append(self.r.choice([
            f"v[{self.r.randrange(0, 4)}] = g; q = Write(log, {place}, {length}, v); printf(\"{self.number()}:%d \", q);",
            f"q = Read(log, {place}, {length}, v); printf(\"{self.number()}:%d,%d \", q, v[{self.r.randrange(0, 4)}]);",
        ]))

    def compute(self, thread):
        thread.lines.append(f"for (int i = 0; i < {self.r.choice([3, 30, 300, 2_000])}; i = i + 1) x = x * 5 + i;")

    def give_turn(self, thread):
        thread.lines.append("yield;")

    def call_off(self, thread):
        if self.r.random() < 0.3:
            thread.lines.append("cancel all;")

    # ---- the text

    def program(self):
        for _ in range(self.r.randrange(3, 7) * len(self.cores) // (1 if len(self.cores) < 16 else 2)):
            self.r.choice(self.acts)(self.r.choice(self.threads))
        lines = ["int g;", "int v[4];"] + ['file log("log.dat");'] * ("log" in "".join(sum((t.lines for t in self.threads), [])))
        for k, threads in enumerate(self.cores):
            lines += [f"core k{k}(f{k});", f"async void f{k}() {{", "  all: do {"]
            for thread in threads:
                widths = sorted(set(map(int, re.findall(r"\bm([0-9]+)\b", "".join(thread.lines)))))
                arrays = [f"      int m{width}[{width}];" for width in widths]
                lines += ["    async {", "      int q;", "      int x;"] + arrays + ["      " + line for line in thread.lines] + ["    }"]
            lines += ["  } finish;", '  printf("%d\\n", g);', "}"]
        lines += [f"channel {name}(k{a}, k{b}, {room});" for name, (a, b, room, _) in self.channels.items()]
        return "\n".join(lines) + "\n"


def program(seed, cores):
    """A program of so many cores, and a bound on steps."""
    r = random.Random(f"{seed} {cores}")
    return Writer(r, cores).program(), r.choice([40, 20_000, 20_000, 20_000, 20_000])
