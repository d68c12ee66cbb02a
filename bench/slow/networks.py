"""Random programs of several cores whose answer is the same in every order of their run.

Each channel has one sending and one receiving thread, or several that do nothing but one send or one receive each and are waited
for. Threads share no variable that one of them sets while another looks at it, only the entry of a core prints, and what traps or
uses up the steps is a core whose threads never could run two at a time. Such a program comes to one end, whatever the order: it
is a network of processes, each of which waits for one message at a time (G. Kahn, 1974).

First a plan is made: a row of exchanges between threads, each of which ends if the ones before it do. Then each thread is written
as its part of the row. Some programs have a part left out or a trap put in, so that cores wait for ever. Some channels carry several
ints, out of an array that the thread has for it and into another.
"""
import random


class Thread:
    """A thread of the plan: the entry of its core, or one that its parent starts."""

    def __init__(self, number, core, parent):
        self.number, self.core, self.parent = number, core, parent
        self.children, self.parts = [], []
        if parent:
            parent.children.append(self)

    def least(self):
        """The place of the first exchange of this thread and of all that it starts."""
        return min([place for place, _ in self.parts] + [c.least() for c in self.children], default=1000)

    def greatest(self):
        return max([place for place, _ in self.parts] + [c.greatest() for c in self.children], default=-1)

    def all(self):
        return [self] + [t for c in self.children for t in c.all()]


class Plan:
    def __init__(self, r, single):
        self.r = r
        self.threads, self.channels, self.widths, self.cores = [], {}, {}, []
        for core in range(r.choice([2, 2, 2, 3, 3, 4, 5, 7, 16])):
            entry = self.thread(core, None)
            self.cores.append(entry)
            for _ in range(0 if single else r.choice([0, 0, 0, 1, 2, 3])):
                self.thread(core, r.choice(entry.all()))
        self.place = 0
        for _ in range(r.choice([1, 2, 3, 5, 8])):
            r.choice([self.stream, self.stream, self.ring, self.chain, self.fan, self.spread, self.gather])()
            self.place += 1
        if r.random() < 0.3:
            self.spoil()

    def thread(self, core, parent):
        t = Thread(len(self.threads), core, parent)
        self.threads.append(t)
        return t

    def channel(self, a, b):
        """A channel from this thread to that one."""
        old = [c for c in self.channels if self.channels[c][:2] == (a, b)]
        if old and (self.r.random() < 0.5 or len(self.channels) >= 60):
            return self.r.choice(old)
        name = f"c{len(self.channels)}"
        self.channels[name] = (a, b, self.r.choice([1, 1, 1, 2, 2, 3, 5, 64]))
        self.widths[name] = self.r.choice([1, 1, 1, 1, 1, 2, 3, 16])
        return name

    def give(self, thread, times, acts):
        thread.parts.append((self.place, (times, acts)))

    def some(self, least, apart):
        """Threads, each in another core than the one before it, or all in cores of their own."""
        found = [self.r.choice(self.threads)]
        for _ in range(self.r.choice([least, least, least + 1, least + 2, 16]) - 1):
            taken = {t.core for t in found} if apart else {found[-1].core}
            others = [t for t in self.threads if t.core not in taken and t not in found]
            if not others:
                break
            found.append(self.r.choice(others))
        return found

    def full(self, threads):
        return len(self.channels) + len(threads) * 2 > 60

    # ---- exchanges

    def stream(self):
        a, b = self.some(2, True)[:2]
        c, times = self.channel(a, b), self.r.choice([1, 1, 2, 3, 5, 8])
        self.give(a, times, [("send", c)])
        self.give(b, times, [("receive", c)])

    def ring(self):
        row = self.some(2, True)
        if self.full(row):
            return
        times = self.r.choice([1, 1, 2, 3, 6])
        names = [self.channel(a, b) for a, b in zip(row, row[1:] + row[:1])]
        for k, t in enumerate(row):
            acts = [("send", names[k]), ("receive", names[k - 1])]
            self.give(t, times, acts if k == 0 else acts[::-1])

    def chain(self):
        row = self.some(3, False)
        if self.full(row) or len(row) < 2:
            return
        times = self.r.choice([1, 2, 3, 6])
        names = [self.channel(a, b) for a, b in zip(row, row[1:])]
        for k, t in enumerate(row):
            self.give(t, times, [("receive", c) for c in names[:k][-1:]] + [("send", c) for c in names[k:k + 1]])

    def fan(self):
        self.star(True, True)

    def spread(self):
        self.star(True, False)

    def gather(self):
        self.star(False, True)

    def star(self, out, back):
        first, *rest = self.some(2, True)
        if self.full(rest):
            return
        times, acts = self.r.choice([1, 1, 2, 4]), []
        there = [self.channel(first, t) for t in rest] if out else []
        again = [self.channel(t, first) for t in rest] if back else []
        acts = [("send", c) for c in there] + [("receive", c) for c in again]
        self.give(first, times, acts)
        for k, t in enumerate(rest):
            self.give(t, times, [("receive", c) for c in there[k:k + 1]] + [("send", c) for c in again[k:k + 1]])

    def spoil(self):
        r = self.r
        alone = [t for t in self.cores if not t.children]
        x = r.random()
        t = r.choice(self.threads)
        if x < 0.35 and alone:
            t = r.choice(alone)
            t.parts.insert(r.randrange(0, len(t.parts) + 1), (0, (1, [("fail", None)])))
        elif x < 0.6 and t.parts:
            t.parts.pop(r.randrange(0, len(t.parts)))
        elif x < 0.8 and t.parts:
            k = r.randrange(0, len(t.parts))
            place, (times, acts) = t.parts[k]
            t.parts[k] = (place, (max(1, times + r.choice([-1, 1, 2])), acts))
        elif t.parts:
            k = r.randrange(0, len(t.parts))
            place, (times, acts) = t.parts[k]
            t.parts[k] = (place, (times, acts[::-1]))


class Writer:
    """Writes the plan as a program, one statement or brace per line."""

    def __init__(self, r, plan, single):
        self.r, self.plan, self.single = r, plan, single
        self.items, self.lines, self.fresh, self.calls = [], [], 0, {}
        self.count = None

    def put(self, text):
        self.lines.append("  " * self.indent + text)

    def new(self, letter):
        self.fresh += 1
        return f"{letter}{self.fresh}"

    def program(self):
        self.items += [[f"int done[{len(self.plan.threads)}];"], ["int mixed(int a, int b, int c) { return a * 5 + b * 3 + c; }"]]
        self.items += [[f"int g{t.number} = {self.r.randrange(0, 9)};", f"int h{t.number}[8];"] for t in self.plan.threads]
        for name, (a, b, capacity) in self.plan.channels.items():
            self.items.append([f"channel {name}(k{a.core}, k{b.core}, {capacity});"])
        for entry in self.plan.cores:
            self.items.append([f"core k{entry.core}(f{entry.core});"])
            self.function(f"async {self.r.choice(['void', 'int'])} f{entry.core}()", entry)
        self.r.shuffle(self.items)
        return "\n".join(line for item in self.items for line in item) + "\n"

    def function(self, head, thread):
        old, self.lines, self.indent = self.lines, [head, "{"], 1
        self.thread(thread)
        self.items.append(self.lines + ["}"])
        self.lines = old

    # ---- threads

    def thread(self, t):
        r, n = self.r, t.number
        self.put(f"int s{n} = {r.randrange(0, 100)};")
        self.put(f"int x{n};")
        self.put(f"int v{n}[4];")
        self.put(f"int r{n};")
        for name, (a, b, _) in self.plan.channels.items():
            if t in (a, b) and self.plan.widths[name] > 1:
                self.put(f"int {self.array(t, name)}[{self.plan.widths[name]}];")
        least, greatest = 1000, -1
        if t.children:
            least, greatest = min(c.least() for c in t.children), max(c.greatest() for c in t.children)
        self.parts(t, [p for place, p in t.parts if not t.children or place < least])
        if t.children:
            self.put("do {")
            self.indent += 1
            for c in t.children:
                self.child(c)
            self.parts(t, [p for place, p in t.parts if least <= place <= greatest])
            self.indent -= 1
            self.put("} finish;")
            for c in t.children:
                self.put(f"s{n} = s{n} * 3 + done[{c.number}];")
            self.parts(t, [p for place, p in t.parts if place > greatest and place >= least])
        self.put(f"done[{n}] = s{n};" if t.parent else f'printf("%d %d\\n", s{n}, x{n});')

    def child(self, t):
        if self.r.random() < 0.4:
            self.put(f"async t{t.number}();")
            indent = self.indent
            self.function(f"async void t{t.number}()", t)
            self.indent = indent
            return
        self.put("async {")
        self.indent += 1
        self.thread(t)
        self.indent -= 1
        self.put("}")

    def parts(self, t, parts):
        for times, acts in parts:
            self.work(t)
            if len(acts) == 1 and acts[0][0] != "fail" and not self.single and self.r.random() < 0.25:
                self.at_once(t, times, *acts[0])
            elif times > 1 and self.r.random() < 0.8 or times > 3:
                i = self.new("i")
                self.put(f"for (int {i} = 0; {i} < {times}; {i} = {i} + 1) {{")
                self.indent += 1
                self.count = i
                self.acts(t, acts)
                self.count = None
                self.indent -= 1
                self.put("}")
            else:
                for _ in range(times):
                    self.acts(t, acts)

    def work(self, t):
        """Some statements that wait for no one."""
        r, s = self.r, f"s{t.number}"
        for _ in range(r.choice([0, 0, 0, 1, 2])):
            self.put(r.choice([
                f"{s} = {s} * {r.randrange(2, 9)} + {r.randrange(0, 9)};", "yield;", f"if ({s} & 1) {s} = {s} + 1; else yield;",
                f"g{t.number} = {s};", f"for (int j = 0; j < {r.randrange(0, 4)}; j = j + 1) {s} = {s} ^ j;",
                f'printf("%d ", {s});' if t.parent is None else ";",
            ]))

    def acts(self, t, acts):
        if all(kind != "fail" for kind, _ in acts) and self.r.random() < 0.35:
            return self.in_one(t, acts)
        for kind, channel in acts:
            if kind == "fail":
                self.fail(t)
            elif kind == "send":
                self.send(t, channel)
            else:
                self.receive(t, channel)

    def fail(self, t):
        s, v = f"s{t.number}", f"v{t.number}"
        mine = [(c, a is t) for c, (a, b, _) in self.plan.channels.items() if t in (a, b) and self.plan.widths[c] == 1]
        forms = [f"{s} = {s} / ({s} - {s});", f"{v}[4] = 1;", f"{v}[{s} - {s} - 1] = 2;"]
        forms += ["while (1) ;", "while (1) yield;", f"while (1) {s} = {s} + 1;"]
        forms += [f"Send({c}, 1 % ({s} - {s}));" if sends else f"Recv({c}, &{v}[4]);" for c, sends in mine]
        self.put(self.r.choice(forms))

    # ---- sends and receives

    def array(self, t, c):
        """The array that a thread has for the messages of a channel."""
        return f"m{t.number}{c}"

    def whole(self, t, c):
        """What is sent or received whole on a channel of several ints, and an int that tells of it."""
        m = self.array(t, c)
        sends = self.plan.channels[c][0] is t
        return f"Send({c}, {m})" if sends else f"Recv({c}, &{m})", f"{m}[0] * 3 + {m}[{self.plan.widths[c] - 1}]"

    def several(self, t, c):
        """A message of several ints is sent or received, in a statement of its own."""
        r, n = self.r, t.number
        act, told = self.whole(t, c)
        sends = self.plan.channels[c][0] is t
        if sends:
            self.put(f"{self.array(t, c)}[{r.randrange(self.plan.widths[c])}] = {self.message(t)};")
        forms = [f"{act};", f"r{n} = {act};", f"s{n} = s{n} + {act};"]
        if self.single or r.random() < 0.7:
            self.put(r.choice(forms))
        else:
            self.put("do {")
            self.put(r.choice([f"async {act};", f"async {{ yield; {act}; }}"]))
            self.put("} finish;")
        # A send has taken the array as it was.
        self.put(f"{self.array(t, c)}[0] = s{n};" if sends else f"s{n} = s{n} * {r.randrange(2, 9)} + {told};")

    def in_one(self, t, acts):
        """All of them in one statement, in their order."""
        r, n = self.r, t.number
        parts = [self.part(t, *act) for act in acts]
        s, x, v = f"s{n}", f"x{n}", f"v{n}"
        skipped = [self.whole(t, c)[0] if self.plan.widths[c] > 1 else f"Send({c}, {s})" if a is t else f"Recv({c}, &{x})"
                   for c, (a, b, _) in self.plan.channels.items() if t in (a, b)]
        if r.random() < 0.3:
            k = r.randrange(0, len(parts) + 1)
            parts[k:k] = [f"({r.choice(['0 && ', '1 || '])}{r.choice(skipped)})"]
        last = parts.pop()
        all_ = self.joined(parts + [last])
        forms = [f"{s} = {s} * {r.randrange(2, 9)} + {all_};", f"int {self.new('q')} = {all_}; {s} = {s} ^ {s} + {x};",
                 f"{v}[{x} & 3] = {all_};", f"if (({all_}) & 1) {s} = {s} + 1; else {s} = {s} * 3;", f"{s} = mixed({s}, {all_}, {x});",
                 f"{s} = -({all_}) - {s};", f"{v}[({all_}) & 3] = {s};", f"{s} = {v}[({all_}) & 3] + {s};"]
        if parts:
            forms += [f"{v}[({last}) & 3] = {self.joined(parts)};", f"{s} = mixed({self.joined(parts)}, {s}, {last});"] * 2
        if t.parent is None:
            forms.append(f'printf("%d %d ", {all_}, {x});')
        self.put(r.choice(forms))
        self.put(f"{s} = {s} * {r.randrange(2, 9)} + {x} + {v}[1];")

    def joined(self, parts):
        r = self.r
        return "".join(f"{r.choice([' + ', ' - ', ' * 3 + ', ' ^ ']) if k else ''}{part}" for k, part in enumerate(parts))

    def part(self, t, kind, c):
        """A send or a receive as an operand, with what was read before it or is read behind it."""
        r, n = self.r, t.number
        s, x, v, g = f"s{n}", f"x{n}", f"v{n}", f"g{n}"
        if self.plan.widths[c] > 1:
            act, told = self.whole(t, c)
            return r.choice([act, f"({act} == OK) * {s}", f"!{act}"] if kind == "send" else [f"({act} + {told})", f"({act} || {told})"])
        if kind == "send":
            e, name = self.message(t), self.helper(c, "give", True)
            forms = [f"Send({c}, {e})", f"(Send({c}, {e}) == OK) * {s}", f"{v}[Send({c}, {e}) + 1]", f"!Send({c}, {e} + {g})"]
            return r.choice(forms + [f"{name}({e})", f"{g} * {name}({e})", f"mixed({g}, {name}({e}), {g})"])
        name = self.helper(c, "take", True)
        by_row = self.calls[c, "take", True][1]
        call = f"{name}({v}, {r.randrange(0, 4)})" if by_row else f"{name}()"
        forms = [f"Recv({c}, &{x}) + {x}", f"({x} | Recv({c}, &{x}) | {x})", f"Recv({c}, &{v}[{s} & 3]) + {v}[{s} & 3]",
                 f"{g} + Recv({c}, &{g}) * 2 + {g}", f"(Recv({c}, &{x}) || {x} > {s})"]
        return r.choice(forms + [call, f"{s} * {call}", f"{g} * 10 + {call} + {g}", f"mixed({g}, {call}, {g})"])

    def message(self, t):
        r, n = self.r, t.number
        forms = [f"s{n}", f"s{n} + {r.randrange(0, 99)}", f"x{n} * 2 - s{n}", f"v{n}[s{n} & 3] + 1"]
        forms += [f"-{r.randrange(0, 99)}", "9223372036854775807"]
        return r.choice(forms + ([f"s{n} * 10 + {self.count}"] * 3 if self.count else []))

    def send(self, t, c):
        if self.plan.widths[c] > 1:
            return self.several(t, c)
        r, n, e = self.r, t.number, self.message(t)
        x = r.random()
        if x < 0.35:
            self.put(f"Send({c}, {e});")
        elif x < 0.5:
            self.put(f"r{n} = Send({c}, {e});")
            self.put(f"s{n} = s{n} + 1 + r{n};")
        elif x < 0.6:
            q = self.new("q")
            self.put(f"int {q} = Send({c}, {e});")
            self.put(f"s{n} = s{n} ^ ({q} + 2);")
        elif x < 0.7:
            self.put(f"v{n}[{r.randrange(0, 4)}] = Send({c}, {e});")
        elif x < 0.85 or self.single:
            self.put(f"{self.helper(c, 'give')}({e});")
        else:
            self.put("do {")
            send = f"Send({c}, {e});"
            self.put(r.choice([f"async {send}", f"async r{n} = {send}", f"async {{ yield; {send} }}"]))
            self.put("} finish;")

    def receive(self, t, c):
        if self.plan.widths[c] > 1:
            return self.several(t, c)
        r, n = self.r, t.number
        x = r.random()
        s, got = f"s{n}", f"x{n}"
        if x < 0.3:
            self.put(r.choice([f"Recv({c}, &x{n});", f"r{n} = Recv({c}, &x{n});", f"v{n}[x{n} & 3] = Recv({c}, &x{n});"]))
        elif x < 0.45:
            got = f"v{n}[{r.randrange(0, 4)}]"
            self.put(f"Recv({c}, &{got});")
        elif x < 0.55:
            got = f"g{n}"
            self.put(f"r{n} = Recv({c}, &g{n});")
        elif x < 0.65:
            self.put(f"Recv({c}, &h{n}[s{n} & 7]);")
            got = f"h{n}[0] + h{n}[3] * 2 + h{n}[6]"
        elif x < 0.85 or self.single:
            name = self.helper(c, "take")
            if self.calls[c, "take"][1]:
                got = f"v{n}[1]"
                self.put(f"{name}(v{n}, 1);")
            else:
                self.put(f"x{n} = {name}();")
        else:
            self.put("do {")
            receive = f"Recv({c}, &x{n});"
            self.put(r.choice([f"async {receive}", f"async r{n} = {receive}", f"async {{ yield; yield; {receive} }}"]))
            self.put("} finish;")
        self.put(f"{s} = {s} * {r.randrange(2, 9)} + {got};")

    def at_once(self, t, times, kind, c):
        """A thread of its own for each message: they start at once, in their order, and each only sends or receives."""
        n, i = t.number, self.new("i")
        self.put("do {")
        self.indent += 1
        body = f"Send({c}, s{n} + {i})" if kind == "send" else f"Recv({c}, &v{n}[{i} & 3])"
        if self.plan.widths[c] > 1:
            body = self.whole(t, c)[0]
        if self.r.random() < 0.3:
            body = f"r{n} = {body}"
        self.put(f"for (int {i} = 0; {i} < {times}; {i} = {i} + 1) async {body};")
        self.indent -= 1
        self.put("} finish;")
        self.put(f"s{n} = s{n} * 7 + v{n}[0] + v{n}[1] * 3 + v{n}[3] + r{n};")

    def helper(self, c, kind, gives=False):
        """A function that sends to the channel, or that receives from it; or one of those that give a number and change a global of
        the one thread that calls them."""
        if gives:
            return self.helper_that_gives(c, kind)
        if (c, kind) in self.calls:
            return self.calls[c, kind][0]
        name, by_row = f"{kind}_{c}", False
        if kind == "give":
            forms = [f"async void {name}(int m) {{ Send({c}, m); }}", f"async int {name}(int m) {{ return Send({c}, m); }}"]
            by_thread = f"async int {name}(int m) {{ int r; do {{ async r = Send({c}, m); }} finish; return r; }}"
        elif self.r.random() < 0.3:
            by_row = True
            forms = [f"async int {name}(int row[], int at) {{ return Recv({c}, &row[at]); }}"]
            by_thread = f"async void {name}(int row[], int at) {{ do {{ async Recv({c}, &row[at]); }} finish; }}"
        else:
            forms = [f"async int {name}() {{ int m; Recv({c}, &m); return m; }}",
                     f"async int {name}() {{ int m[2]; int r = Recv({c}, &m[1]); return m[1] + r; }}"]
            by_thread = f"async int {name}() {{ int m; do {{ async Recv({c}, &m); }} finish; return m; }}"
        if not self.single:
            forms.append(by_thread)
        self.items.append([self.r.choice(forms)])
        self.calls[c, kind] = (name, by_row)
        return name


    def helper_that_gives(self, c, kind):
        if (c, kind, True) in self.calls:
            return self.calls[c, kind, True][0]
        sender, receiver, _ = self.plan.channels[c]
        name, g, by_row = f"{kind}_by_{c}", f"g{(sender if kind == 'give' else receiver).number}", False
        change = self.r.choice([f"{g} = {g} + 1; ", f"{g} = {g} * 3 + 1; ", ""])
        if kind == "give":
            forms = [f"async int {name}(int m) {{ {change}return Send({c}, m + {g}) + m; }}",
                     f"async int {name}(int m) {{ if (Send({c}, m) == OK) {{ {change}return {g} - m; }} return 1; }}"]
        elif self.r.random() < 0.3:
            by_row = True
            forms = [f"async int {name}(int row[], int at) {{ {change}return row[at] * 2 + Recv({c}, &row[at]) + row[at]; }}"]
        else:
            forms = [f"async int {name}() {{ int m; {change}return {g} + Recv({c}, &m) + m; }}",
                     f"async int {name}() {{ int m[2]; while (Recv({c}, &m[1]) != OK) ; {change}return m[1] - {g}; }}"]
        self.items.append([self.r.choice(forms)])
        self.calls[c, kind, True] = (name, by_row)
        return name


def program(seed):
    """A program and a bound on steps. Cores of one thread each may use up a small bound: at no step has such a core an offer that
    may still be taken, while another's end may depend on whether one was made in time."""
    r = random.Random(seed)
    single = r.random() < 0.3
    text = Writer(r, Plan(r, single), single).program()
    return text, r.choice([5, 20, 50, 100, 200, 20_000]) if single else 20_000
