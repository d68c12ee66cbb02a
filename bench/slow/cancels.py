"""Random programs of two cores that call off what waits, with the same answer in every order of their run.

On the channels 1 a core sends and no one receives, and from the channels 2 it receives and no one sends. So an offer is withdrawn
whenever it was made, no thread goes on but by its own core, and each core does the same in every order. Before that, some messages
go over the channel a0.
"""
import random


class Writer:
    def __init__(self, r):
        self.r, self.lines, self.fresh, self.functions = r, [], 0, []

    def put(self, indent, text):
        self.lines.append("  " * indent + text)

    def number(self):
        self.fresh += 1
        return self.fresh

    def program(self):
        r = self.r
        heads = ["core a(f);", "core b(g);"]
        for core, other in (("a", "b"), ("b", "a")):
            heads += [f"channel {core}{k}({core}, {other}, {r.choice([1, 1, 2, 3, 64])});" for k in range(3)]
        self.exchange = r.choice([0, 0, 1, 2, 4])
        for core, name in (("a", "f"), ("b", "g")):
            self.core, self.other = core, "b" if core == "a" else "a"
            self.function(f"async void {name}()", 0, True)
        return "\n".join(heads + self.lines) + "\n"

    def function(self, head, depth, entry):
        old, self.lines = self.lines, [head, "{"]
        self.put(1, "int q;")
        self.put(1, "int x;")
        if entry:
            for _ in range(self.exchange):
                self.put(1, "Send(a0, q);" if self.core == "a" else "Recv(a0, &x);")
        self.statements(1, depth, [], False, False)
        if head.startswith("async int"):
            self.put(1, "return q * 3 + x;")
        self.lines.append("}")
        self.lines = self.lines + old if not entry else old + self.lines

    def statements(self, indent, depth, labels, in_do, in_loop):
        for _ in range(self.r.choice([1, 2, 2, 3, 4])):
            self.statement(indent, depth, labels, in_do, in_loop)

    def statement(self, indent, depth, labels, in_do, in_loop):
        r = self.r
        acts = [self.tell, self.give_turn, self.operation]
        if labels:
            acts += [self.cancel] * 3 + [self.operation]
        if depth < 5:
            acts += [self.block, self.block]
            if in_do:
                acts += [self.thread] * 4
            if not in_loop:
                acts += [self.loop]
        if depth < 3:
            acts += [self.call]
        r.choice(acts)(indent, depth, labels, in_do, in_loop)

    def tell(self, indent, *_):
        self.put(indent, f'printf("{self.number()} ");')

    def give_turn(self, indent, *_):
        self.put(indent, "yield;")

    def operation(self, indent, depth, labels, in_do, in_loop):
        r, alone = self.r, self.r.random() < 0.5
        what = self.waiting() if alone else self.several(depth)
        tell = f'printf("{self.number()}:%d ", {what});'
        if r.random() < 0.5 and in_do and depth < 5:
            told = f'async {{ q = {what}; printf("{self.number()}:%d ", q); }}'
            self.put(indent, r.choice([f"async {what};", told] if alone else [f"async {tell}", told]))
        elif labels or r.random() < 0.1:
            if r.random() < 0.5:
                self.put(indent, f"q = {what};")
                self.put(indent, f'printf("{self.number()}:%d ", q);')
            else:
                self.put(indent, r.choice([tell, f'if ({what}) printf("{self.number()} ");']))

    def waiting(self):
        return self.r.choice([f"Send({self.core}1, {self.number()})", f"Recv({self.other}2, &x)"])

    def several(self, depth):
        """An operation as an operand, with what is read before it and behind it, and often a second one, a call or both."""
        r, one, other = self.r, self.waiting(), self.waiting()
        forms = [f"{one} * 10 + {other}", f"{one} - q * {other}", f"(q + {one}) * 3 + x", f"q * 100 + {one} + q", f"{one} && {other}",
                 f"{one} || {other}", f"-{one} - ({other} == CANCELLED) * q", f"Send({self.core}1, {one} + q) * 2 + q"]
        if depth < 3:
            call = self.called(depth, "int") + "()"
            forms += [f"q + {call} + q", f"{one} * 10 + {call}", f"{call} * 10 + {one}", f"Send({self.core}1, {call}) + {other}"]
        return r.choice(forms)

    def cancel(self, indent, depth, labels, in_do, in_loop):
        self.put(indent, f"cancel {self.r.choice(labels)};")

    def block(self, indent, depth, labels, in_do, in_loop):
        label = self.r.choice(["s", "t", "u", ""])
        self.put(indent, f"{label}: do {{" if label else "do {")
        self.statements(indent + 1, depth + 1, labels + [label] * bool(label), True, in_loop)
        self.put(indent, "} finish;")

    def thread(self, indent, depth, labels, in_do, in_loop):
        self.put(indent, "async {")
        self.statements(indent + 1, depth + 1, labels, True, in_loop)
        self.put(indent, "}")

    def loop(self, indent, depth, labels, in_do, in_loop):
        self.put(indent, f"for (int i = 0; i < {self.r.choice([2, 3])}; i = i + 1) {{")
        self.statements(indent + 1, depth + 1, labels, in_do, True)
        self.put(indent, "}")

    def call(self, indent, depth, *_):
        self.put(indent, f"{self.called(depth, 'void')}();")

    def called(self, depth, gives):
        name = f"{self.core}_{self.number()}"
        self.function(f"async {gives} {name}()", depth + 2, False)
        return name


def program(seed):
    r = random.Random(seed)
    return Writer(r).program(), r.choice([20, 200, 20_000, 20_000, 20_000])
