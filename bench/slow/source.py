"""The meaning of trees: what each statement does, step by step. Threads are Python generators.

A core stands at a dispatch point, where something may come in, or has ended. `go` runs the front of the ready list until the next
one."""
from collections import deque

from tokens_and_trees import array_named

LIMIT = 4_194_304
FILE = 1_048_576


class Trap(Exception):
    pass


class Out(Exception):
    """out of steps"""


class Cut(Exception):
    """a cancel needs to know what became of an offer, and its journal does not say"""


class Ret(Exception):
    def __init__(self, value):
        self.value = value


class Brk(Exception):
    pass


class Cont(Exception):
    pass


def wrap(x):
    return ((x + (1 << 63)) % (1 << 64)) - (1 << 63)


def binary(op, a, b):
    if op == "Add":
        return wrap(a + b)
    if op == "Sub":
        return wrap(a - b)
    if op == "Mul":
        return wrap(a * b)
    if op in ("Div", "Rem"):
        if b == 0:
            raise Trap("zero-divisor")
        q = abs(a) // abs(b)
        if (a < 0) != (b < 0):
            q = -q
        return wrap(q) if op == "Div" else wrap(a - q * b)
    if op == "Shl":
        return wrap(a << (b % 64))
    if op == "Shr":
        return a >> (b % 64)
    if op == "BitOr":
        return a | b
    if op == "BitXor":
        return a ^ b
    if op == "BitAnd":
        return a & b
    return int({"Eq": a == b, "Ne": a != b, "Less": a < b, "LessEq": a <= b, "More": a > b, "MoreEq": a >= b}[op])


def printed(fmt, values):
    out, i, k = bytearray(), 0, 0
    while i < len(fmt):
        if fmt[i] == 37:
            d = fmt[i + 1:i + 2]
            if d == b"d":
                out += str(values[k]).encode()
                k += 1
            elif d == b"c":
                out.append(values[k] % 256)
                k += 1
            else:
                out += b"%"
            i += 2
        else:
            out.append(fmt[i])
            i += 1
    return bytes(out)


class Frame:
    def __init__(self, core, owner, parent):
        words = owner.words + 4
        if core.live + words > LIMIT:
            raise Trap("stack-full")
        core.live += words
        self.core, self.owner, self.parent, self.words = core, owner, parent, words
        self.cells, self.children, self.over = {}, 0, False
        self.blocks = {}              # the block of each `do` that it has entered
        if parent:
            parent.children += 1

    def release(self):
        self.over = True
        f = self
        while f and f.over and f.children == 0:
            self.core.live -= f.words
            f = f.parent
            if f:
                f.children -= 1


class Block:
    def __init__(self, parent):
        self.parent, self.waiter, self.marked = parent, None, False

    def is_within(self, block):
        return self is block or (self.parent is not None and self.parent.is_within(block))

    def is_cancelled(self):
        return self.marked or (self.parent is not None and self.parent.is_cancelled())


class Thread:
    def __init__(self, block):
        self.started_in = block
        self.block = block
        self.gen = None
        self.value = None             # what its operation has given, until it runs again


class Operation:
    """A send, a receive or a request of a file that has not ended. `number` is that of its offer, where it was offered; `begun` says
    that the worker has taken a request and its core knows it. `what` is what it offers, or where a message goes, and `into` where a
    read puts its bytes. A message is a list of ints."""

    def __init__(self, kind, link, thread, what, into=None):
        self.kind, self.link, self.thread, self.what, self.into = kind, link, thread, what, into
        self.number, self.begun = None, False
        self.block = thread.block

    def phase(self):
        return "started" if self.begun else "waiting" if self.number is None else "offered"


class TreeCore:
    def __init__(self, names, core, limit):
        self.names, self.limit = names, limit
        self.requests = len(names.channels) + core.number
        self.steps, self.out, self.live, self.turn = 0, bytearray(), names.slots, 0
        self.globals = {}
        for item in names.top.values():
            if item.kind == "Global":
                self.globals[item] = [item.value] if item.size is None else [0] * item.size
        self.word, self.cut = None, False
        self.ready, self.threads, self.operations = deque(), set(), []
        self.outcome = None           # asked by a cancel whether an offer is withdrawn
        try:
            frame = Frame(self, core.func, None)
        except Trap as e:
            self.word = str(e)
            return
        self.first = Thread(None)
        self.first.gen = self.entry(core.func, frame, self.first)
        self.threads.add(self.first)
        self.ready.append(self.first)

    # ---- what may come in at a dispatch point

    def oldest(self, link, receives):
        """The oldest operation of the link that waits, or None: a receive, or another."""
        for o in self.operations:
            if (o.link, o.number) == (link, None) and (o.kind == "receive") == receives:
                return o
        return None

    def to_offer(self, link):
        o = self.oldest(link, False)
        return None if o is None else o.what

    def wants(self, link):
        return self.oldest(link, True) is not None

    def under(self, link, number, begun):
        """The operation that stands on the link under this number, or has begun there; or None."""
        return next((o for o in self.operations if (o.link, o.number, o.begun) == (link, number, begun)), None)

    def has_offered(self, link, number):
        return self.under(link, number, False) is not None

    def has_begun(self, link, number):
        return self.under(link, number, True) is not None

    def offer(self, link, number):
        self.oldest(link, False).number = number

    def is_taken(self, operation):
        """Its peer has it: a message has moved, and a request is at work."""
        if operation.kind == "send":
            self.has_ended(operation, 0)
        else:
            operation.begun = True

    def know(self, link, number):
        self.is_taken(self.under(link, number, False))

    def reply(self, link, number, answer):
        """A read puts as many of the bytes into its array as it asked for; what fits no request is a fault."""
        o = self.under(link, number, True)
        kind, what = answer
        if o.kind == "read" and kind == "bytes":
            what = what[:o.what[3]]
            o.into[:len(what)] = list(what)
            self.has_ended(o, len(what))
        elif o.kind == "write" and kind == "count":
            self.has_ended(o, what)
        else:
            self.has_ended(o, -2)

    def got(self, link, message):
        o = self.oldest(link, True)
        cells, first, count = o.what
        for k in range(min(count, len(message))):
            cells[first + k] = message[k]
        self.has_ended(o, 0)

    def has_ended(self, operation, value):
        self.operations.remove(operation)
        operation.thread.value = value
        self.ready.append(operation.thread)

    def cancel(self, block):
        """Each operation within the block either is done or never happens; the oldest is tried first."""
        block.marked = True
        for o in [o for o in self.operations if o.block is not None and o.block.is_within(block) and not o.begun]:
            if o.number is None or self.outcome(o.link, o.number):
                self.has_ended(o, -1)
            else:
                self.is_taken(o)

    def go(self):
        self.turn += 1
        try:
            self.run(self.ready.popleft())
        except Trap as e:
            self.word = str(e)
        except Out:
            self.word = "out-of-steps"
        except Cut:
            self.word, self.cut = "stalled", True

    def end(self):
        """How it ended, with what is seen of it."""
        values = [v for cells in self.globals.values() for v in cells]
        waiting = [(o.link, o.phase()) for o in self.operations]
        return self.word or "stalled", self.steps, bytes(self.out), values, waiting

    def run(self, running):
        while True:
            try:
                value, running.value = running.value, None
                ask = running.gen.send(value)
            except StopIteration:
                self.threads.discard(running)
                if running is self.first:
                    self.word = "finished"
                    return
                b = running.started_in
                # who waits at a block within which nobody lives any more goes to the front
                while b is not None:
                    if b.waiter and not self.lives_within(b):
                        self.ready.appendleft(b.waiter)
                        b.waiter = None
                    b = b.parent
                return
            if ask[0] == "async":
                self.ready.appendleft(running)
                running = ask[1]
                self.threads.add(running)
            elif ask[0] == "yield":
                self.ready.append(running)
                return
            elif ask[0] == "finish":
                if self.lives_within(ask[1]):
                    ask[1].waiter = running
                    return
            elif ask[0] == "cancel":
                self.cancel(ask[1])
            elif running.block is not None and running.block.is_cancelled():
                running.value = -1
            else:
                self.operations.append(Operation(ask[0], ask[1], running, *ask[2:]))
                return

    def lives_within(self, block):
        for t in self.threads:
            b = t.started_in
            while b is not None:
                if b is block:
                    return True
                b = b.parent
        return False

    def entry(self, func, frame, t):
        yield from self.activation(func, frame, t)

    def activation(self, func, frame, t):
        value = 0
        try:
            yield from self.body(func.body, frame, t)
        except Ret as r:
            value = r.value
        frame.release()
        return value

    def step(self):
        if self.steps >= self.limit:
            raise Out()
        self.steps += 1

    def cells(self, frame, decl):
        if decl.owner is None:
            return self.globals[decl]
        while frame.owner is not decl.owner:
            frame = frame.parent
        if decl not in frame.cells:
            frame.cells[decl] = [0] * (decl.size if decl.kind == "Array" else 1)
        return frame.cells[decl]

    def element(self, e, frame, t):
        """The cells of an array and the index in them."""
        cells = self.cells(frame, e.decl)
        i = yield from self.value(e.index, frame, t)
        if not 0 <= i < len(cells):
            raise Trap("index")
        return cells, i

    def place(self, place, frame, t):
        """The cells of the place and the index in them."""
        if place.kind == "Name":
            return self.cells(frame, place.decl), 0
        return (yield from self.element(place, frame, t))

    def value(self, e, frame, t):
        """Where a call or an operation in it lets another thread run, what was computed before stays in this generator."""
        k = e.kind
        if k == "Number":
            return e.value
        if k == "Name":
            return self.cells(frame, e.decl)[0]
        if k == "Index":
            cells, i = yield from self.element(e, frame, t)
            return cells[i]
        if k == "Group":
            return (yield from self.value(e.inner, frame, t))
        if k == "Unary":
            v = yield from self.value(e.inner, frame, t)
            return wrap(-v) if e.op == "-" else int(v == 0) if e.op == "!" else ~v
        if k == "Call":
            return (yield from self.call(e, frame, t))
        if k != "Chain":
            return (yield from self.operation(e, frame, t))
        v = yield from self.value(e.first, frame, t)
        for op, right in e.rest:
            if op == "And":
                v = int((yield from self.value(right, frame, t)) != 0) if v != 0 else 0
            elif op == "Or":
                v = 1 if v != 0 else int((yield from self.value(right, frame, t)) != 0)
            else:
                v = binary(op, v, (yield from self.value(right, frame, t)))
        return v

    def call(self, c, frame, t):
        args = []
        for p, a in zip(c.func.params, c.args):
            args.append(self.cells(frame, a.decl) if p.is_array else (yield from self.value(a, frame, t)))
        inner = Frame(self, c.func, None)
        for p, a in zip(c.func.params, args):
            inner.cells[p] = a if p.is_array else [a]
        return (yield from self.activation(c.func, inner, t))

    def operation(self, e, frame, t):
        if e.kind == "Send":
            array = array_named(e.value)
            message = [(yield from self.value(e.value, frame, t))] if array is None else list(self.cells(frame, array))
            return (yield ("send", e.link, message))
        if e.kind == "Recv":
            array = array_named(e.place)
            if array is not None:
                cells = self.cells(frame, array)
                return (yield ("receive", e.link, (cells, 0, len(cells))))
            cells, index = yield from self.place(e.place, frame, t)
            return (yield ("receive", e.link, (cells, index, 1)))
        place = yield from self.value(e.frm, frame, t)
        length = yield from self.value(e.len, frame, t)
        cells = self.cells(frame, e.decl)
        if place < 0 or not 0 <= length <= min(256, len(cells)) or place + length > FILE:
            raise Trap("file-range")
        if e.kind == "Read":
            return (yield ("read", self.requests, ("read", e.number, place, length), cells))
        return (yield ("write", self.requests, ("write", e.number, place, bytes(v & 255 for v in cells[:length]))))

    def body(self, stmts, frame, t):
        for s in stmts:
            yield from self.stmt(s, frame, t)

    def stmt(self, s, frame, t):
        k = s.kind
        if k == "Block":
            yield from self.body(s.body, frame, t)
            return
        if k == "For":
            if s.init:
                yield from self.stmt(s.init, frame, t)
        if k in ("While", "For"):
            while True:
                self.step()
                if s.test is not None and (yield from self.value(s.test, frame, t)) == 0:
                    return
                try:
                    yield from self.stmt(s.body, frame, t)
                except Brk:
                    return
                except Cont:
                    pass
                if k == "For" and s.next:
                    yield from self.stmt(s.next, frame, t)
        self.step()
        if k == "Empty":
            return
        if k == "Int":
            v = 0 if s.value is None else (yield from self.value(s.value, frame, t))
            self.cells(frame, s)[0] = v
        elif k == "Array":
            self.cells(frame, s)[:] = [0] * s.size
        elif k == "Assign":
            value = yield from self.value(s.value, frame, t)
            cells, i = yield from self.place(s.place, frame, t)
            cells[i] = value
        elif k == "CallStmt":
            yield from self.value(s.call, frame, t)
        elif k == "Print":
            values = []
            for a in s.args:
                values.append((yield from self.value(a, frame, t)))
            text = printed(s.format, values)
            if len(self.out) + len(text) > LIMIT:
                raise Trap("output-full")
            self.out += text
        elif k == "If":
            if (yield from self.value(s.test, frame, t)) != 0:
                yield from self.stmt(s.body, frame, t)
            elif s.other:
                yield from self.stmt(s.other, frame, t)
        elif k == "Break":
            raise Brk()
        elif k == "Continue":
            raise Cont()
        elif k == "Return":
            raise Ret(0 if s.value is None else (yield from self.value(s.value, frame, t)))
        elif k == "Do":
            b = Block(t.block)
            t.block = frame.blocks[s] = b
            yield from self.body(s.body, frame, t)
            self.step()
            yield ("finish", b)
            t.block = b.parent
        elif k == "Async":
            inner = Frame(self, s, frame)
            new = Thread(t.block)
            new.gen = self.thread(s, inner, new)
            yield ("async", new)
        elif k == "Yield":
            yield ("yield",)
        elif k == "Cancel":
            while s.block not in frame.blocks:
                frame = frame.parent
            yield ("cancel", frame.blocks[s.block])
        else:
            raise NotImplementedError(k)

    def thread(self, s, frame, t):
        yield from self.stmt(s.body, frame, t)
        frame.release()
