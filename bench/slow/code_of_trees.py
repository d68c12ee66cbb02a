"""The translation of trees to instructions, and a machine that runs and counts them."""
from collections import deque

from source import Cut
from tokens_and_trees import N, array_named, is_array

LIMIT = 4_194_304
MIN, SPAN = -(1 << 63), 1 << 64


class Compiled:
    def __init__(self, names, program):
        self.c = []
        self.nodes = []               # of each instruction the part of the text that it does
        self.loops = []
        self.calls = []
        self.texts = names.texts
        self.starts = {}
        for i in program.items:
            if i.kind == "Global" and i.size is None and i.value:
                self.starts[i.slot] = i.value
        self.at = {}
        for f in names.funcs:
            self.at[f] = len(self.c)
            self.node = f
            for s in f.body:
                self.stmt(s)
            self.put("Push", 0)
            self.put("Ret")
        for k, f in self.calls:
            self.c[k] = ("Call", self.at[f], len(f.params), f.slots)

    def put(self, *instr):
        self.c.append(instr)
        self.nodes.append(self.node)
        return len(self.c) - 1

    def patch(self, k):
        self.c[k] = (self.c[k][0], len(self.c)) if self.c[k][0] != "Async" else ("Async", self.c[k][1], len(self.c))

    def array(self, e):
        d = e.decl
        if d.kind == "Param":
            self.put("Load", e.level, d.slot)
        elif d.owner is None:
            self.put("ArrG", d.slot, d.size)
        else:
            self.put("Arr", e.level, d.slot, d.size)

    def reference(self, p):
        """To the elements into which a receive goes."""
        self.node = p
        if array_named(p) is not None:
            self.array(p)
        elif p.kind == "Index":
            self.array(p)
            self.expr(p.index)
            self.put("Place")
        elif p.decl.owner is None:
            self.put("ArrG", p.decl.slot, 1)
        else:
            self.put("Arr", p.level, p.decl.slot, 1)

    def expr(self, e):
        outer, self.node = self.node, e
        self.value(e)
        self.node = outer

    def value(self, e):
        k = e.kind
        if k == "Number":
            self.put("Push", e.value)
        elif k == "Name":
            if is_array(e.decl):
                self.array(e)
            elif e.decl.owner is None:
                self.put("LoadG", e.decl.slot)
            else:
                self.put("Load", e.level, e.decl.slot)
        elif k == "Index":
            self.array(e)
            self.expr(e.index)
            self.put("Elem")
        elif k == "Group":
            self.expr(e.inner)
        elif k == "Unary":
            self.expr(e.inner)
            self.put({"-": "Neg", "!": "Not", "~": "Flip"}[e.op])
        elif k == "Call":
            for a in e.args:
                self.expr(a)
            self.calls.append((self.put("Call"), e.func))
        elif k == "Send":
            self.expr(e.value)
            self.put("Send", e.link)
        elif k == "Recv":
            self.reference(e.place)
            self.node = e
            self.put("Recv", e.link)
        elif k in ("Read", "Write"):
            self.expr(e.frm)
            self.expr(e.len)
            self.array(e)
            self.put(k, e.number)
        else:
            self.expr(e.first)
            for (op, right), sign in zip(e.rest, e.signs):
                self.node = N("Sign", sign)
                if op in ("And", "Or"):
                    j = self.put("Jz" if op == "And" else "Jnz", None)
                    self.expr(right)
                    self.put("Bool")
                    over = self.put("Jump", None)
                    self.patch(j)
                    self.put("Push", 0 if op == "And" else 1)
                    self.patch(over)
                else:
                    self.expr(right)
                    self.put(op)

    def stmt(self, s):
        outer, self.node = self.node, s
        self.statement(s)
        self.node = outer

    def statement(self, s):
        k = s.kind
        if k == "Block":
            for x in s.body:
                self.stmt(x)
            return
        if k == "For" and s.init:
            self.stmt(s.init)
        if k in ("While", "For"):
            self.node = s if s.test is None else s.test
            top = self.put("Step")
            self.node, out = s, None
            if s.test is not None:
                self.expr(s.test)
                out = self.put("Jz", None)
            self.loops.append(([], []))
            self.stmt(s.body)
            breaks, conts = self.loops.pop()
            for j in conts:
                if k == "While":
                    self.c[j] = ("Jump", top)
                else:
                    self.patch(j)
            if k == "For" and s.next:
                self.stmt(s.next)
            self.put("Jump", top)
            for j in breaks + ([] if out is None else [out]):
                self.patch(j)
            return
        self.put("Step")
        if k == "Int":
            if s.value is None:
                self.put("Push", 0)
            else:
                self.expr(s.value)
            self.put("Store", 0, s.slot)
        elif k == "Array":
            self.put("Clear", s.slot, s.size)
        elif k == "Assign":
            self.expr(s.value)
            p = s.place
            if p.kind == "Index":
                self.array(p)
                self.expr(p.index)
                self.put("SetElem")
            elif p.decl.owner is None:
                self.put("StoreG", p.decl.slot)
            else:
                self.put("Store", p.level, p.decl.slot)
        elif k == "CallStmt":
            self.expr(s.call)
            self.put("Drop")
        elif k == "Print":
            for a in s.args:
                self.expr(a)
            self.put("Print", s.text, len(s.args))
        elif k == "If":
            self.expr(s.test)
            j = self.put("Jz", None)
            self.stmt(s.body)
            if s.other:
                over = self.put("Jump", None)
                self.patch(j)
                self.stmt(s.other)
                self.patch(over)
            else:
                self.patch(j)
        elif k == "Break":
            self.loops[-1][0].append(self.put("Jump", None))
        elif k == "Continue":
            self.loops[-1][1].append(self.put("Jump", None))
        elif k == "Return":
            if s.value is None:
                self.put("Push", 0)
            else:
                self.expr(s.value)
            self.put("Ret")
        elif k == "Do":
            self.put("Enter", s.slot)
            for x in s.body:
                self.stmt(x)
            self.node = N("Finish", s.finish)
            self.put("Step")
            self.put("Finish", s.slot)
        elif k == "Async":
            j = self.put("Async", s.slots, None)
            self.stmt(s.body)
            self.put("End")
            self.patch(j)
        elif k == "Yield":
            self.put("Yield")
        elif k == "Cancel":
            self.put("Cancel", s.level, s.block.slot)
        elif k != "Empty":
            raise NotImplementedError(k)


class F:
    __slots__ = ("slots", "up", "n", "kids", "over")

    def __init__(self, n, up):
        self.slots, self.up, self.n, self.kids, self.over = [0] * n, up, n, 0, False
        if up:
            up.kids += 1


class T:
    __slots__ = ("pc", "frame", "stack", "callers", "block", "home")


class B:
    __slots__ = ("parent", "count", "owner", "marked")


def around(block):
    """The block and those round it, the innermost first."""
    found = []
    while block is not None:
        found.append(block)
        block = block.parent
    return found


class CodeCore:
    """A core at a dispatch point, or one that has ended. What was offered stands in a table by link and number, likewise the
    requests that the worker has begun, and what still is to be offered or to be received in a queue for each link."""

    def __init__(self, compiled, names, core, limit):
        self.word, self.steps, self.instructions, self.out, self.turn = None, 0, 0, bytearray(), 0
        self.cut = False
        links = len(names.channels) + len(names.cores)
        self.requests = len(names.channels) + core.number
        self.sends = [deque() for _ in range(links)]
        self.receives = [deque() for _ in range(links)]
        self.offers, self.begun = {}, {}
        self.births = 0
        self.stood = None             # the thread that ran last, and its instruction, where it met a trap or called off a block
        self.told = ()                # numbers that say more of a trap
        self.outcome = None
        self.limit = limit
        self.g = [0] * names.slots
        for s, v in compiled.starts.items():
            self.g[s] = v
        self.live = names.slots
        self.code, self.texts = compiled.c, compiled.texts
        w = core.func.slots
        self.ready = deque()
        if self.live + w + 4 > LIMIT:
            self.word = "stack-full"
            return
        self.live += w + 4
        t = T()
        t.pc, t.frame, t.stack, t.callers, t.block, t.home = compiled.at[core.func], F(w, None), [], [], None, None
        self.ready.append(t)

    def give_back(self, f):
        f.over = True
        while f is not None and f.over and f.kids == 0:
            self.live -= f.n + 4
            f = f.up
            if f is not None:
                f.kids -= 1

    def ended(self, t):
        """Counts a thread out of its block; an emptied block whose owner waits lets it on."""
        b = t.home
        if b is None:
            return
        b.count -= 1
        if b.count == 0 and b.owner is not None:
            self.ready.appendleft(b.owner)

    # ---- what may come in at a dispatch point

    def to_offer(self, link):
        return self.sends[link][0][2] if self.sends[link] else None

    def has_begun(self, link, number):
        return (link, number) in self.begun

    def wants(self, link):
        return bool(self.receives[link])

    def has_offered(self, link, number):
        return (link, number) in self.offers

    def offer(self, link, number):
        self.offers[link, number] = self.sends[link].popleft()

    def know(self, link, number):
        o = self.offers.pop((link, number))
        if link == self.requests:
            self.begun[link, number] = o
        else:
            self.goes_on(o[1], 0)

    def reply(self, link, number, answer):
        _, t, asked, into = self.begun.pop((link, number))
        value = -2
        if (asked[0], answer[0]) == ("read", "bytes"):
            home, s, n = into
            value = 0
            for b in answer[1]:
                if value == n:
                    break
                home[s + value] = b
                value += 1
        elif (asked[0], answer[0]) == ("write", "count"):
            value = answer[1]
        self.goes_on(t, value)

    def got(self, link, message):
        _, t, (home, s, n), _ = self.receives[link].popleft()
        for k, v in enumerate(message[:n]):
            home[s + k] = v
        self.goes_on(t, 0)

    def goes_on(self, t, value):
        t.stack.append(value)
        self.ready.append(t)

    def cancel(self, block):
        """Tries all that has started within the block, by birth; says whether it came to its end."""
        block.marked = True
        tried = [(o, q, link, None) for q in (self.sends, self.receives) for link in range(len(q)) for o in q[link]]
        tried += [(o, None, link, number) for (link, number), o in self.offers.items()]
        for o, q, link, number in sorted((x for x in tried if block in around(x[0][1].block)), key=lambda x: x[0][0]):
            if number is None:
                q[link].remove(o)
                self.goes_on(o[1], -1)
                continue
            try:
                withdrawn = self.outcome(link, number)
            except Cut:
                self.word, self.cut = "stalled", True
                return False
            if withdrawn:
                del self.offers[link, number]
                self.goes_on(o[1], -1)
            else:
                self.know(link, number)
        return True

    def go(self):
        self.turn += 1
        self.thread(self.ready.popleft())

    def stops(self, word, t, pc, *told):
        """Ends the core at the instruction before this address."""
        self.word, self.stood, self.told = word, (t, pc - 1), told

    def end(self):
        """How it ended, with what is seen of it."""
        waiting = [(o[0], link, "waiting") for q in (self.sends, self.receives) for link, ops in enumerate(q) for o in ops]
        waiting += [(o[0], link, "offered") for (link, _), o in self.offers.items()]
        waiting += [(o[0], link, "started") for (link, _), o in self.begun.items()]
        return self.word or "stalled", self.steps, bytes(self.out), self.g, [o[1:] for o in sorted(waiting)]

    def thread(self, t):
        code, st, fr = self.code, t.stack, t.frame
        pc = t.pc
        while True:
            ins = code[pc]
            op = ins[0]
            if op == "Step":
                if self.steps == self.limit:
                    return self.stops("out-of-steps", t, pc + 1)
                self.steps += 1
                self.instructions += 1
                pc += 1
                continue
            self.instructions += 1
            pc += 1
            if op == "Push":
                st.append(ins[1])
            elif op == "Load":
                f = fr
                for _ in range(ins[1]):
                    f = f.up
                st.append(f.slots[ins[2]])
            elif op == "LoadG":
                st.append(self.g[ins[1]])
            elif op == "Store":
                f = fr
                for _ in range(ins[1]):
                    f = f.up
                f.slots[ins[2]] = st.pop()
            elif op == "StoreG":
                self.g[ins[1]] = st.pop()
            elif op == "Arr":
                f = fr
                for _ in range(ins[1]):
                    f = f.up
                st.append((f.slots, ins[2], ins[3]))
            elif op == "ArrG":
                st.append((self.g, ins[1], ins[2]))
            elif op == "Elem":
                i = st.pop()
                home, s, n = st.pop()
                if i < 0 or i >= n:
                    return self.stops("index", t, pc, i, n)
                st.append(home[s + i])
            elif op == "SetElem":
                i = st.pop()
                home, s, n = st.pop()
                v = st.pop()
                if i < 0 or i >= n:
                    return self.stops("index", t, pc, i, n)
                home[s + i] = v
            elif op == "Clear":
                for k in range(ins[1], ins[1] + ins[2]):
                    fr.slots[k] = 0
            elif op == "Jump":
                pc = ins[1]
            elif op == "Jz":
                if st.pop() == 0:
                    pc = ins[1]
            elif op == "Jnz":
                if st.pop() != 0:
                    pc = ins[1]
            elif op == "Neg":
                v = -st.pop()
                st.append(MIN if v == -MIN else v)
            elif op == "Not":
                st.append(1 if st.pop() == 0 else 0)
            elif op == "Flip":
                st.append(-1 - st.pop())
            elif op == "Bool":
                st.append(0 if st.pop() == 0 else 1)
            elif op == "Drop":
                st.pop()
            elif op == "Print":
                k = ins[2]
                args = st[len(st) - k:]
                del st[len(st) - k:]
                it = iter(args)
                parts = self.texts[ins[1]].split(b"%%")
                done = []
                for p in parts:
                    pieces = p.split(b"%")
                    s = pieces[0]
                    for q in pieces[1:]:
                        v = next(it)
                        s += (b"%d" % v if q[:1] == b"d" else bytes([v & 255])) + q[1:]
                    done.append(s)
                text = b"%".join(done)
                if len(self.out) + len(text) > LIMIT:
                    return self.stops("output-full", t, pc)
                self.out += text
            elif op == "Call":
                _, a, k, w = ins
                if self.live + w + 4 > LIMIT:
                    return self.stops("stack-full", t, pc)
                self.live += w + 4
                f = F(w, None)
                if k:
                    f.slots[:k] = st[len(st) - k:]
                    del st[len(st) - k:]
                t.callers.append((pc, fr))
                fr, pc = f, a
            elif op == "Ret":
                v = st.pop()
                self.give_back(fr)
                if not t.callers:
                    # the core's entry; a body ends by End
                    self.word = "finished"
                    return
                pc, fr = t.callers.pop()
                st.append(v)
            elif op == "Enter":
                b = B()
                b.parent, b.count, b.owner, b.marked = t.block, 0, None, False
                fr.slots[ins[1]] = b
                t.block = b
            elif op == "Finish":
                b = fr.slots[ins[1]]
                t.block = b.parent
                if b.count:
                    b.owner = t
                    t.pc, t.frame = pc, fr
                    return
            elif op == "Async":
                w = ins[1]
                if self.live + w + 4 > LIMIT:
                    return self.stops("stack-full", t, pc)
                self.live += w + 4
                t.pc, t.frame = ins[2], fr
                self.ready.appendleft(t)
                n = T()
                n.pc, n.frame, n.stack, n.callers, n.block, n.home = pc, F(w, fr), [], [], t.block, t.block
                t.block.count += 1
                t = n
                st, fr = t.stack, t.frame
            elif op == "End":
                self.give_back(fr)
                self.ended(t)
                return
            elif op == "Yield":
                t.pc, t.frame = pc, fr
                self.ready.append(t)
                return
            elif op == "Place":
                i = st.pop()
                home, s, n = st.pop()
                if i < 0 or i >= n:
                    return self.stops("index", t, pc, i, n)
                st.append((home, s + i, 1))
            elif op == "Cancel":
                f = fr
                for _ in range(ins[1]):
                    f = f.up
                self.stood = t, pc - 1
                if not self.cancel(f.slots[ins[2]]):
                    return
            elif op in ("Send", "Recv") and any(b.marked for b in around(t.block)):
                st[-1] = -1
            elif op in ("Send", "Recv"):
                t.pc, t.frame = pc, fr
                queues, what = self.sends if op == "Send" else self.receives, st.pop()
                if op == "Send":
                    what = what[0][what[1]:what[1] + what[2]] if isinstance(what, tuple) else [what]
                queues[ins[1]].append((self.births, t, what, None))
                self.births += 1
                return
            elif op in ("Read", "Write"):
                home, s, n = st.pop()
                length, place = st.pop(), st.pop()
                if not (place >= 0 and length >= 0 and length <= 256 and length <= n and place + length <= 1_048_576):
                    return self.stops("file-range", t, pc, place, length, n)
                if any(b.marked for b in around(t.block)):
                    st.append(-1)
                    continue
                t.pc, t.frame = pc, fr
                what = length if op == "Read" else bytes(home[k] % 256 for k in range(s, s + length))
                asked = (op.lower(), ins[1], place, what)
                self.sends[self.requests].append((self.births, t, asked, (home, s, length)))
                self.births += 1
                return
            else:
                b = st.pop()
                a = st.pop()
                if op == "Add":
                    v = a + b
                elif op == "Sub":
                    v = a - b
                elif op == "Mul":
                    v = a * b
                elif op in ("Div", "Rem"):
                    if b == 0:
                        return self.stops("zero-divisor", t, pc)
                    r = abs(a) % abs(b)
                    if a < 0:
                        r = -r
                    v = (a - r) // b if op == "Div" else r
                elif op == "Shl":
                    v = a * (1 << (b & 63))
                elif op == "Shr":
                    v = a // (1 << (b & 63))
                elif op == "BitOr":
                    v = a | b
                elif op == "BitXor":
                    v = a ^ b
                elif op == "BitAnd":
                    v = a & b
                elif op == "Eq":
                    v = 1 if a == b else 0
                elif op == "Ne":
                    v = 0 if a == b else 1
                elif op == "Less":
                    v = 1 if a < b else 0
                elif op == "LessEq":
                    v = 0 if a > b else 1
                elif op == "More":
                    v = 1 if a > b else 0
                elif op == "MoreEq":
                    v = 0 if a < b else 1
                else:
                    raise NotImplementedError(op)
                v %= SPAN
                st.append(v - SPAN if v >= -MIN else v)
