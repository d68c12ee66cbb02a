"""The 17 rules of the language."""
import tokens_and_trees as lang


class Broken(Exception):
    pass


class Rules:
    """`misused` has for each place where rule 4 is broken the name that stands there, what it is, and what is wanted."""

    def __init__(self, program):
        self.program = program
        self.misused, self.misuse = {}, None
        self.found = []           # (order, rule, at)
        self.order = 0
        self.top = {}
        for i in program.items:
            self.top.setdefault(i.name, i)
        self.calls = {}
        self.widths = {}          # of each channel the number of ints that its first Send or Recv names
        self.reach = {}
        self.walk()               # to learn the calls and the widths
        self.reached()
        self.found, self.order = [], 0
        self.walk()

    def reached(self):
        for c in self.program.items:
            if c.kind != "Core":
                continue
            e = self.top.get(c.entry)
            todo = [e] if e is not None and e.kind == "Function" else []
            seen = set()
            while todo:
                x = todo.pop()
                if x in seen:
                    continue
                seen.add(x)
                todo += self.calls.get(x, [])
            for x in seen:
                self.reach.setdefault(x, []).append(c)

    def first(self):
        return min(self.found)[1:] if self.found else None

    def node(self, at, *rules):
        self.order += 1
        for r in rules:
            if r:
                self.found.append((self.order, r, at))
        if self.misuse:
            self.misused.setdefault(at, self.misuse)
            self.misuse = None

    def misuses(self, name, found, wanted):
        """Rule 4, of the next node; of several uses in it the first is told."""
        self.misuse = self.misuse or (name, found, wanted)
        return 4

    def walk(self):
        items = self.program.items
        self.node(0, 15 if not 1 <= sum(i.kind == "Core" for i in items) <= 16 else 0)
        names, channels, files, paths = set(), 0, 0, set()
        for i in items:
            dup = 1 if i.name in names else 0
            names.add(i.name)
            if i.kind == "Global":
                self.node(i.at, dup, 13 if i.size is not None and not 1 <= i.size <= 4096 else 0)
            elif i.kind == "Channel":
                ends = [self.top.get(i.frm), self.top.get(i.to)]
                wrong = [e for e in ends if e is not None and e.kind != "Core"]
                self.node(i.at, dup, 2 if None in ends else 0,
                          self.misuses(wrong[0].name, self.sort(wrong[0]), "Core") if wrong else 0,
                          14 if (i.frm == i.to) or not 1 <= i.cap <= 64 or channels >= 64 else 0)
                channels += 1
            elif i.kind == "File":
                self.node(i.at, dup, 17 if files >= 16 or i.path in paths else 0)
                files += 1
                paths.add(i.path)
            elif i.kind == "Core":
                e = self.top.get(i.entry)
                self.node(i.at, dup, 2 if e is None else 0,
                          self.misuses(i.entry, self.sort(e), "Function") if e is not None and e.kind != "Function" else 0,
                          10 if e is not None and e.kind == "Function" and (not e.is_async or e.params) else 0)
            else:
                self.node(i.at, dup)
                self.function(i)

    def function(self, f):
        self.f = f
        self.calls[f] = []
        self.scopes = [self.top, {}]
        for p in f.params:
            dup = 1 if p.name in self.scopes[-1] else 0
            self.scopes[-1].setdefault(p.name, p)
            self.node(p.at, dup)
        self.labels, self.dos, self.inner, self.loop = [], 0, 0, False
        for s in f.body:
            self.stmt(s)

    def scoped(self, stmts):
        self.scopes.append({})
        for s in stmts:
            self.stmt(s)
        self.scopes.pop()

    def find(self, name):
        for s in reversed(self.scopes):
            if name in s:
                return s[name]
        return None

    @staticmethod
    def sort(d):
        if d.kind == "Global":
            return "int" if d.size is None else "array"
        if d.kind == "Param":
            return "array" if d.is_array else "int"
        return {"Int": "int", "Array": "array"}.get(d.kind, d.kind)

    def use(self, name, wanted):
        """The rules that a use of a name breaks."""
        d = self.find(name)
        if d is None:
            return 2
        return 0 if self.sort(d) == wanted else self.misuses(name, self.sort(d), wanted)

    def ints(self, e):
        """How many ints a Send or a Recv names by its value or its place, or None."""
        d = self.find(e.name) if e.kind == "Name" else None
        if d is None or self.sort(d) != "array":
            return 1
        return d.size if d.kind != "Param" and 1 <= d.size <= 16 else None

    def carries(self, channel, count):
        """Rule 4 where a Send or a Recv names no number of ints, or another than the first of its channel."""
        width = self.widths.setdefault(channel, 1 if count is None else count)
        return 0 if count == width else self.misuses(channel.name, count, width)

    def whole(self, e):
        """The whole value of a Send, or the place of a Recv: an int or an array."""
        if e.kind != "Name":
            self.expr(e)
            return
        d = self.find(e.name)
        fits = d is not None and self.sort(d) in ("int", "array")
        self.node(e.at, 2 if d is None else 0 if fits else self.misuses(e.name, self.sort(d), "message"))

    def stmt(self, s):
        k = s.kind
        plain = not self.f.is_async
        if k == "Block":
            self.node(s.at)
            self.scoped(s.body)
        elif k in ("Int", "Array"):
            self.node(s.at, 1 if s.name in self.scopes[-1] else 0, 13 if k == "Array" and not 1 <= s.size <= 4096 else 0)
            if k == "Int" and s.value is not None:
                self.expr(s.value)
            self.scopes[-1].setdefault(s.name, s)
        elif k == "Empty":
            self.node(s.at)
        elif k == "Assign":
            self.node(s.at)
            self.expr(s.place)
            self.expr(s.value)
        elif k == "CallStmt":
            self.node(s.at)
            self.expr(s.call, True)
        elif k == "Print":
            n, i, bad, t = 0, 0, False, s.format
            while i < len(t):
                if t[i] == 37:
                    d = t[i + 1:i + 2]
                    if d in (b"d", b"c"):
                        n += 1
                    elif d != b"%":
                        bad = True
                        i -= 1
                    i += 2
                else:
                    i += 1
            self.node(s.at, 16 if bad or n != len(s.args) else 0)
            for a in s.args:
                self.expr(a)
        elif k == "If":
            self.node(s.at)
            self.expr(s.test)
            self.stmt(s.body)
            if s.other:
                self.stmt(s.other)
        elif k in ("While", "For"):
            self.node(s.at)
            self.scopes.append({})
            if k == "For" and s.init:
                self.stmt(s.init)
            if s.test is not None:
                self.expr(s.test)
            if k == "For" and s.next:
                self.stmt(s.next)
            old, self.loop = self.loop, True
            self.stmt(s.body)
            self.loop = old
            self.scopes.pop()
        elif k in ("Break", "Continue"):
            self.node(s.at, 0 if self.loop else 9)
        elif k == "Return":
            self.node(s.at, 9 if self.inner else 0, 12 if (s.value is not None) != self.f.gives_int else 0)
            if s.value is not None:
                self.expr(s.value)
        elif k == "Do":
            self.node(s.at, 6 if plain else 0)
            self.labels.append(s.label)
            old = self.loop, self.dos, self.inner
            self.loop, self.dos, self.inner = False, self.dos + 1, self.inner + 1
            self.scoped(s.body)
            self.loop, self.dos, self.inner = old
            self.labels.pop()
        elif k == "Async":
            self.node(s.at, 6 if plain else 0, 0 if self.dos else 7)
            old = self.loop, self.inner
            self.loop, self.inner = False, self.inner + 1
            self.scopes.append({})
            self.stmt(s.body)
            self.scopes.pop()
            self.loop, self.inner = old
        elif k == "Cancel":
            self.node(s.at, 6 if plain else 0, 0 if s.label in self.labels else 8)
        elif k == "Yield":
            self.node(s.at, 6 if plain else 0)

    def expr(self, e, dropped=False, broken=0):
        """Its value is used, but for that of a call which is a statement. Its own node breaks the rule `broken` besides."""
        k = e.kind
        plain = 0 if self.f.is_async else 6
        if k == "Number":
            self.node(e.at, broken)
        elif k == "Name":
            self.node(e.at, broken, self.use(e.name, "int"))
        elif k == "Index":
            self.node(e.at, broken, self.use(e.name, "array"))
            self.expr(e.index)
        elif k in ("Group", "Unary"):
            self.node(e.at, broken)
            self.expr(e.inner)
        elif k == "Chain":
            self.node(e.at, broken)
            self.expr(e.first)
            for _, x in e.rest:
                self.expr(x)
        elif k == "Call":
            d = self.find(e.name)
            if d is None or d.kind != "Function":
                self.node(e.at, broken, 2 if d is None else self.misuses(e.name, self.sort(d), "Function"))
                for a in e.args:
                    self.expr(a)
                return
            self.calls[self.f].append(d)
            self.node(e.at, broken, 3 if len(e.args) != len(d.params) else 0, 5 if d.is_async and not self.f.is_async else 0,
                      0 if d.gives_int or dropped else 12)
            for n, a in enumerate(e.args):
                if n < len(d.params) and d.params[n].is_array:
                    if a.kind == "Name":
                        self.node(a.at, self.use(a.name, "array"))
                    else:
                        self.expr(a, broken=self.misuses(None, None, "array"))
                else:
                    self.expr(a)
        elif k in ("Send", "Recv"):
            r = self.use(e.channel, "Channel")
            wrong, whole = 0, e.value if k == "Send" else e.place
            if r == 0:
                d = self.find(e.channel)
                r = self.carries(d, self.ints(whole))
                end = self.top.get(d.frm if k == "Send" else d.to)
                wrong = 11 if any(c is not end for c in self.reach.get(self.f, [])) else 0
            self.node(e.at, broken, r, plain, wrong)
            self.whole(whole)
        else:
            self.node(e.at, broken, self.use(e.file, "File"), self.use(e.array, "array"), plain)
            self.expr(e.frm)
            self.expr(e.len)


def refusal(text, steps):
    """The program, or lang.Fault with its status and line."""
    program = lang.parse(text)
    b = Rules(program).first()
    if b:
        raise lang.Fault(3, f"rule C{b[0]} at {b[1]}")
    if sum(i.kind == "Core" for i in program.items) * steps > 4_000_000:
        raise lang.Fault(10, "limit: steps")
    return program
