"""Random accepted programs, one statement or brace per line, so that lines can be taken out."""
import random

EDGES = [0, 1, 2, 3, 5, 7, 10, 63, 64, 65, 100, 255, 256, 1000, 4095, 1 << 31, (1 << 32) - 1, 1 << 62, 9223372036854775807, 9223372036854775806]
LEVEL = [["||"], ["&&"], ["|"], ["^"], ["&"], ["==", "!="], ["<", "<=", ">", ">="], ["<<", ">>"], ["+", "-"], ["*", "/", "%"]]
ALL = [o for l in LEVEL for o in l]


class Gen:
    def __init__(self, seed, threads=False):
        self.r = random.Random(seed)
        self.lines = []
        self.indent = 0
        self.fresh = 0
        self.threads = threads
        self.budget = self.r.choice([6, 15, 30, 60, 120])
        self.risk = self.r.choice([0.0, 0.0, 0.02, 0.1, 0.3])
        self.long = self.r.random() < 0.03
        self.loops = 0
        self.functions = []
        self.calling = self.r.choice([0.0, 0.15, 0.3, 0.5])
        self.inside, self.again = None, 0
        self.in_async_fn = True
        self.blocks = []
        self.can_async = False
        self.ret_ok = True

    def put(self, text):
        self.lines.append("  " * self.indent + text)

    # ---- names

    def ints(self):
        seen, out = set(), []
        for s in reversed(self.scopes):
            for n, k in s.items():
                if n not in seen:
                    seen.add(n)
                    if k == 0:
                        out.append(n)
        return out

    def arrays(self):
        seen, out = set(), []
        for s in reversed(self.scopes):
            for n, k in s.items():
                if n not in seen:
                    seen.add(n)
                    if k > 0:
                        out.append((n, k))
        return out

    def new(self):
        # sometimes a name that is visible already, from another scope
        if self.r.random() < 0.3:
            c = [n for s in self.scopes for n in s if n not in self.scopes[-1] and n not in self.locked]
            if c:
                return self.r.choice(c)
        self.fresh += 1
        return f"v{self.fresh}"

    # ---- expressions

    def number(self):
        r = self.r
        x = r.random()
        if x < 0.5:
            return str(r.randrange(0, 12))
        if x < 0.75:
            return str(r.choice(EDGES))
        if x < 0.8:
            return r.choice(["OK", "CANCELLED", "FAULT"])
        if x < 0.9:
            return str(r.randrange(0, 1 << 63))
        return str(r.randrange(0, 300))

    def index(self, n, d):
        r = self.r
        if r.random() < self.risk:
            return r.choice([f"{n}", "-1", f"{n - 1} + 1", self.expr(d - 1), f"-{r.randrange(1, 9)}"])
        x = r.random()
        if x < 0.4:
            return str(r.randrange(0, n))
        e = self.expr(d - 1)
        if n & (n - 1) == 0:
            return f"({e}) & {n - 1}"
        return f"(({e}) % {n} + {n}) % {n}"

    def atom(self, d):
        r = self.r
        x = r.random()
        ints = self.ints()
        if d > 0 and x < 0.15:
            arrays = self.arrays()
            if arrays:
                n, k = r.choice(arrays)
                return f"{n}[{self.index(k, d)}]"
        if d > 0 and x < 0.15 + self.calling and self.functions:
            c = self.call(True, d)
            if c:
                return c
        if x < 0.55 and ints:
            return r.choice(ints)
        return self.number()

    def operand(self, d):
        r = self.r
        if d > 0 and r.random() < 0.35:
            e = f"({self.expr(d - 1)})"
        else:
            e = self.atom(d)
        while r.random() < 0.2:
            e = r.choice(["-", "!", "~"]) + r.choice(["", " "]) + e
        return e

    def expr(self, d=3):
        r = self.r
        if d <= 0 or r.random() < 0.2:
            return self.operand(0)
        n = r.choice([1, 1, 2, 2, 2, 3, 3, 4, 6])
        out = [self.operand(d)]
        for _ in range(n - 1):
            op = r.choice(ALL)
            if op in ("/", "%") and r.random() > self.risk:
                # a divisor that is seldom zero
                right = r.choice([str(r.randrange(1, 20)), f"({self.expr(d - 1)} | 1)", f"-{r.randrange(1, 5)}", str(r.choice(EDGES[1:]))])
                if r.random() < 0.1:
                    right = "-1"
            elif op in ("/", "%"):
                right = r.choice(["0", "0", "(1 - 1)", self.operand(d - 1)])
            elif op in ("&&", "||") and r.random() < 0.15:
                # a right side that traps where it is evaluated
                arrays = self.arrays()
                right = r.choice(["1 / 0", "3 % 0"] + [f"{n}[{k}]" for n, k in arrays])
            else:
                right = self.operand(d - 1)
            sep = r.choice(["", " "])
            out += [sep + op + (sep or (" " if right[:1] in "&|=<>/*" else "")), right]
        # no comment may come about
        return "".join(out)

    # ---- statements

    def text(self):
        r = self.r
        parts, args = [], []
        for _ in range(r.randrange(0, 5)):
            x = r.random()
            if x < 0.4:
                parts.append("%d")
                args.append(self.expr(2))
            elif x < 0.55:
                parts.append("%c")
                args.append(r.choice([self.expr(1), str(r.randrange(32, 127)), str(r.randrange(0, 1000)), f"-{r.randrange(0, 1000)}"]))
            elif x < 0.65:
                parts.append("%%")
            elif x < 0.8:
                parts.append(r.choice(["\\n", "\\t", "\\\\", '\\"']))
            else:
                parts.append(r.choice([" ", "x", "abc", "d", "c", ": ", "~", "/*", "//"]))
        if self.long and r.random() < 0.5:
            parts.append("0123456789abcdef" * r.choice([64, 512, 4096]))
        if r.random() < 0.7:
            parts.append("\\n")
        args = "".join(", " + a for a in args)
        return f'printf("{"".join(parts)}"{args});'

    def place(self):
        r = self.r
        arrays = self.arrays()
        ints = [n for n in self.ints() if n not in self.counters]
        if arrays and (not ints or r.random() < 0.35):
            n, k = r.choice(arrays)
            return f"{n}[{self.index(k, 2)}]"
        return r.choice(ints) if ints else None

    def brace(self, act):
        self.put("{")
        self.indent += 1
        self.scopes.append({})
        act()
        self.scopes.pop()
        self.indent -= 1
        self.put("}")

    def sub(self, depth):
        """The body of an if or a loop."""
        if self.r.random() < 0.75:
            self.brace(lambda: self.many(depth))
        else:
            self.indent += 1
            self.stmt(depth)
            self.indent -= 1

    def many(self, depth):
        for _ in range(self.r.choice([0, 1, 1, 2, 3, 4, 5])):
            if self.budget <= 0:
                return
            self.any(depth)

    def any(self, depth):
        if self.r.random() < 0.28:
            self.decl()
        else:
            self.stmt(depth)

    def decl(self):
        r = self.r
        self.budget -= 1
        n = self.new()
        x = r.random()
        if x < 0.25:
            k = r.choice([1, 2, 3, 4, 7, 8, 10, 16, 64])
            self.put(f"int {n}[{k}];")
            self.scopes[-1][n] = k
        elif x < 0.45:
            self.put(f"int {n};")
            self.scopes[-1][n] = 0
        else:
            self.put(f"int {n} = {self.whole(3)};")
            self.scopes[-1][n] = 0

    def whole(self, d):
        """A right side: an expression, or nothing but a call."""
        r = self.r
        if self.functions and r.random() < 0.25:
            c = self.call(True, d)
            if c:
                return c
        return self.expr(d)

    def call(self, value, d):
        """A call of a function that is written before or, a few times, of the one that it stands in. The first parameter of one that
        calls itself says how deep that goes."""
        r = self.r
        fs = [f for f in self.functions if (f[2] or not value) and (not f[3] or self.in_async_fn) and (f[0] != self.inside or self.again > 0)]
        if not fs:
            return None
        name, params, gives, _, counted = r.choice(fs)
        self.again -= name == self.inside
        args = []
        for k, p in enumerate(params):
            if p:
                arrays = [n for n, k in self.arrays() if k >= p]
                if not arrays:
                    return None
                args.append(r.choice(arrays))
            elif counted and k == 0:
                less = "" if r.random() < self.risk / 10 else " - 1"
                args.append(f"{counted}{less}" if name == self.inside else str(r.choice([0, 1, 1, 2, 3])))
            else:
                args.append(self.expr(d - 1))
        return f"{name}({', '.join(args)})"

    def stmt(self, depth):
        r = self.r
        self.budget -= 1
        x = r.random()
        if depth <= 0:
            x *= 0.5
        if x < 0.22:
            p = self.place()
            if p:
                self.put(f"{p} = {self.whole(3)};")
            else:
                self.put(";")
        elif x < 0.40:
            self.put(self.text())
        elif x < 0.42:
            self.put(";")
        elif x < 0.47 and self.loops and self.loop_ok:
            self.put(r.choice(["break;", "continue;"]))
        elif x < 0.475 and self.ret_ok:
            e = f" {self.whole(2)}" if self.gives else ""
            self.put(f"return{e};")
        elif x < 0.5 and self.functions:
            c = self.call(False, 2)
            self.put(f"{c};" if c else ";")
        elif self.threads and self.in_async_fn and x < 0.53:
            self.put("yield;")
        elif self.threads and self.in_async_fn and x < 0.60:
            self.saved(self.do, depth)
        elif self.threads and self.can_async and x < 0.66:
            self.put("async")
            self.saved(self.body_of_async, depth)
        elif x < 0.72:
            self.put(f"if ({self.expr(2)})")
            self.sub(depth - 1)
            if r.random() < 0.4 and self.lines[-1].strip() == "}":
                self.put("else")
                self.sub(depth - 1)
        elif x < 0.78:
            self.brace(lambda: self.many(depth - 1))
        elif x < 0.90:
            self.for_(depth)
        else:
            self.while_(depth)

    def saved(self, act, depth):
        old = self.loops, self.ret_ok, self.can_async, self.loop_ok
        self.loop_ok = False
        self.ret_ok = False
        act(depth)
        self.loops, self.ret_ok, self.can_async, self.loop_ok = old

    def do(self, depth):
        self.can_async = True
        self.put("do {")
        self.indent += 1
        self.scopes.append({})
        for _ in range(self.r.randrange(1, 5)):
            if self.r.random() < 0.5:
                self.budget -= 1
                self.put("async")
                self.saved(self.body_of_async, max(depth, 1))
            else:
                self.any(depth - 1)
        self.scopes.pop()
        self.indent -= 1
        self.put("} finish;")

    def body_of_async(self, depth):
        self.sub(depth - 1)

    def looped(self, depth, endless=False):
        old = self.loop_ok
        self.loops += 1
        self.loop_ok = True
        if endless and self.r.random() < 0.8:
            def body():
                if self.r.random() < 0.5:
                    self.many(depth - 1)
                self.put(f"if ({self.expr(2)})")
                self.indent += 1
                self.put(self.r.choice(["break;", "break;", "break;", "{ break; }", "continue;", "{ ; break; }"] + (["return" + (f" {self.expr(1)}" if self.gives else "") + ";"] if self.ret_ok else [])))
                self.indent -= 1
                self.many(depth - 1)
                if self.r.random() < 0.6:
                    self.put("break;")
            self.brace(body)
        else:
            self.sub(depth - 1)
        self.loops -= 1
        self.loop_ok = old

    def for_(self, depth):
        r = self.r
        self.scopes.append({})
        x = r.random()
        ints = [n for n in self.ints() if n not in self.counters]
        trips = r.choice([0, 1, 2, 3, 3, 5, 9])
        lock = None
        if x < 0.55:
            n = self.new()
            step = r.choice(["+ 1", "+ 1", "+ 2"])
            own = r.random() < 0.8
            if own:
                lock = n
            self.put(f"for (int {n} = {r.choice(['0', '1', self.expr(1)]) if not own else '0'}; {n} < {trips}; {n} = {n} {step})")
            self.scopes[-1][n] = 0
        elif x < 0.75 and ints:
            n = r.choice(ints)
            lock = n
            self.put(f"for ({n} = {trips}; {n} > 0; {n} = {n} - 1)")
        elif x < 0.85 and ints:
            n = r.choice(ints)
            self.put(f"for (; {n} {r.choice(['<', '!=', '>', '&'])} {self.expr(1)}; {n} = {n} {r.choice(['+', '-', '*', '/', '>>'])} {r.randrange(1, 4)})")
        elif x < 0.93:
            p = self.place()
            self.put(f"for ({f'{p} = {self.expr(1)}' if p and r.random() < 0.5 else ''}; {self.expr(1) if r.random() < 0.5 else ''}; {f'{p} = {self.expr(1)}' if p and r.random() < 0.5 else ''})")
        else:
            self.put("for (;;)")
        endless = x >= 0.75
        if lock:
            self.counters.append(lock)
        self.looped(depth, endless)
        if lock:
            self.counters.pop()
        self.scopes.pop()

    def while_(self, depth):
        r = self.r
        ints = [n for n in self.ints() if n not in self.counters]
        x = r.random()
        if x < 0.5 and ints:
            n = r.choice(ints)
            self.put(f"while ({n} {r.choice(['<', '>', '!=', '<=', '& 7 &', '% 5 <'])} {r.randrange(0, 6)})")
            old = self.loop_ok
            self.loops += 1
            self.loop_ok = True
            self.put("{")
            self.indent += 1
            self.scopes.append({})
            if r.random() < 0.9:
                self.put(f"{n} = {n} {r.choice(['+', '-'])} 1;")
            self.many(depth - 1)
            self.scopes.pop()
            self.indent -= 1
            self.put("}")
            self.loops -= 1
            self.loop_ok = old
            return
        self.put(f"while ({r.choice(['1', '0', self.expr(2), self.expr(2)])})")
        self.looped(depth, True)

    # ---- programs

    def function(self, k):
        r = self.r
        is_async, gives = self.threads and r.random() < 0.5, r.random() < 0.6
        params, names, scope, counted = [], [], {}, f"d{k}" if r.random() < 0.4 else None
        if counted:
            params, names, scope = [0], [f"int {counted}"], {counted: 0}
        for j in range(r.randrange(0, 4)):
            arr = r.choice([0, 0, 1, 4])
            params.append(arr)
            scope[f"p{j}"] = arr
            names.append(f"int p{j}{'[]' if arr else ''}")
        self.in_async_fn = is_async
        self.gives = gives
        self.put(f"{'async ' if is_async else ''}{'int' if gives else 'void'} g{k}({', '.join(names)})")
        self.put("{")
        self.indent += 1
        self.scopes = [self.top, scope]
        # an array parameter is never hidden by a name of its own scope
        told = (f"g{k}", params, gives, is_async, counted)
        if counted:
            e = f" {self.expr(1)}" if gives else ""
            self.put(f"if ({counted} < 1)")
            self.put(f"  return{e};")
            self.functions.append(told)
            self.inside, self.again = f"g{k}", r.choice([1, 2, 2, 3])
            self.locked.add(counted)
            self.counters.append(counted)
        self.many(2)
        if gives and r.random() < 0.5:
            self.put(f"return {self.whole(3)};")
        if counted:
            self.inside = None
            self.counters.pop()
        else:
            self.functions.append(told)
        self.indent -= 1
        self.put("}")

    def program(self):
        r = self.r
        self.top = {}
        self.scopes = [self.top]
        self.locked = set()
        self.counters = []
        self.loop_ok = False
        before = []
        name = "f"
        gives = r.random() < 0.3
        if self.r.random() < 0.01:
            # globals that fill the core's words, nearly or quite
            more = 1023
            for k in range(more):
                self.put(f"int w{k}[4096];")
                self.top[f"w{k}"] = 4096
            self.put(f"int rest[{r.randrange(4030, 4097)}];")
            self.top["rest"] = 4000
        for _ in range(r.randrange(0, 6)):
            n = self.new()
            if n in self.top:
                continue
            x = r.random()
            if x < 0.35:
                k = r.choice([1, 2, 5, 8, 16, 100])
                self.put(f"int {n}[{k}];")
                self.top[n] = k
            elif x < 0.5:
                self.put(f"int {n};")
                self.top[n] = 0
            else:
                self.put(f"int {n} = {r.choice(['', '-'])}{r.choice([r.randrange(0, 20), r.choice(EDGES)])};")
                self.top[n] = 0
        self.locked = {"f", "a"} | {f"g{k}" for k in range(4)}
        for k in range(r.choice([0, 1, 2, 3, 3, 4])):
            self.function(k)
        core = "core a(f);"
        first = r.random() < 0.7
        if first:
            self.lines.insert(0, core)
        self.in_async_fn = True
        self.gives = gives
        self.put(f"async {'int' if gives else 'void'} f({r.choice(['', 'void'])})")
        self.put("{")
        self.indent += 1
        self.scopes = [self.top, {}]
        while self.budget > 0:
            self.any(r.choice([2, 3, 4]))
            if r.random() < 0.08:
                break
        self.indent -= 1
        self.put("}")
        if not first:
            self.put(core)
        steps = r.choice([1, 2, 5, 10, 30, 100, 300, 1000, 1000, 3000, 3000, 5000])
        if self.long:
            steps = 20000
        return "\n".join(self.lines) + "\n", steps
