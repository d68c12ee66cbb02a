"""Lexer, parser and names of AC. Trees are objects of one class `N`."""
import re

WORDS = set("int void async do finish cancel yield if else while for break continue return core channel file printf Send Recv Read Write OK CANCELLED FAULT".split())
MARKS = ["||", "&&", "==", "!=", "<=", ">=", "<<", ">>"] + list("+-*/%<>&|^!~=()[]{},;:")
MARK = re.compile(b"|".join(re.escape(mark.encode()) for mark in MARKS))
WORD, DIGITS, BLANKS = re.compile(rb"[A-Za-z_0-9]+"), re.compile(rb"[0-9]+"), re.compile(rb"[ \t\r\n]+")
GREATEST = 9223372036854775807


class Fault(Exception):
    def __init__(self, status, line):
        super().__init__(line)
        self.status, self.line = status, line


class N:
    def __init__(self, kind, at, **fields):
        self.kind, self.at = kind, at
        self.__dict__.update(fields)


def lex(text):
    """List of (kind, value, at); kinds: name word number text mark."""
    if len(text) > 1_048_576:
        raise Fault(10, "limit: source")
    out, i, n = [], 0, len(text)
    digits = b"0123456789"
    letters = b"ABCDEFGHIJKLMNOPQRSTUVWXYZabcdefghijklmnopqrstuvwxyz_"
    while i < n:
        c = text[i:i + 1]
        if c in b" \t\r\n":
            i = BLANKS.match(text, i).end()
            continue
        if text[i:i + 2] == b"//":
            j = text.find(b"\n", i)
            i = n if j < 0 else j
            continue
        if text[i:i + 2] == b"/*":
            j = text.find(b"*/", i + 2)
            if j < 0:
                raise Fault(2, f"open comment at {i}")
            i = j + 2
            continue
        if c in letters:
            j = WORD.match(text, i).end()
            word = text[i:j].decode()
            out.append(("word" if word in WORDS else "name", word, i))
            i = j
            continue
        if c in digits:
            j = DIGITS.match(text, i).end()
            if int(text[i:j]) > GREATEST:
                raise Fault(2, f"number too large at {i}")
            if c == b"0" and j > i + 1:
                raise Fault(2, f"bad byte at {i + 1}")
            if j < n and text[j:j + 1] in letters:
                raise Fault(2, f"bad byte at {j}")
            out.append(("number", int(text[i:j]), i))
            i = j
            continue
        if c == b'"':
            j, bad, value = i + 1, None, bytearray()
            while True:
                if j >= n or text[j] == 10:
                    raise Fault(2, f"open text at {i}")
                b = text[j]
                if b == 34:
                    break
                if b == 92:
                    if j + 1 >= n or text[j + 1] == 10:
                        raise Fault(2, f"open text at {i}")
                    e = text[j + 1]
                    if e in b'nt\\"':
                        value.append({110: 10, 116: 9, 92: 92, 34: 34}[e])
                    elif bad is None:
                        bad = j + 1
                    j += 2
                    continue
                if not 0x20 <= b <= 0x7E and bad is None:
                    bad = j
                value.append(b)
                j += 1
            if bad is not None:
                raise Fault(2, f"bad byte at {bad}")
            out.append(("text", bytes(value), i))
            i = j + 1
            continue
        mark = MARK.match(text, i)
        if not mark:
            raise Fault(2, f"bad byte at {i}")
        out.append(("mark", mark[0].decode(), i))
        i = mark.end()
    return out


LEVELS = [["||"], ["&&"], ["|"], ["^"], ["&"], ["==", "!="], ["<", "<=", ">", ">="], ["<<", ">>"], ["+", "-"], ["*", "/", "%"]]
OPS = {"||": "Or", "&&": "And", "|": "BitOr", "^": "BitXor", "&": "BitAnd", "==": "Eq", "!=": "Ne", "<": "Less",
       "<=": "LessEq", ">": "More", ">=": "MoreEq", "<<": "Shl", ">>": "Shr", "+": "Add", "-": "Sub", "*": "Mul",
       "/": "Div", "%": "Rem"}


class Parser:
    """By the next token alone; the first token that does not fit is the unexpected one.

    A token that is too deep is answered where it is taken, and so only where it fits."""

    def __init__(self, tokens, length):
        self.t, self.i, self.len, self.depth = tokens, 0, length, 0

    def bad(self):
        raise Fault(2, f"unexpected token at {self.t[self.i][2] if self.i < len(self.t) else self.len}")

    def at(self):
        return self.t[self.i][2] if self.i < len(self.t) else self.len

    def see(self, *marks):
        return self.i < len(self.t) and self.t[self.i][0] in ("mark", "word") and self.t[self.i][1] in marks

    def kind(self, k):
        return self.i < len(self.t) and self.t[self.i][0] == k

    def move(self):
        if self.depth > 256:
            raise Fault(10, f"limit: nesting at {self.at()}")
        self.i += 1
        return self.t[self.i - 1]

    def want(self, mark):
        if not self.see(mark):
            self.bad()
        return self.move()

    def name(self):
        if not self.kind("name"):
            self.bad()
        return self.move()[1]

    def number(self):
        if not self.kind("number"):
            self.bad()
        return self.move()[1]

    def text(self):
        if not self.kind("text"):
            self.bad()
        return self.move()[1]

    def open(self, mark):
        self.want(mark)
        self.depth += 1

    def close(self, mark):
        # the closing mark itself stands with the mark open before it
        self.want(mark)
        self.depth -= 1

    def program(self):
        items = []
        while self.i < len(self.t):
            items.append(self.item())
        return N("Program", 0, items=items)

    def item(self):
        at = self.at()
        if self.see("channel"):
            self.move()
            name = self.name()
            self.open("(")
            a = self.name(); self.want(","); b = self.name(); self.want(","); cap = self.number()
            self.close(")"); self.want(";")
            return N("Channel", at, name=name, frm=a, to=b, cap=cap)
        if self.see("file"):
            self.move()
            name = self.name()
            self.open("("); path = self.text(); self.close(")"); self.want(";")
            return N("File", at, name=name, path=path)
        if self.see("core"):
            self.move()
            name = self.name()
            self.open("("); entry = self.name(); self.close(")"); self.want(";")
            return N("Core", at, name=name, entry=entry)
        is_async = self.see("async")
        if is_async:
            self.move()
        if not self.see("int", "void"):
            self.bad()
        gives_int = self.move()[1] == "int"
        name = self.name()
        if gives_int and not is_async:
            if self.see(";"):
                self.move()
                return N("Global", at, name=name, size=None, value=0)
            if self.see("="):
                self.move()
                neg = self.see("-")
                if neg:
                    self.move()
                v = self.number()
                self.want(";")
                return N("Global", at, name=name, size=None, value=-v if neg else v)
            if self.see("["):
                self.open("["); size = self.number(); self.close("]"); self.want(";")
                return N("Global", at, name=name, size=size, value=0)
        self.open("(")
        params = []
        if self.see("void"):
            self.move()
        elif self.see("int"):
            while True:
                pat = self.at()
                self.want("int")
                pname = self.name()
                arr = self.see("[")
                if arr:
                    self.open("["); self.close("]")
                params.append(N("Param", pat, name=pname, is_array=arr))
                if not self.see(","):
                    break
                self.move()
        self.close(")")
        self.depth += 1
        body = self.block()
        self.depth -= 1
        return N("Function", at, is_async=is_async, gives_int=gives_int, name=name, params=params, body=body)

    def block(self):
        self.want("{")
        out = []
        while not self.see("}"):
            self.depth += 1
            out.append(self.decl() if self.see("int") else self.stmt())
            self.depth -= 1
        self.move()
        return out

    def decl(self):
        at = self.at()
        self.want("int")
        name = self.name()
        if self.see("["):
            self.open("["); size = self.number(); self.close("]"); self.want(";")
            return N("Array", at, name=name, size=size)
        value = None
        if self.see("="):
            self.move()
            value = self.expr()
        self.want(";")
        return N("Int", at, name=name, value=value)

    def sub(self):
        self.depth += 1
        s = self.stmt()
        self.depth -= 1
        return s

    def simple(self):
        at = self.at()
        place = self.place()
        self.want("=")
        return N("Assign", at, place=place, value=self.expr())

    def place(self):
        at = self.at()
        name = self.name()
        if self.see("["):
            self.open("["); e = self.expr(); self.close("]")
            return N("Index", at, name=name, index=e)
        return N("Name", at, name=name)

    def stmt(self):
        at = self.at()
        if self.see("{"):
            return N("Block", at, body=self.block())
        if self.see(";"):
            self.move()
            return N("Empty", at)
        if self.see("printf"):
            self.move()
            self.open("(")
            fmt = self.text()
            args = []
            while self.see(","):
                self.move()
                args.append(self.expr())
            self.close(")"); self.want(";")
            return N("Print", at, format=fmt, args=args)
        if self.see("if"):
            self.move()
            self.open("("); e = self.expr(); self.close(")")
            body = self.sub()
            other = None
            if self.see("else"):
                self.move()
                other = self.sub()
            return N("If", at, test=e, body=body, other=other)
        if self.see("while"):
            self.move()
            self.open("("); e = self.expr(); self.close(")")
            return N("While", at, test=e, body=self.sub())
        if self.see("for"):
            self.move()
            self.open("(")
            init = test = nxt = None
            if not self.see(";"):
                self.depth += 1
                if self.see("int"):
                    iat = self.at()
                    self.move()
                    name = self.name()
                    self.want("=")
                    init = N("Int", iat, name=name, value=self.expr())
                else:
                    init = self.simple()
                self.depth -= 1
            self.want(";")
            if not self.see(";"):
                test = self.expr()
            self.want(";")
            if not self.see(")"):
                self.depth += 1
                nxt = self.simple()
                self.depth -= 1
            self.close(")")
            return N("For", at, init=init, test=test, next=nxt, body=self.sub())
        if self.see("break", "continue", "yield"):
            w = self.move()[1]
            self.want(";")
            return N(w.capitalize(), at)
        if self.see("return"):
            self.move()
            value = None if self.see(";") else self.expr()
            self.want(";")
            return N("Return", at, value=value)
        if self.see("do"):
            return self.do(at, None)
        if self.see("async"):
            self.move()
            return N("Async", at, body=self.sub())
        if self.see("cancel"):
            self.move()
            label = self.name()
            self.want(";")
            return N("Cancel", at, label=label)
        if self.see("Send", "Recv", "Read", "Write"):
            c = self.call()
            self.want(";")
            return N("CallStmt", at, call=c)
        if self.kind("name"):
            nxt = self.t[self.i + 1] if self.i + 1 < len(self.t) else (None, None, None)
            if nxt[1] == "(" and nxt[0] == "mark":
                c = self.call()
                self.want(";")
                return N("CallStmt", at, call=c)
            if nxt[1] == ":" and nxt[0] == "mark":
                label = self.name()
                self.move()
                return self.do(at, label)
            s = self.simple()
            self.want(";")
            return s
        self.bad()

    def do(self, at, label):
        self.want("do")
        body = self.block()
        finish = self.at()
        self.want("finish"); self.want(";")
        return N("Do", at, label=label, body=body, finish=finish)

    def call(self):
        at = self.at()
        if self.kind("name"):
            name = self.move()[1]
            self.open("(")
            args = []
            if not self.see(")"):
                args.append(self.expr())
                while self.see(","):
                    self.move()
                    args.append(self.expr())
            self.close(")")
            return N("Call", at, name=name, args=args)
        w = self.move()[1]
        self.open("(")
        name = self.name(); self.want(",")
        if w == "Send":
            r = N("Send", at, channel=name, value=self.expr())
        elif w == "Recv":
            self.want("&")
            r = N("Recv", at, channel=name, place=self.place())
        else:
            a = self.expr(); self.want(","); b = self.expr(); self.want(","); arr = self.name()
            r = N(w, at, file=name, frm=a, len=b, array=arr)
        r.end = self.at() + 1
        self.close(")")
        return r

    def expr(self, level=1):
        if level == 11:
            at = self.at()
            if self.see("-", "!", "~"):
                op = self.move()[1]
                self.depth += 1
                e = self.expr(11)
                self.depth -= 1
                return N("Unary", at, op=op, inner=e)
            if self.see("("):
                self.open("("); e = self.expr(); self.close(")")
                return N("Group", at, inner=e)
            if self.kind("number"):
                return N("Number", at, value=self.move()[1])
            if self.see("OK", "CANCELLED", "FAULT"):
                return N("Number", at, value={"OK": 0, "CANCELLED": -1, "FAULT": -2}[self.move()[1]])
            if self.see("Send", "Recv", "Read", "Write"):
                return self.call()
            if self.kind("name"):
                nxt = self.t[self.i + 1] if self.i + 1 < len(self.t) else (None, None, None)
                if nxt[0] == "mark" and nxt[1] == "(":
                    return self.call()
                return self.place()
            self.bad()
        at = self.at()
        first = self.expr(level + 1)
        rest, signs = [], []
        while self.see(*LEVELS[level - 1]):
            signs.append(self.at())
            op = OPS[self.move()[1]]
            rest.append((op, self.expr(level + 1)))
        return N("Chain", at, first=first, rest=rest, signs=signs) if rest else first


def parse(text):
    tokens = lex(text)
    return Parser(tokens, len(text)).program()


def is_array(d):
    """Whether a declaration is one of an array."""
    return d.kind == "Array" or (d.kind == "Param" and d.is_array) or (d.kind == "Global" and d.size is not None)


def array_named(e):
    """The array that an expression is the name of, or None."""
    return e.decl if e.kind == "Name" and is_array(e.decl) else None


class Names:
    """Says of each use which declaration is meant: `node.decl`. Of each declaration: `owner`, `slot`. Of each channel: how many ints
    a message has, in a program that breaks no rule."""

    def __init__(self, program):
        self.top = {}
        self.slots = 0
        self.texts = []
        self.functions = 0
        self.cores, self.channels, self.files = [], [], []
        for item in program.items:
            self.top.setdefault(item.name, item)
            item.owner = None
            if item.kind == "Global":
                item.slot = self.slots
                self.slots += 1 if item.size is None else item.size
            elif item.kind == "Function":
                item.number = self.functions
                self.functions += 1
            elif item.kind == "Core":
                item.number = len(self.cores)
                self.cores.append(item)
            elif item.kind == "Channel":
                item.number, item.width = len(self.channels), 1
                self.channels.append(item)
            elif item.kind == "File":
                item.number = len(self.files)
                self.files.append(item)
        self.funcs = [i for i in program.items if i.kind == "Function"]
        for f in self.funcs:
            self.function(f)
        for c in self.cores:
            c.func = self.top[c.entry]
        for c in self.channels:
            c.sender, c.receiver = self.core_number(c.frm), self.core_number(c.to)

    def core_number(self, name):
        item = self.top.get(name)
        return item.number if item is not None and item.kind == "Core" else None

    def function(self, f):
        f.slots = 0
        self.owner = f
        self.scopes = [self.top, {}]
        self.labels = []
        for p in f.params:
            self.declare(p, 1)
        self.body(f.body)
        f.words = f.slots

    def declare(self, d, size):
        d.owner = self.owner
        d.slot = self.owner.slots
        self.owner.slots += size
        if d.kind != "Do":
            self.scopes[-1].setdefault(d.name, d)

    def find(self, name):
        for s in reversed(self.scopes):
            if name in s:
                return s[name]
        raise Fault(3, f"no name {name}")

    def level(self, d):
        """Async bodies between here and the declaration."""
        n, o = 0, self.owner
        if d.owner is None:
            return 0
        while o is not d.owner:
            n, o = n + 1, o.parent
        return n

    def body(self, stmts):
        for s in stmts:
            self.stmt(s)

    def scoped(self, stmts):
        self.scopes.append({})
        self.body(stmts)
        self.scopes.pop()

    def stmt(self, s):
        k = s.kind
        if k == "Block":
            self.scoped(s.body)
        elif k == "Int":
            # slots go in preorder, and the value has no declarations
            if s.value is not None:
                self.expr(s.value)
            self.declare(s, 1)
        elif k == "Array":
            self.declare(s, s.size)
        elif k == "Assign":
            self.expr(s.place)
            self.expr(s.value)
        elif k == "CallStmt":
            self.expr(s.call)
        elif k == "Print":
            s.text = len(self.texts)
            self.texts.append(s.format)
            for a in s.args:
                self.expr(a)
        elif k == "If":
            self.expr(s.test)
            self.stmt(s.body)
            if s.other:
                self.stmt(s.other)
        elif k == "While":
            self.expr(s.test)
            self.stmt(s.body)
        elif k == "For":
            self.scopes.append({})
            if s.init:
                self.stmt(s.init)
            if s.test:
                self.expr(s.test)
            if s.next:
                self.stmt(s.next)
            self.stmt(s.body)
            self.scopes.pop()
        elif k == "Return":
            if s.value:
                self.expr(s.value)
        elif k == "Do":
            self.declare(s, 1)
            self.labels.append(s)
            self.scoped(s.body)
            self.labels.pop()
        elif k == "Cancel":
            # the innermost of that label, of all those round it in its function
            s.block = next(d for d in reversed(self.labels) if d.label == s.label)
            s.level = self.level(s.block)
        elif k == "Async":
            s.slots = 0
            s.parent, self.owner = self.owner, s
            self.scopes.append({})
            self.stmt(s.body)
            self.scopes.pop()
            self.owner = s.parent
            s.words = s.slots

    def expr(self, e):
        k = e.kind
        if k == "Name":
            e.decl = self.find(e.name)
            e.level = self.level(e.decl)
        elif k == "Index":
            e.decl = self.find(e.name)
            e.level = self.level(e.decl)
            self.expr(e.index)
        elif k in ("Group", "Unary"):
            self.expr(e.inner)
        elif k == "Chain":
            self.expr(e.first)
            for _, x in e.rest:
                self.expr(x)
        elif k == "Call":
            e.func = self.find(e.name)
            for a in e.args:
                self.expr(a)
        elif k in ("Send", "Recv"):
            channel, whole = self.find(e.channel), e.value if k == "Send" else e.place
            e.link = channel.number
            self.expr(whole)
            array = array_named(whole)
            if array is not None:
                channel.width = array.size
        elif k in ("Read", "Write"):
            e.number = self.find(e.file).number
            self.expr(e.frm)
            self.expr(e.len)
            e.decl = self.find(e.array)
            e.level = self.level(e.decl)
