"""Checks on the text of the crates, which need no proof:

- no line is longer than 140 characters in src and specs, 200 in proofs;
- no clause of a public call reaches a definition of specs/inner, however far its words lead;
- each definition of specs and each lemma of proofs has a use, or is a law that docs/ name;
- each definition that a public clause reaches stands in a worked example, in a file of proofs whose name ends in Examples;
- no two files of a crate begin with the same sentence;
- a file of src, specs or proofs has no more than 800 lines, and a proof file opens with what it shows;
- an edit changes lines that stand once in their file, and opens no comment to rewrite a function.

Run from anywhere: python3 .ci/layout.py. It prints what it finds, and ends with status 1 where it finds anything.
"""
import re
import sys
from pathlib import Path

ROOT = Path(__file__).resolve().parent.parent
CRATES = sorted(p for p in (ROOT / "crates").iterdir() if p.is_dir())
SEPARATORS = re.compile(r"[\s(){}\[\],;\"⟨⟩]+")
CLAUSE = re.compile(r"\b(requires|ensures|stops|invariant|ghost view)\b[^{]*\{")
HEAD = re.compile(r"^(?:abbrev )?(?:pub )?(?:abbrev )?(?:unfoldable )?(data |record )?([^\s:(){}]+)(?=$|[\s:({])")
KEYWORDS = {"use", "pub", "module", "mod", "unfolding", "open", "syntax", "infixl", "infixr", "infix", "mutual", "end", "in", "|", "=", "→", "}", "]", ")"}


def words(text):
    """The words of a text as the logic reads them; the parts of a dotted name and of a path too."""
    found = set()
    for word in SEPARATORS.split(text):
        found.add(word)
        found.update(re.split(r"\.|::", word))
        found.add("◌" + word + "◌")
    found.discard("")
    return found


def without_comments(text):
    return "\n".join(re.sub(r"(^|\s)(--|//).*$", "", line) for line in text.split("\n"))


def balanced(text, at):
    """The text between the brace at this place and the one that closes it."""
    depth = 0
    for i in range(at, len(text)):
        depth += {"{": 1, "}": -1}.get(text[i], 0)
        if depth == 0:
            return text[at + 1:i]
    return text[at + 1:]


def imports(text):
    """From each imported word to the module that it comes from; and the modules imported whole, by their last name."""
    named, whole = {}, {}
    for found in re.finditer(r"(?:ghost )?use ([\w.+«»-]+?)(?:\.\{([^}]*)\})?(?: as (\w+))?;?\s*$", text, re.M):
        module, items, alias = found.groups()
        if items is None:
            whole[alias or module.rsplit(".", 1)[-1]] = module
        else:
            for item in items.split(","):
                name = item.strip()
                if " as " in name:
                    name, other = name.split(" as ")
                    named[other.strip()] = (module, name.strip())
                elif name:
                    named[name] = (module, name)
    return named, whole


class Module:
    """A file of specs or proofs: its name in the logic, what it imports, and its definitions."""

    def __init__(self, crate, path):
        self.crate, self.path = crate, path
        parts = path.relative_to(crate).with_suffix("").parts
        self.name = "Rattle." + crate.name + "." + ".".join(parts)
        self.text = path.read_text(encoding="utf8")
        body = without_comments(self.text)
        self.named, self.whole = imports(body)
        self.blocks = {}
        self.shapes = set()
        self.read_blocks(re.sub(r"^(pub )?use [^{}\n]*(\{[^}]*\})?\s*$", "", body, flags=re.M))

    def read_blocks(self, body):
        """Gives each line to the definition that it is of. In `mutual` and in a module, definitions stand two deep."""
        name, base = None, 0
        for line in body.split("\n"):
            if not line.strip():
                continue
            indent = len(line) - len(line.lstrip(" "))
            if indent == 0:
                base = 2 if re.match(r"^(mutual|module .*)$", line) else 0
                if base:
                    name = None
                    continue
            head = HEAD.match(line.strip()) if indent == base else None
            if head and head.group(2) not in KEYWORDS:
                name = head.group(2)
                if head.group(1):
                    self.shapes.add(name)
            if name is not None:
                self.blocks.setdefault(name, []).append(line)

    def constructors(self):
        """The constructors and fields of this file, with the definition that has them."""
        found = {}
        for name, lines in self.blocks.items():
            if name in self.shapes:
                for line in lines[1:]:
                    inside = re.match(r"^\s+(?:pub )?(?:\| )?([^\s:(){}]+) :", line)
                    if inside:
                        found[inside.group(1)] = name
        return found


def modules():
    found = {}
    for crate in CRATES:
        for folder in ("specs", "proofs"):
            for path in sorted((crate / folder).rglob("*.antt")):
                module = Module(crate, path)
                found[module.name] = module
    return found


def public_clauses(crate):
    """The clauses of what a crate exports: each with its file's imports and the name of the call."""
    root = crate / "src" / "lib.rt"
    if not root.exists():
        root = crate / "src" / "main.rt"
    exported = set()
    for found in re.finditer(r"^pub use ([\w:]+)(?:::\{([^}]*)\})?;", root.read_text(encoding="utf8"), re.M):
        path, items = found.groups()
        exported.update(items.replace(" ", "").replace("\n", "").split(",") if items else [path.rsplit("::", 1)[-1]])
    for path in sorted((crate / "src").rglob("*.rt")):
        if path.name == "tests.rt" or "tests" in path.parts:
            continue
        text = without_comments(path.read_text(encoding="utf8"))
        named, whole = imports(text)
        owner, owned, function, private = None, False, None, False
        at = 0
        for line in text.split("\n"):
            block = re.match(r"^(?:unsafe )?impl(?:<[^>]*>)?\s+(.*?)\s*(?:where.*)?\{?$", line)
            kind = re.match(r"^pub (?:struct|enum|trait) (\w+)", line)
            if block:
                names = re.findall(r"\w+", re.sub(r"<[^<>]*>", "", block.group(1)))
                owner, owned = names[-1] if names else None, " for " in line
            elif kind:
                owner, owned = kind.group(1), True
            elif line.startswith("}"):
                owner = None
            call = re.match(r"^\s*(pub )?(?:pub\([^)]*\) )?(?:const )?(?:ghost )?fn (\w+)", line)
            if call:
                function = call.group(2)
                private = not (call.group(1) or (owner and owned and kind is None)) if owner else not call.group(1)
                if owner is None and function not in exported and path != root:
                    private = True
                if owner is None and path == root:
                    exported.add(function)
            if kind or block:
                function, private = None, False
            for clause in CLAUSE.finditer(line):
                inside = balanced(text, at + clause.end() - 1)
                if not private and (owner in exported or (owner is None and function in exported)):
                    yield path, (owner or "") + "::" + (function or ""), named, whole, inside
            at += len(line) + 1


def resolve(word, named, whole, module, every):
    """The definition that a word names: its module and its own name."""
    if module is not None and word in module.blocks:
        return module.name, word
    if module is not None and word in module.constructors():
        return module.name, module.constructors()[word]
    if word in named:
        place, name = named[word]
        if place in every:
            target = every[place]
            if name in target.blocks:
                return place, name
            inner = target.constructors().get(name)
            if inner:
                return place, inner
    if "." in word:
        first, rest = word.split(".", 1)
        if first in whole and whole[first] in every:
            return resolve(rest.split(".")[0], {}, {}, every[whole[first]], every)
    return None


def reached(every):
    """From each definition that public clauses reach to one call and clause that leads there."""
    found, todo = {}, []
    for crate in CRATES:
        for path, call, named, whole, inside in public_clauses(crate):
            for word in words(inside) | {w for w in SEPARATORS.split(inside)}:
                target = resolve(word, named, whole, None, every)
                if target and target not in found:
                    found[target] = str(path.relative_to(ROOT)) + " " + call
                    todo.append(target)
    while todo:
        place, name = todo.pop()
        module = every[place]
        text = "\n".join(module.blocks[name])
        for word in words(text):
            target = resolve(word, module.named, module.whole, module, every)
            if target and target not in found:
                found[target] = found[(place, name)] + " by " + name
                todo.append(target)
    return found


def too_wide():
    for crate in CRATES:
        for folder, limit in (("src", 140), ("specs", 140), ("proofs", 200)):
            for path in sorted((crate / folder).rglob("*")):
                if path.suffix in (".rt", ".antt"):
                    for number, line in enumerate(path.read_text(encoding="utf8").split("\n"), 1):
                        if len(line) > limit:
                            yield f"{path.relative_to(ROOT)}:{number}: {len(line)} characters, more than {limit}"


def inner_reached(every, found):
    for (place, name), way in sorted(found.items()):
        if ".specs.inner" in place:
            yield f"{every[place].path.relative_to(ROOT)}: {name} is reached by a public clause: {way}"


def without_example(every, found):
    """Definitions that are reached and that no worked example names, by themselves or by a case or a field."""
    used = set()
    for module in every.values():
        if module.path.name.endswith("Examples.antt"):
            for lines in module.blocks.values():
                used |= words("\n".join(lines))
    for (place, name), way in sorted(found.items()):
        module = every[place]
        names = [name] + [c for c, owner in module.constructors().items() if owner == name]
        if "specs" in module.path.parts and not any(n in used for n in names):
            yield f"{module.path.relative_to(ROOT)}: {name} has no worked example"


def without_use(every):
    """A definition has a use where its name, or that of a case or a field of it, stands anywhere but at the head of its own lines."""
    used = set()
    for path in (ROOT / "docs").glob("*.md"):
        used |= set(re.findall(r"`([^`\s]+)`", path.read_text(encoding="utf8")))
    for crate in CRATES:
        for path in (crate / "src").rglob("*.rt"):
            used |= words(re.sub(r"^\s*ghost use .*$", "", without_comments(path.read_text(encoding="utf8")), flags=re.M))
    for module in every.values():
        lines = re.sub(r"^(pub )?use [^{}\n]*(\{[^}]*\})?\s*$", "", without_comments(module.text), flags=re.M).split("\n")
        told = {m.group(2): len(m.group(1)) for m in (re.match(r"^( *)(?:abbrev )?(?:pub )?([^\s:(){}]+)(?: \{.*\})? :", x) for x in lines) if m}
        for line in lines:
            head = HEAD.match(line.strip())
            own = head and (head.group(1) or told.get(head.group(2)) == len(line) - len(line.lstrip(" ")))
            used |= words(line.strip()[head.end():] if own else line)
    for module in every.values():
        if module.path.name.endswith(("Answers.antt", "Invariants.antt", "Lib.antt", "Examples.antt")) or "formers" in module.path.parts:
            continue
        inside = module.constructors()
        for name in module.blocks:
            if not any(n in used for n in [name] + [c for c, owner in inside.items() if owner == name]):
                yield f"{module.path.relative_to(ROOT)}: {name} has no use"


def same_heads():
    for crate in CRATES:
        seen = {}
        for path in sorted(p for folder in ("src", "specs", "proofs") for p in (crate / folder).rglob("*")):
            if path.suffix in (".rt", ".antt") and path.name not in ("Lib.antt", "Answers.antt"):
                first = path.read_text(encoding="utf8").split("\n", 1)[0]
                if first.startswith(("--", "//")):
                    if first in seen:
                        yield f"{path.relative_to(ROOT)} begins as {seen[first].relative_to(ROOT)} does: {first}"
                    seen.setdefault(first, path)


MADE = ("Lib.antt", "Answers.antt", "Invariants.antt", "Proof.antt")


def openings():
    """Files that are too long, and proof files that do not say what they show."""
    for crate in CRATES:
        for folder in ("src", "specs", "proofs"):
            for path in sorted((crate / folder).rglob("*")):
                if path.suffix not in (".rt", ".antt"):
                    continue
                lines = path.read_text(encoding="utf8").split("\n")
                if len(lines) > 801:
                    yield f"{path.relative_to(ROOT)}: {len(lines) - 1} lines, more than 800"
                written = folder == "proofs" and path.name not in MADE
                if written and not lines[0].startswith("--"):
                    yield f"{path.relative_to(ROOT)}: does not open with what it shows"


def edits():
    """Edits that cannot be applied, and those that open a comment."""
    for crate in CRATES:
        for path in sorted((crate / "must-fail").glob("*.edit")):
            place, texts, file = str(path.relative_to(ROOT)), {}, None
            for line in path.read_text(encoding="utf8").split("\n"):
                word, _, rest = line.partition(": ")
                if word == "file":
                    file = crate / rest
                    if file not in texts:
                        texts[file] = file.read_text(encoding="utf8") if file.is_file() else ""
                elif word == "old":
                    old, times = rest, texts.get(file, "").count(rest)
                    if times != 1:
                        yield f"{place}: its old line stands {times} times: {rest}"
                elif word == "new":
                    if re.search(r"/\*|\*/|(^|\s)//", rest):
                        yield f"{place}: opens a comment"
                    texts[file] = texts.get(file, "").replace(old, rest, 1)


def main():
    every = modules()
    found = reached(every)
    if "--kinds" in sys.argv:
        for module in every.values():
            if "specs" in module.path.relative_to(ROOT).parts and module.path.name != "Lib.antt":
                told = [n for n in module.blocks if (module.name, n) in found]
                rest = [n for n in module.blocks if (module.name, n) not in found]
                print(f"{module.path.relative_to(ROOT)}: public {len(told)}; inner {len(rest)}: {' '.join(rest)}")
        return 0
    faults = list(too_wide()) + list(inner_reached(every, found)) + list(without_example(every, found))
    faults += list(without_use(every)) + list(same_heads()) + list(openings()) + list(edits())
    for fault in faults:
        print(fault)
    print(f"layout: {len(found)} definitions are reached by public clauses, {len(faults)} faults")
    return 1 if faults else 0


if __name__ == "__main__":
    sys.exit(main())
