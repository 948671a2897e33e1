"""How names stand in the sources: the words of a source file and of a file of definitions or proofs, what a file declares and imports,
and what a name of it is."""
import re
from functools import cached_property
from typing import NamedTuple

RUST = re.compile(r"(?P<comment>//[^\n]*)|(?P<text>b?\"(?:\\.|[^\"\\])*\"|b?'(?:\\.[^']*|[^'\\\n])')|(?P<life>'\w+)|(?P<word>[A-Za-z_]\w*)|(?P<number>\d\w*)|(?P<space>\s+)|(?P<mark>::|=>|->|\.\.=?|.)", re.S)
ANTT = re.compile(r"(?P<comment>(?:--|//)(?=\s)[^\n]*)|(?P<text>\"[^\"\n]*\")|(?P<word>[^\s(){}\[\];,.:\"«»]+)|(?P<space>\s+)|(?P<mark>.)", re.S)
# What begins a clause of a source file; it is written as definitions are.
CLAUSES = {"requires", "ensures", "decreases", "invariant", "ghost"}
# The modules that a check makes of a function, and those that answer it.
OF_FUNCTIONS = {"Goals", "Given", "Answers", "Invariants", "Proof", "Lts"}
OF_TYPES = {"TheVariants", "TheInside"}
ITEM = re.compile(r"^(?P<indent> {4})?(?:pub(?:\([a-z]+\))? )?(?:const |unsafe |extern \"C\" )*(?P<what>fn|struct|enum|trait|type|const|static|mod) (?P<name>\w+)", re.M)
# Where a function ends, and where a method does.
ENDS = re.compile(r"^(?:\}|\{\})", re.M), re.compile(r"^ {4}(?:\}|\{\})", re.M)
OWNER = re.compile(r"^(?:unsafe )?(?:pub )?(?:impl|trait)(?:<[^>]*>)? (?:[\w:]+(?:<[^{]*?>)? for )?(\w+)", re.M)
DEFINED = re.compile(r"^(?:(?:pub|abbrev|unfoldable|record|data|ruleset) )*((?!--)[^\s(){}\[\];,.:\"=]+)(?= :| \(| \{| where)", re.M)

# A constructor, or a definition of several that stand on each other; also a field.
INNER = re.compile(r"^(?: +(?:(?:pub|abbrev|unfoldable) )*(?=\S+(?: :| \())|pub (?:record|data) (?=\S+$))([^\s(){}\[\];,.:\"=]+)", re.M)


class Token(NamedTuple):
    """A piece of a file, and whether it stands in a clause of a source file."""

    kind: str
    text: str
    start: int
    ghost: bool = False

    @property
    def end(self):
        return self.start + len(self.text)


def tokens_of(pattern, text, start=0, end=None, ghost=False):
    """The pieces of a text but for the space between them."""
    found = pattern.finditer(text, start, len(text) if end is None else end)
    return [Token(it.lastgroup, it.group(), it.start(), ghost) for it in found if it.lastgroup != "space"]


def closing(tokens, at):
    """Behind the bracket that closes the one at this place."""
    pairs, depth = {"{": "}", "(": ")", "[": "]"}, 0
    begin, end = tokens[at].text, pairs[tokens[at].text]
    for i in range(at, len(tokens)):
        if tokens[i].kind == "mark":
            depth += (tokens[i].text == begin) - (tokens[i].text == end)
            if not depth:
                return i + 1
    return len(tokens)


def clause_spans(tokens):
    """Where clauses stand, and what is imported for them."""
    at = 0
    while at < len(tokens):
        token = tokens[at]
        found = None
        if token.kind == "word" and token.text in CLAUSES and tokens[max(at - 1, 0)].text not in (".", "::"):
            rest = [i for i in range(at + 1, min(at + 8, len(tokens))) if tokens[i].kind != "comment"]
            if token.text == "ghost" and rest and tokens[rest[0]].text == "use":
                end = next((i for i in range(at, len(tokens)) if tokens[i].text == ";"), len(tokens) - 1)
                found = rest[0], end + 1
            else:
                opens = next((i for i in rest if tokens[i].text == "{"), None)
                between = [tokens[i].text for i in rest if opens and i < opens]
                if opens and all(re.fullmatch(r"\w+|[:=*]", it) for it in between):
                    found = opens, closing(tokens, opens)
        if found:
            yield tokens[found[0]].start, tokens[found[1] - 1].end
            at = found[1]
        else:
            at += 1


def rust_tokens(text):
    """The tokens of a source file."""
    plain, left, at = tokens_of(RUST, text), [], 0
    for start, end in clause_spans(plain):
        left += tokens_of(RUST, text, at, start) + tokens_of(ANTT, text, start, end, True)
        at = end
    return left + tokens_of(RUST, text, at)


class Import(NamedTuple):
    """A name that a `use` line brings: its path up to it, the name, the one that it has in the file, where it stands."""

    path: tuple
    name: str
    local: str
    start: int
    is_public: bool


class Place(NamedTuple):
    """A word of a path in a `use` line: the words up to it, where it stands."""

    path: tuple
    start: int


def rust_tree(tokens, at, path, places, found, is_public):
    """Reads one tree of a `use` of a source file; answers the place behind it."""
    while True:
        token = tokens[at]
        if token.text == "{":
            at += 1
            while tokens[at].text != "}":
                at = rust_tree(tokens, at, path, places, found, is_public)
                at += tokens[at].text == ","
            return at + 1
        path = (*path, token.text)
        places.append(Place(path, token.start))
        at += 1
        if tokens[at].text != "::":
            local = token.text
            if tokens[at].text == "as":
                local = tokens[at + 1].text
                at += 2
            found.append(Import(path[:-1], token.text, local, token.start, is_public))
            return at
        at += 1


class RustFile:
    """A source file: its crate and module, its tokens, what it declares and imports."""

    def __init__(self, crate, module, text):
        self.crate, self.module, self.text = crate, module, text
        self.tokens = rust_tokens(text)
        self.solid = [it for it in self.tokens if it.kind != "comment"]
        self.places, self.imports, self.use_spans = [], [], []
        self.ghost_places, self.ghost_imports, self.ghost_uses = [], [], []
        self.items, self.methods, self.functions = {}, {}, []
        self.read_items()
        self.read_uses()

    def read_items(self):
        owners = [(it.start(), it.group(1), " for " in it.group() or "trait " in it.group()) for it in OWNER.finditer(self.text)]
        for it in ITEM.finditer(self.text):
            what, name, indent = it.group("what", "name", "indent")
            within = [(owner, of_trait) for start, owner, of_trait in owners if start < it.start()] if indent else []
            if indent and not within:
                continue
            if indent:
                # (whether other crates may call it)
                self.methods[within[-1][0], name] = it.group().lstrip().startswith("pub ") or within[-1][1]
            else:
                self.items[name] = (what, it.start("name"))
            if what == "fn":
                closed = ENDS[bool(indent)].search(self.text, it.end())
                self.functions.append((it.start(), closed.end() if closed else len(self.text), within[-1][0] if indent else None, name))

    def read_uses(self):
        solid = self.solid
        for i, token in enumerate(solid):
            if token.text == "use" and token.kind == "word":
                end = next((j for j in range(i, len(solid)) if solid[j].text == ";"), None)
                if end is None:
                    continue
                if token.ghost:
                    self.ghost_uses.append((token.start, solid[end].end))
                    antt_use(solid[i + 1 : end], self.ghost_places, self.ghost_imports, False)
                elif i == 0 or solid[i - 1].text in (";", "}", "pub", "]", ")", "{"):
                    is_public = i > 0 and solid[i - 1].text in ("pub", ")")
                    self.use_spans.append((token.start, solid[end].end))
                    rust_tree(solid[i + 1 : end + 1], 0, (), self.places, self.imports, is_public)

    def function_at(self, start):
        """The function that a place stands in: its owner and name."""
        return next(((owner, name) for begin, end, owner, name in self.functions if begin <= start < end), None)


def antt_use(tokens, places, found, is_public):
    """Reads a `use` of definitions or proofs, from its path on."""
    path, at = (), 0
    while at < len(tokens) and tokens[at].text != "{" and tokens[at].text != "as":
        if tokens[at].text != ".":
            path = (*path, tokens[at].text)
            places.append(Place(path, tokens[at].start))
        at += 1
    if at == len(tokens) or tokens[at].text == "as":
        local = tokens[at + 1].text if at < len(tokens) else path[-1]
        found.append(Import(path, None, local, places[-1].start, is_public))
        return
    at += 1
    while at < len(tokens) and tokens[at].text != "}":
        name = tokens[at]
        if name.text == "," or name.kind != "word":
            at += 1
            continue
        local = name.text
        if at + 1 < len(tokens) and tokens[at + 1].text == "as":
            local = tokens[at + 2].text
            at += 2
        found.append(Import(path, name.text, local, name.start, is_public))
        at += 1


class AnttFile:
    """A file of definitions or proofs: its crate and module, its tokens, what it declares and imports."""

    @cached_property
    def tokens(self):
        return tokens_of(ANTT, self.text)

    def __init__(self, crate, module, text):
        self.crate, self.module, self.text = crate, module, text
        self.places, self.imports, self.use_spans = [], [], []
        self.items = {}
        for it in DEFINED.finditer(text):
            if it.group(1) not in ("use", "mod", "pub", "open"):
                self.items.setdefault(it.group(1), it.start(1))
        self.inner = {it.group(1) for it in INNER.finditer(text)} - {*self.items}
        for it in re.finditer(r"^(?:unfoldable )?(?:pub )?use ", text, re.M):
            rest = text[it.end() :]
            end = it.end() + re.match(r"[^{\n]*(?:\{[^}]*\}|(?=\n|$))", rest).end()
            self.use_spans.append((it.start(), end))
            part = [token for token in tokens_of(ANTT, text, it.end(), end) if token.kind != "comment"]
            antt_use(part, self.places, self.imports, "pub" in it.group())


class Sources:
    """All source files and files of definitions and proofs, by crate and module."""

    def __init__(self, files):
        self.rust, self.antt, self.crates = {}, {}, set()
        for path, text in files.items():
            parts = path.split("/")
            if parts[0] != "crates" or len(parts) < 4:
                continue
            crate, folder = parts[1], parts[2]
            if folder == "src" and path.endswith(".rt"):
                module = "::".join(parts[3:])[: -len(".rt")]
                module = "" if module in ("lib", "main") else module
                self.rust[crate, module] = RustFile(crate, module, text)
            elif folder in ("specs", "proofs") and path.endswith(".antt"):
                module = (folder, *parts[3:-1], parts[-1][: -len(".antt")])
                self.antt[crate, module] = AnttFile(crate, module, text)
            self.crates.add(crate)

    def rust_path(self, crate, module, path, seen=()):
        """What a path of source files is, read in a module: ("crate", name), ("module", crate, module), ("item", crate, module, name), ("method", crate,
        module, owner, name), or None."""
        if not path or (crate, module, path) in seen:
            return None
        seen = (*seen, (crate, module, path))
        head, rest = path[0], path[1:]
        if head == "crate":
            return self.rust_below(crate, "", rest, seen)
        if head in ("self", "super"):
            up = module if head == "self" else module.rpartition("::")[0]
            return self.rust_below(crate, up, rest, seen)
        inner = f"{module}::{head}" if module else head
        if (crate, inner) in self.rust or self.is_item(crate, module, head):
            return self.rust_below(crate, module, path, seen)
        if head in self.crates and (seen[1:] or not self.has_import(crate, module, head)):
            return self.rust_below(head, "", rest, seen) if rest else ("crate", head)
        return None if seen[1:] else self.rust_below(crate, module, path, seen)

    def is_item(self, crate, module, name):
        file = self.rust.get((crate, module))
        return bool(file) and name in file.items and file.items[name][0] != "mod"

    def has_import(self, crate, module, name):
        file = self.rust.get((crate, module))
        return bool(file) and any(it.local == name for it in file.imports)

    def rust_below(self, crate, module, path, seen):
        if not path:
            return ("module", crate, module) if module else ("crate", crate)
        head, rest = path[0], path[1:]
        inner = f"{module}::{head}" if module else head
        if self.is_item(crate, module, head):
            if rest:
                return ("method", crate, module, head, rest[0]) if len(rest) == 1 else None
            return ("item", crate, module, head)
        if (crate, inner) in self.rust:
            return self.rust_below(crate, inner, rest, seen) if rest else ("module", crate, inner)
        file = self.rust.get((crate, module))
        for it in file.imports if file else ():
            if it.local == head:
                return self.rust_path(crate, module, (*it.path, it.name, *rest), seen)
        return None

    def antt_path(self, path):
        """What a path of definitions and proofs is: ("crate", name), ("antt", crate, module), ("module", crate, module), ("item", crate, module, name),
        ("method", ..), ("function", ..) for the folder of a function's proofs, or None for what is generated or of the kit."""
        if path[0] != "Rattle" or len(path) < 2 or path[1] not in self.crates:
            return None
        crate, rest = path[1], path[2:]
        if not rest:
            return ("crate", crate)
        if len(rest) == 1:
            return None
        if rest[0] == "specs" and rest[1] in ("declared", "contracts"):
            return self.rust_part(crate, rest[2:])
        found = self.rust_part(crate, rest[1:]) if rest[0] == "proofs" else None
        return found or ("antt", crate, tuple(rest))

    def rust_part(self, crate, parts):
        """What the last word of a path is that goes on by modules, types and functions of source files."""
        module, at = "", 0
        while at < len(parts) and (crate, f"{module}::{parts[at]}" if module else parts[at]) in self.rust:
            module = f"{module}::{parts[at]}" if module else parts[at]
            at += 1
        if at == len(parts):
            return ("module", crate, module) if module else None
        file = self.rust.get((crate, module))
        name = parts[at].lstrip("+")
        if not file:
            return None
        if at + 1 == len(parts):
            return ("item", crate, module, name) if name in file.items else self.rust_below(crate, module, (name,), (1, 2))
        if at + 2 == len(parts) and name in file.items and file.items[name][0] != "fn":
            return ("method", crate, module, name, parts[at + 1].lstrip("+"))
        return None

    def antt_name(self, path, name, seen=()):
        """What a name is that a module of definitions or proofs has: ("name", crate, module, name), an item of a source file, or None."""
        if path[0] != "Rattle" or len(path) < 4 or path[1] not in self.crates or (path, name) in seen:
            return None
        crate, rest = path[1], tuple(path[2:])
        if rest[1] in ("declared", "contracts"):
            parts = rest[2:]
            if parts and parts[-1] == "TheConstants":
                found = self.rust_part(crate, parts[:-1]) if len(parts) > 1 else ("module", crate, "")
                return ("item", crate, found[2], name) if found and found[0] == "module" else None
            if parts and parts[-1] in OF_TYPES:
                return None
            found = self.rust_part(crate, parts)
            return found if found and found[0] == "item" and found[3] == name else None
        file = self.antt.get((crate, rest))
        if not file:
            return None
        if name in file.items or name in file.inner:
            return ("name", crate, rest, name)
        for it in file.imports:
            if it.is_public and it.local == name and it.name:
                return self.antt_name(it.path, it.name, (*seen, (path, name)))
        return None
