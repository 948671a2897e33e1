"""What stands in several crates with the same text gets one home: constants, functions and lemmas. The copies go, and what used them
imports the home's."""
import re

from sources import ANTT, ITEM, OF_FUNCTIONS, RUST, AnttFile, RustFile, tokens_of

ITEM_TEXT = {
    "const": r"(?:^ *///.*\n)*^(?:pub(?:\([a-z]+\))? )?const {name}: (?:[^;\[]|\[[^\]]*\])*;\n\n?",
    "fn": r"(?:^///.*\n)*^(?:pub(?:\([a-z]+\))? )?fn {name}\b[\s\S]*?^(?:\}}|\{{\}})\n\n?",
}
LEMMA_TEXT = r"(?:^--.*\n)*^(?:abbrev |unfoldable )?(?:pub )?{name} :.*\n(?:(?:[ \t]+\S.*|[\]}})].*|unfolding .*|{name}(?![^\s(]).*)\n)*\n?"


def words_in(text, pattern):
    found = [it for it in tokens_of(pattern, text) if it.kind != "comment"]
    pairs = zip(found, found[1:])
    return {it.text for it in found} | {"[]" for it, behind in pairs if it.text + behind.text == "[]" and it.end == behind.start}


def is_used(local, words):
    """Whether a name, or an operator, is among words."""
    return all(it in words for it in local.split("◌") if it) if "◌" in local else local in words


class Homes:
    """The files, once each line of homes is done."""

    def __init__(self, files, sources, uses, heads):
        self.files, self.sources, self.uses, self.heads = files, sources, uses, heads
        # Source files whose functions use something by another name than before; what cannot be moved.
        self.renamed, self.wrong = [], []
        # Who imports what: files of definitions and proofs by where it stands, with how they name it; source files by what it is.
        self.citing, self.using, self.clauses = {}, {}, {}
        for (crate, module), file in sources.antt.items():
            for it in file.imports:
                found = sources.antt_name(it.path, it.name) if it.name else None
                key = found[1:] if found and found[0] == "name" else (it.path, it.name)
                self.citing.setdefault(key, []).append((f"crates/{crate}/{'/'.join(module)}.antt", it))
        for (crate, module), file in sources.rust.items():
            for it in file.ghost_imports:
                self.clauses.setdefault((it.path, it.name), []).append(f"crates/{crate}/src/{module.replace('::', '/') or 'lib'}.rt")
            for it in file.imports:
                if it.name != "*":
                    there = sources.rust_path(crate, module, (*it.path, it.name))
                    self.using.setdefault(there, []).append((f"crates/{crate}/src/{module.replace('::', '/') or 'lib'}.rt", it))

    def text_of(self, kind, name, text):
        """The text of a declaration in a file, or None."""
        form = LEMMA_TEXT if kind == "lemma" else ITEM_TEXT[kind]
        return re.search(form.format(name=re.escape(name)), text, re.M)

    def move(self, home, copies):
        """Gives some copies one home; answers how many went."""
        keys = [self.key(it) for it in (home, *copies)]
        kind = "lemma" if "::" not in home else "const" if home.rpartition("::")[2].isupper() else "fn"
        there = [(key, self.text_of(kind, key[-1], self.files.get(self.path(key), ""))) for key in keys[1:]]
        there = [(key, found) for key, found in there if found]
        of_the_kit = keys[0][0] not in self.sources.crates and kind == "lemma"
        if not there or (f"crates/{keys[0][0]}/src/lib.rt" not in self.files and not of_the_kit):
            return 0
        if not of_the_kit:
            if not self.text_of(kind, keys[0][-1], self.files.get(self.path(keys[0]), "")):
                self.make_home(kind, keys[0], *there[0])
            self.open_home(kind, keys[0])
        for key, _ in there:
            self.take_out(kind, key, keys[0])
        return len(there)

    def key(self, name):
        """Where a name stands: its crate, its module and itself."""
        between = "::" if "::" in name else "."
        crate, *module, last = name.split(between)
        return crate, tuple(module), last

    def path(self, key):
        crate, module, _ = key
        if module and module[0] in ("proofs", "specs"):
            return f"crates/{crate}/{'/'.join(module)}.antt"
        return f"crates/{crate}/src/{'/'.join(module) or 'lib'}.rt"

    def root(self, crate):
        """The root of a crate's sources."""
        path = f"crates/{crate}/src/lib.rt"
        return path if path in self.files else f"crates/{crate}/src/main.rt"

    def make_home(self, kind, home, copy, found):
        """Writes the text of a copy into its home, with what it imports."""
        path, source = self.path(home), self.files[self.path(copy)]
        block = found.group().rstrip("\n") + "\n"
        if kind == "lemma":
            block = re.sub(rf"^(abbrev |unfoldable )?(?:pub )?(?={re.escape(copy[2])} :)", r"\1pub ", block, flags=re.M)
            block = rename_words(block, copy[2], home[2], ANTT)
        else:
            block = re.sub(r"^(?:pub(?:\([a-z]+\))? )?(const|fn) ", r"pub \1 ", block, count=1, flags=re.M)
            block = rename_words(block, copy[2], home[2], RUST)
        text = self.files.get(path)
        if text is None:
            head = self.heads.get(("." if kind == "lemma" else "::").join((home[0], *home[1])), "What several crates use.")
            text = f"{'--' if kind == 'lemma' else '//'} {head}\n"
            self.list_module(kind, home)
        if kind == "lemma":
            words = words_in(block, ANTT)
            file = AnttFile(copy[0], copy[1], source)
            there = {it.local for it in AnttFile(home[0], home[1], text).imports}
            beside = [it for it in file.items if it in words and it not in (copy[2], home[2])]
            self.wrong += [f"{home[2]} needs {it}, which stays in {self.path(copy)}" for it in beside]
            for it in file.imports:
                if is_used(it.local, words) and it.path[0] == "Rattle" and it.path[1] in self.uses and it.path[1] != home[0]:
                    self.wrong += [f"{home[2]} needs {it.local} of {it.path[1]}, which {home[0]} does not use"] * (it.path[1] not in self.uses[home[0]])
                if is_used(it.local, words) and it.local not in there and it.path != ("Rattle", home[0], *home[1]):
                    text = with_antt_use(text, ".".join(it.path), it.name, it.local)
        else:
            bare = re.sub(r"//[^\n]*", "", block)
            words = words_in(bare, ANTT) | words_in(bare, RUST)
            file = RustFile(copy[0], "::".join(copy[1]), source)
            for it in file.ghost_imports:
                if is_used(it.local, words):
                    text = with_antt_use(text, ".".join(it.path), it.name, it.local, ghost=True)
            for it in file.imports:
                if it.local in words and it.path[0] != "crate" and it.name not in RustFile(home[0], "", text).items:
                    text = with_rust_use(text, "::".join("crate" if part == home[0] else part for part in it.path), it.name)
            self.move_proofs(home, copy)
        self.files[path] = text.rstrip("\n") + "\n\n" + block

    def move_proofs(self, home, copy):
        """Gives the function at home the proofs of a copy."""
        begin, end = ("/".join((key[0], "proofs", *key[1], key[2])) for key in (copy, home))
        old, new = (f"Rattle.{it.replace('/', '.')}." for it in (begin, end))
        for path in [it for it in self.files if it.startswith(f"crates/{begin}/")]:
            text = self.files[path].replace(old, new)
            far = {*re.findall(r"Rattle\.(\w+)\.", text)} & {*self.uses} - {home[0], *self.uses[home[0]]}
            self.wrong += [f"{home[2]} needs proofs of {it}, which {home[0]} does not use" for it in sorted(far)]
            self.files[f"crates/{end}/{path[len(begin) + len('crates//'):]}"] = text

    def list_module(self, kind, home):
        """Names a new file in the root of its crate."""
        crate, module, _ = home
        if kind == "lemma":
            path = f"crates/{crate}/{module[0]}/Lib.antt"
            self.files[path] = self.files.get(path, "") + f"pub mod {module[-1]}\n"
        else:
            path = self.root(crate)
            self.files[path] = re.sub(r"^mod ", f"mod {module[-1]};\nmod ", self.files[path], count=1, flags=re.M)

    def open_home(self, kind, home):
        """Lets other crates name what is at home."""
        crate, module, name = home
        path, root = self.path(home), self.root(crate)
        text = self.files[path]
        if kind == "lemma":
            self.files[path] = re.sub(rf"^(abbrev |unfoldable )?(?:pub )?(?={re.escape(name)} :)", r"\1pub ", text, flags=re.M)
            listed = f"crates/{crate}/{module[0]}/Lib.antt"
            self.files[listed] = re.sub(rf"^mod {module[1]}$", f"pub mod {module[1]}", self.files[listed], flags=re.M)
            return
        self.files[path] = re.sub(rf"^(?:pub(?:\([a-z]+\))? )?((?:const|fn) {name}\b)", r"pub \1", text, flags=re.M)
        if module and not re.search(rf"^pub use {'::'.join(module)}::(?:{name};|\{{[^}}]*\b{name}\b)", self.files[root], re.M):
            self.files[root] = with_rust_use(self.files[root], "::".join(module), name, public=True)

    def take_out(self, kind, copy, home):
        """Takes a copy out of its file, and lets all that used it use the home's."""
        path = self.path(copy)
        text = self.files[path]
        found = self.text_of(kind, copy[2], text)
        pattern = ANTT if kind == "lemma" else RUST
        gone = words_in(found.group(), ANTT) | words_in(found.group(), pattern)
        self.files[path] = text[: found.start()] + text[found.end() :]
        if kind == "lemma":
            self.cite(path, copy, home)
            self.files[path] = without_unused(self.files[path], gone, False)
            for other, it in self.citing.get(copy, ()):
                if other != path and other in self.files:
                    self.cite(other, copy, home, it)
            for other in self.clauses.get((("Rattle", copy[0], *copy[1]), copy[2]), ()):
                if other in self.files and copy[2] == home[2]:
                    left = without_antt_use(self.files[other], ".".join(("Rattle", copy[0], *copy[1])), copy[2])
                    self.files[other] = with_antt_use(left, ".".join(("Rattle", home[0], *home[1])), home[2], home[2], ghost=True)
                    self.needs(other.split("/")[1], home[0])
            old, new = "::".join(("crate", *copy[1], copy[2])), "::".join((*home[:1], *home[1], home[2]))
            for other in [it for it in self.files if it.startswith(f"crates/{copy[0]}/src/") and old in self.files[it]]:
                self.files[other] = re.sub(rf"\b{old}\b", new, self.files[other])
            if not AnttFile(copy[0], copy[1], self.files[path]).items:
                self.files.pop(path)
                listed = f"crates/{copy[0]}/{copy[1][0]}/Lib.antt"
                self.files[listed] = re.sub(rf"^(?:pub )?mod {copy[1][-1]}\n", "", self.files[listed], flags=re.M)
            return
        self.use(path, copy, home, own=True)
        self.files[path] = without_unused(self.files[path], gone, True)
        root = self.root(copy[0])
        self.files[root] = without_rust_use(self.files[root], "::".join(copy[1]), copy[2])
        key = ("item", copy[0], "::".join(copy[1]), copy[2])
        for other, it in self.using.get(key, ()):
            if other in self.files and other not in (path, root):
                self.files[other] = without_rust_use(self.files[other], "::".join(it.path), it.name)
                self.use(other, copy, home)
        constants = ("Rattle", copy[0], "specs", "declared", *copy[1], "TheConstants")
        for other, _ in self.citing.get((constants, copy[2]), ()):
            if other in self.files:
                left = without_antt_use(self.files[other], ".".join(constants), copy[2])
                self.files[other] = with_antt_use(left, ".".join(("Rattle", home[0], "specs", "declared", *home[1], "TheConstants")), home[2], copy[2])
                self.needs(other.split("/")[1], home[0])
        for it in [it for it in self.files if it.startswith(f"crates/{copy[0]}/proofs/{'/'.join((*copy[1], copy[2]))}/")]:
            if kind == "fn":
                self.files.pop(it)
        if copy[1] and not ITEM.search(self.files[path]):
            self.files.pop(path)
            self.files[root] = re.sub(rf"^(?:pub )?mod {copy[1][-1]};\n", "", self.files[root], flags=re.M)

    def cite(self, path, copy, home, cited=None):
        """Lets a file of proofs cite the home's lemma, in place of what it has imported."""
        text, place, local = self.files[path], ".".join(("Rattle", home[0], *home[1])), copy[2]
        if cited:
            text = without_antt_use(text, ".".join(cited.path), cited.name)
        if cited and cited.local != cited.name:
            self.files[path] = with_antt_use(text, place, home[2], cited.local)
            self.needs(path.split("/")[1], home[0])
            return
        has_it = re.search(rf"^use {re.escape(place)}\.\{{[^}}]*(?<=[ {{]){re.escape(home[2])}[,}}]", text, re.M)
        if has_it or home[2] not in words_in(text, ANTT):
            text, local = rename_words(text, copy[2], home[2], ANTT), home[2]
        if local in words_in(text, ANTT):
            text = with_antt_use(text, place, home[2], local)
        self.files[path] = text
        if local in words_in(self.files[path], ANTT):
            self.needs(path.split("/")[1], home[0])

    def use(self, path, copy, home, own=False):
        """Lets a source file use the home's."""
        text, crate = self.files[path], path.split("/")[1]
        if copy[2] != home[2]:
            text = rename_words(text, copy[2], home[2], RUST)
            self.renamed.append((path, copy[2], home[2]))
        if home[2] in words_in(text, RUST):
            text = with_rust_use(text, "::".join(("crate", *home[1])) if crate == home[0] else home[0], home[2])
            self.needs(crate, home[0])
        self.files[path] = text

    def needs(self, crate, home):
        """Sees to it that crates.txt names the home's crate for another one."""
        if crate != home and home not in ("core", "std") and home not in self.uses[crate]:
            self.uses[crate].append(home)
            self.files["crates.txt"] = re.sub(rf"^({crate}(?: [a-z]+)?:.*)$", rf"\1 {home}", self.files["crates.txt"], flags=re.M)


def rename_words(text, old, new, pattern):
    """A text with another name for a word that is no field."""
    left, at, before = [], 0, None
    for it in tokens_of(pattern, text):
        is_field = before and before.text == "." and before.end == it.start
        if it.text == old and it.kind == "word" and not is_field:
            left += [text[at : it.start], new]
            at = it.end
        before = it
    return "".join([*left, text[at:]])


def with_antt_use(text, path, name, local, ghost=False):
    """A file with one more name from a module of definitions or proofs."""
    word = name if name == local else f"{name} as {local}"
    begin, end = ("ghost use ", ";") if ghost else ("use ", "")
    if name is None:
        line = f"{begin}{path}" + ("" if path.endswith(local) else f" as {local}") + end
        return text if line + "\n" in text else after_uses(text, line)
    for found in re.finditer(rf"^{begin}{re.escape(path)}\.\{{([^}}]*)\}}{end}$", text, re.M):
        names = [it.strip() for it in found.group(1).split(",")]
        if word in names:
            return text
        line = f"{begin}{path}.{{{', '.join([*names, word])}}}{end}"
        if len(line) <= 120:
            return text[: found.start()] + line + text[found.end() :]
    return after_uses(text, f"{begin}{path}.{{{word}}}{end}")


def after_uses(text, line):
    """A file with a line behind its `use` lines of that kind, or behind the first comment."""
    kind = line.split("use ")[0] + "use "
    last = None
    for last in re.finditer(rf"^{kind}[^{{\n]*(?:\{{[^}}]*\}})?;?\n", text, re.M):
        pass
    if last:
        return text[: last.end()] + line + "\n" + text[last.end() :]
    head = re.match(r"(?:(?://|--).*\n)*(?:#!.*\n)?\n?", text)
    gap = "" if kind == "use " and text.startswith("--") else "\n"
    rest = text[head.end() :]
    return text[: head.end()].rstrip("\n") + "\n" + (line + "\n" + ("\n" if rest and not rest.startswith(("use", "ghost")) else "")) + rest if head.end() else line + "\n" + gap + text


def without_antt_use(text, path, name):
    """A file without a name from a module of definitions or proofs."""

    def left(found):
        names = [it.strip() for it in found.group(2).split(",") if it.strip().split(" as ")[0] != name]
        return f"{found.group(1)}{path}.{{{', '.join(names)}}}{found.group(3)}\n" if names else ""

    return re.sub(rf"^((?:ghost )?(?:pub )?use ){re.escape(path)}\.\{{([^}}]*)\}}(;?)\n", left, text, flags=re.M)


def with_rust_use(text, path, name, public=False):
    """A source file with one more `use`."""
    begin = "pub use " if public else "use "
    found = re.search(rf"^{begin}{re.escape(path)}::(?:\{{([^{{}}]*)\}}|(\w+));\n", text, re.M)
    if found:
        names = sorted({*(it.strip() for it in (found.group(1) or found.group(2)).split(",") if it.strip()), name})
        return text[: found.start()] + f"{begin}{path}::{{{', '.join(names)}}};\n" + text[found.end() :] if len(names) > 1 else text
    line = f"{begin}{path}::{name};\n"
    first = re.search(rf"^{begin}", text, re.M)
    if first:
        return text[: first.start()] + line + text[first.start() :]
    last = None
    for last in re.finditer(r"^(?:ghost use [^;]*;|(?:pub )?mod \w+;)\n", text, re.M):
        pass
    at = last.end() if last else re.match(r"(?://.*\n)*", text).end()
    return text[:at] + ("\n" if at else "") + line + text[at:]


def without_rust_use(text, path, name):
    """A source file without a `use`."""

    def left(found):
        if found.group(3):
            return "" if found.group(3) == name else found.group()
        names = [it.strip() for it in found.group(2).split(",") if it.strip() and it.strip().split(" as ")[0] != name]
        return f"{found.group(1)}{path}::{{{', '.join(names)}}};\n" if len(names) > 1 else f"{found.group(1)}{path}::{names[0]};\n" if names else ""

    return re.sub(rf"^((?:pub )?use ){re.escape(path)}::(?:\{{([^{{}}]*)\}}|(\w+));\n", left, text, flags=re.M) if path else text


def without_unused(text, gone, is_source):
    """A file without the imports that only what went has used."""
    file = RustFile("", "", text) if is_source else AnttFile("", (), text)
    spans = file.use_spans + (file.ghost_uses if is_source else [])
    rest = text
    for begin, end in sorted(spans, reverse=True):
        rest = rest[:begin] + rest[end:]
    words = words_in(rest, ANTT) | words_in(rest, RUST)
    for it in file.ghost_imports if is_source else file.imports:
        if it.name and is_used(it.local, gone) and not is_used(it.local, words) and it.path[-1] not in OF_FUNCTIONS:
            text = without_antt_use(text, ".".join(it.path), it.name)
    for it in file.imports if is_source else ():
        if it.local in gone and it.local not in words and not it.is_public:
            text = without_rust_use(text, "::".join(it.path), it.name)
    return text


def doubled_definitions(sources):
    """For each name of a definition where it is defined."""
    found = {}
    for (crate, module), file in sources.antt.items():
        if module[0] == "specs":
            for name in file.items:
                found.setdefault(name, set()).add((crate, f"{crate}.{'.'.join(module)}.{name}"))
    return found


def rust_place(crate, module, name):
    return crate, "::".join(it for it in (crate, module, name) if it)


def doubled_constants(sources):
    """For each constant, with its type and its value, where it stands."""
    found = {}
    for (crate, module), file in sources.rust.items():
        for name, rest in re.findall(r"^(?:pub(?:\([a-z]+\))? )?const (\w+): ((?:[^;\[]|\[[^\]]*\])*);", file.text, re.M):
            found.setdefault((name, " ".join(rest.split())), set()).add(rust_place(crate, module, name))
    return found


def doubled_functions(sources):
    """For each text of a function of four lines or more, but for its name and comment, where it stands."""
    found = {}
    for (crate, module), file in sources.rust.items():
        for begin, end, owner, name in file.functions:
            text = file.text[begin:end]
            if owner is None and text.count("\n") > 2:
                text = re.sub(rf"^(?:pub(?:\([a-z]+\))? )?fn {name}\b", "fn", text)
                found.setdefault(" ".join(text.split()), set()).add(rust_place(crate, module, name))
    return found


def doubled_lemmas(sources):
    """For each statement of a lemma, with its bound names in order, where it stands."""
    found = {}
    for (crate, module), file in sources.antt.items():
        if module[0] != "proofs" or module[-1] in (*OF_FUNCTIONS, "Lib"):
            continue
        known = {it.local: sources.antt_name(it.path, it.name) or it.name for it in file.imports}
        for name in file.items:
            there = re.search(rf"^(?:pub )?{re.escape(name)} :([^\n]*\n(?:[ \t]+\S[^\n]*\n)*)", file.text, re.M)
            if not there:
                continue
            left, bound, before = [], {}, None
            for token in tokens_of(ANTT, there.group(1)):
                word, is_field = token.text, before and before.text == "." and before.end == token.start
                if token.kind == "comment":
                    continue
                if word in known and not is_field:
                    word = str(known[word])
                elif word in file.items and not is_field:
                    word = f"{crate} {module} {word}"
                elif re.match(r"[A-Za-z_]", word) and not is_field:
                    word = bound.setdefault(word, f"v{len(bound)}")
                left.append(word)
                before = token
            found.setdefault(" ".join(left), set()).add((crate, f"{crate}.{'.'.join(module)}.{name}"))
    return found


def counts(sources, names=False):
    """Lines that count what stands in two crates or more, or that name it."""
    kinds = {
        "names of definitions": doubled_definitions,
        "constants of one name, type and value": doubled_constants,
        "functions of one text": doubled_functions,
        "statements of lemmas": doubled_lemmas,
    }
    for what, doubled in kinds.items():
        found = doubled(sources)
        several = [it for it in found.values() if len({crate for crate, _ in it}) > 1]
        crates = sum(len({crate for crate, _ in it}) for it in several)
        yield f"{what}: {len(several)} of {len(found)} in two crates or more, {crates - len(several)} copies"
        if names:
            yield from sorted("    " + " ".join(sorted(place for _, place in it)) for it in several)
