"""One crate put into another one: its files, its line of crates.txt, what names it, and its sections of pages."""
import re

# The files of a crate that the other one has too.
ROOTS = ("src/lib.rt", "specs/Lib.antt", "proofs/Lib.antt", "README.md")
# The pages that have a section for each crate.
PAGES = ("docs/CLAIMS.md", "docs/DEFINITIONS.md")


def merge(files, gone, into):
    """The files after it, and what is in its way."""
    left, wrong = {}, []
    for path, text in files.items():
        own = path.startswith((f"crates/{gone}/", f"crates/{into}/"))
        place = re.sub(rf"^crates/{gone}/", f"crates/{into}/", path)
        if path.endswith((".rt", ".antt")):
            text = renamed(text, gone, into, own)
        elif path == "crates.txt":
            text = without_line(text, gone, into)
        elif path != "tools/rename.map" and path != "CHANGES.md":
            kept = r"`[^`\n]*`|" if path.endswith(".md") else ""
            text = re.sub(rf"{kept}(?<![\w-]){gone}(?![\w-])", lambda it: into if it.group() == gone else it.group(), text)
        rest = place[len(f"crates/{into}/") :]
        if path != place and place in files and rest not in ROOTS:
            wrong.append(f"{path} is in {into} too: give one of them another name first")
        left[place] = joined(rest, text, left[place], path == place) if own and place in left else text
    for path in (f"crates/{into}/README.md", *PAGES):
        if path in left:
            left[path] = with_sections_once(left[path])
    return left, wrong


def renamed(text, gone, into, own):
    """A file that names one crate in place of the other."""
    text = re.sub(rf"\bRattle\.{gone}\.", f"Rattle.{into}.", text)
    names = rf"(?<![\w:.])(?:{gone}|{into})::" if own else rf"(?<![\w:.]){gone}::"
    text = re.sub(names, "crate::" if own else f"{into}::", text)
    form = rf"^use {'crate' if own else into}::(?:(\w+)|\{{([^{{}}]*)\}});\n"
    found = [name.strip() for one, several in re.findall(form, text, re.M) for name in (one or several).split(",") if name.strip()]
    if len(re.findall(form, text, re.M)) < 2:
        return text
    first = re.search(form, text, re.M).start()
    rest = re.sub(form, "", text, flags=re.M)
    return rest[:first] + f"use {'crate' if own else into}::{{{', '.join(sorted({*found}))}}};\n" + rest[first:]


def joined(rest, one, other, one_is_kept):
    """The two roots as one."""
    kept, added = (one, other) if one_is_kept else (other, one)
    if rest == "README.md":
        (begin, sections), (more, others) = (re.match(r"([\s\S]*?)((?:^## [\s\S]*)?)\Z", it, re.M).groups() for it in (kept, added.partition("\n")[2]))
        return "\n\n".join(it.strip("\n") for it in (begin, more, sections, others) if it.strip()) + "\n"
    if rest.endswith(".antt"):
        return kept + "".join(line for line in added.splitlines(True) if line not in kept)
    for form in (r"^(?:pub )?mod \w+;\n", r"^pub use [^;]*;\n"):
        lines = "".join(re.findall(form, added, re.M))
        last = [it.end() for it in re.finditer(form, kept, re.M)]
        kept = kept[: last[-1]] + lines + kept[last[-1] :] if last else kept + "\n" + lines
    return kept


def with_sections_once(text):
    """A page where the sections of one heading are one."""
    found = {}
    for part in re.split(r"^(?=## )", text, flags=re.M):
        head, _, body = part.partition("\n")
        key = head if part.startswith("## ") else ""
        if key in found:
            gap = "\n" if found[key].split("\n")[-1].startswith(("- ", "  ")) and body.strip().startswith("- ") else "\n\n"
            found[key] += gap + body.strip("\n")
        else:
            found[key] = part.strip("\n")
    return "\n\n".join(found.values()) + "\n"


def without_line(text, gone, into):
    """The lines of crates.txt: the two are one, where the later one was."""
    rows = [line for line in text.split("\n")]
    names = {it: next((n for n, line in enumerate(rows) if re.match(rf"{it}(?: \w+)?:", line)), None) for it in (gone, into)}
    if None in names.values():
        return text
    uses = [name for it in (into, gone) for name in rows[names[it]].partition(":")[2].split() if name not in (gone, into)]
    begin, first = rows[names[into]].partition(":")[0], min(names.values())
    rows[max(names.values())] = f"{begin}: {' '.join(dict.fromkeys(uses))}"
    rows[first : first + 1] = []
    if first and rows[first - 1].startswith("#") and (first == len(rows) or rows[first].startswith("#") or not rows[first]):
        rows[first - 1 : first] = []
    for number, row in enumerate(rows):
        head, colon, its = row.partition(":")
        if colon and not row.startswith("#") and gone in its.split():
            rows[number] = f"{head}: {' '.join(dict.fromkeys(into if it == gone else it for it in its.split()))}"
    return "\n".join(rows)
