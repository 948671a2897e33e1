"""Wrong bodies, and the functions that they change. A wrong body is a file with a line `file: PATH` and pairs of lines `old: TEXT` and
`new: TEXT`; each old text stands in that file exactly once. Those of must-fail/ are tried by `rt ci`, those of bodies/ by tools/try-bodies."""
import re
from pathlib import Path

ROOT = Path(__file__).resolve().parent.parent
FOLDERS = ("must-fail", "bodies")
FUNCTION = re.compile(r"^( *)(?:(pub) |pub\([a-z]+\) )?(?:const )?fn (\w+)", re.M)
OWNER = re.compile(r"^(?:impl|(?:pub )?trait)(?:<[^>]*>)? (?:(\w+)(?:<[^>]*>)? for )?(\w+)", re.M)
BODY = re.compile(r"(?: \{|^ *\{|;)$", re.M)


class BadBody(Exception):
    """Why a wrong body cannot be made."""


def pairs_of(edit):
    """The file that a wrong body changes, and what becomes what."""
    words = edit.read_text(encoding="utf8")
    path = re.search(r"^file: (.*)$", words, re.M)
    pairs = re.findall(r"^old: (.*)\nnew: ?(.*)$", words, re.M)
    if not path or not pairs:
        raise BadBody("it names no file, or changes nothing")
    return path[1], pairs


def changed(edit, crate):
    """The texts of the files that a wrong body changes, by their paths in the folder of a crate."""
    path, pairs = pairs_of(edit)
    text = (crate / path).read_text(encoding="utf8")
    for old, new in pairs:
        if text.count(old) != 1:
            raise BadBody("its old text does not stand there exactly once")
        text = text.replace(old, new)
    return {path: text}


def clauses_of(text, head):
    """The number of clauses of the function with this head."""
    return len(re.findall(r"\bensures\b", text[head.end():BODY.search(text, head.end()).start()]))


def head_at(text, place):
    """The head of the function whose body holds a place of a file, the trait and the type that it belongs to; or nothing."""
    heads = [head for head in FUNCTION.finditer(text) if head.start() < place]
    if not heads:
        return None
    head = heads[-1]
    indent = head.group(1)
    body = BODY.search(text, head.end()).start()
    if not body < place < text.find(f"\n{indent}}}", body):
        return None
    owners = [owner for owner in OWNER.finditer(text) if owner.start() < head.start()] if indent else []
    trait, owner = owners[-1].groups() if owners else (None, None)
    return head, trait, owner


def place_of(edit, text):
    """Where the text that a wrong body changes stands in its file."""
    old = pairs_of(edit)[1][0][0]
    return text.index(old) + len(old) - len(old.lstrip())


def function_of(edit, crate):
    """The function that a wrong body changes, as the prover names it: with its type, and the trait that the type has it of, before it."""
    path, _ = pairs_of(edit)
    text = (crate / path).read_text(encoding="utf8")
    found = head_at(text, place_of(edit, text))
    if not found:
        raise BadBody("it changes no function")
    head, trait, owner = found
    return f"{owner}{trait or ''}::{head.group(3)}" if owner else head.group(3)
