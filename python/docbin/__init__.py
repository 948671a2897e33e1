"""Documents of Word 97, read, judged, compared and edited by the library `docbin`, whose every function is proved to meet its contract.

>>> import docbin
>>> hello = open("examples/hello.doc", "rb").read()
>>> docbin.text(hello)
'Hello\\n'
>>> docbin.check(hello)
'accepted: units 6 styles 3 sections 1 notes 0 streams 0'
>>> made = docbin.edit(hello, [{"do": "insert", "story": "main", "at": 5, "text": "!"}])
>>> docbin.text(made)
'Hello!\\n'
>>> docbin.equal(hello, made)
False
>>> docbin.text(b"no document")
Traceback (most recent call last):
docbin.RuleBroken: first: rule 1 File 11

Each function takes the bytes of a file, and gives a text or bytes. What is refused raises a `Refused`, whose `status` is that of the program
and whose `line` is the line that it prints: docs/COMMANDS.md tells what each means. An argument of another kind raises a TypeError, a ValueError or
an OverflowError, and nothing is called.

A document of a later program is fitted first, and read as people read it:

>>> fitted = docbin.fit(hello)
>>> docbin.check(fitted.bytes), fitted.left_out
('accepted: units 6 styles 3 sections 1 notes 0 streams 0', [])
>>> docbin.plain(fitted.bytes)
'Hello\\n'

The calls are those of the library libdocbin.so (DOCBIN_LIBRARY, or beside this file); where it is not there, runs of the programs (DOCBIN, DOCFIT
and DOCVIEW, or docbin, docfit and docview in the PATH), with the same results. What is proved of a call is said in crates/docbin_c, crates/doc_run,
crates/docfit_run and crates/docview_run; this package hands bytes over and proves nothing."""
import json as _json
import operator
import os
import pathlib
import re
from typing import Any, Callable, Dict, Iterable, Iterator, List, Mapping, Optional, Sequence, Tuple, Union

from . import backends as _backends
from .document import Document, Heading, Note, Paragraph, Properties, Run, Stream, Style, Summary, Table
from .fitting import Feature, Fitted
from .fitting import fitted as _fitted
from .refusals import EditRefused, Encrypted, GuardRefused, NoSummary, NotWord97, Refused, RuleBroken, SaveRefused, WrongScript
from .refusals import refused as _refused

__version__ = "1.0.0"
__all__ = [
    "text", "streams", "check", "show", "props", "outline", "title", "equal", "full", "retitle", "edit", "export", "import_json", "join", "fit", "plain",
    "markdown", "html", "folder", "FULL", "FAST", "Document", "Heading", "Note", "Paragraph", "Properties", "Run", "Stream", "Style", "Summary", "Table", "Feature",
    "Fitted", "Refused", "RuleBroken", "WrongScript", "EditRefused", "SaveRefused", "GuardRefused", "NoSummary", "NotWord97", "Encrypted",
]

for _it in (Document, Feature, Fitted, Refused, RuleBroken, WrongScript, EditRefused, SaveRefused, GuardRefused, NoSummary, NotWord97, Encrypted):
    _it.__module__ = __name__

FULL = {"do": "save", "mode": "full"}
FAST = {"do": "save", "mode": "fast"}
BytesLike = Union[bytes, bytearray, memoryview]
# What the program takes: a position, and a title.
_MOST_POSITION = 999_999_999
_TITLE = re.compile(r"[ -~]{0,255}")

_backend: Optional[Union[_backends.Library, _backends.Program]] = None


def _call(name: str, *given: _backends.Given, flags: Sequence[bool] = ()) -> _backends.Answer:
    global _backend
    if _backend is None:
        _backend = _backends.found()
    return _backend.call(name, given, flags)


def _bytes(data: BytesLike) -> bytes:
    """All bytes of an object that has bytes, whatever the width of its items."""
    if isinstance(data, bytes):
        return data
    try:
        return memoryview(data).tobytes()
    except TypeError:
        raise TypeError(f"the bytes of a file are needed, not {type(data).__name__!r}") from None


def _json_bytes(value: Any) -> bytes:
    return _json.dumps(value, allow_nan=False).encode()


def _flags(**flags: bool) -> Sequence[bool]:
    for name, it in flags.items():
        if not isinstance(it, bool):
            raise TypeError(f"{name} is a bool, and not {type(it).__name__!r}")
    return tuple(flags.values())


def _text(name: str, *given: _backends.Given, flags: Sequence[bool] = ()) -> str:
    status, line, _ = _call(name, *given, flags=flags)
    if status:
        raise _refused(status, line.rstrip("\n"))
    return line


def _lines(name: str, *given: _backends.Given) -> List[str]:
    return _text(name, *given).split("\n")[:-1]


def _made(name: str, *given: _backends.Given, flags: Sequence[bool] = ()) -> bytes:
    status, line, made = _call(name, *given, flags=flags)
    if status:
        raise _refused(status, line.rstrip("\n"))
    return made


def text(data: BytesLike) -> str:
    """The main text, a line for each paragraph."""
    return _text("text", _bytes(data))


def streams(data: BytesLike) -> List[str]:
    """A line for each stream of the container."""
    return _lines("streams", _bytes(data))


def check(data: BytesLike) -> str:
    """How much an accepted file has; `RuleBroken` where it is refused."""
    return _lines("check", _bytes(data))[0]


def show(data: BytesLike) -> List[str]:
    """The styles, texts and bookmarks, line by line."""
    return _lines("show", _bytes(data))


def props(data: BytesLike, position: int) -> List[str]:
    """What is in effect at an item of the main text, which are counted from 0."""
    held, at = _bytes(data), operator.index(position)
    if at < 0:
        raise ValueError(f"a position is counted from 0, and not {at}")
    if at > _MOST_POSITION:
        raise OverflowError(f"a position is {_MOST_POSITION} at most, and not {at}")
    return _lines("props", held, at)


def outline(data: BytesLike) -> List[str]:
    """The paragraphs that have a number or a level in the outline."""
    return _lines("outline", _bytes(data))


def title(data: BytesLike) -> List[str]:
    """The lines on title, subject and author of the summary."""
    return _lines("title", _bytes(data))


def equal(first: BytesLike, second: BytesLike) -> bool:
    """Whether two files have equal documents."""
    status, line, _ = _call("equal", _bytes(first), _bytes(second))
    if status not in (0, 11):
        raise _refused(status, line.rstrip("\n"))
    return status == 0


def full(data: BytesLike) -> bytes:
    """The full save of the document: a function of the document alone."""
    return _made("full", _bytes(data))


def retitle(data: BytesLike, new: str) -> bytes:
    """The full save of the document with another title: at most 255 characters of plain ASCII."""
    held = _bytes(data)
    if not isinstance(new, str):
        raise TypeError(f"a title is a str, and not {type(new).__name__!r}")
    if not _TITLE.fullmatch(new):
        raise ValueError("a title has at most 255 characters, each from U+0020 to U+007E")
    return _made("retitle", held, new)


def edit(data: BytesLike, commands: Iterable[Mapping[str, Any]], guarded: bool = True) -> bytes:
    """The last save of a script (docs/COMMANDS.md) over the document; where the last command is no save, a full one is added. Without `guarded`,
    which the library alone can do, edits may add as many items as a document can have.

    >>> docbin.edit(open("examples/hello.doc", "rb").read(), [{"do": "erase", "story": "main", "from": 9, "to": 10}])
    Traceback (most recent call last):
    docbin.EditRefused: edit 0: range
    """
    held, script = _bytes(data), list(commands)
    for it in script:
        if not isinstance(it, Mapping):
            raise TypeError(f"a command is a dict, and not {type(it).__name__!r}")
    flags = _flags(guarded=guarded)
    if not script or script[-1].get("do") != "save":
        script.append(FULL)
    return _made("edit", held, _json_bytes([dict(it) for it in script]), flags=flags)


def export(data: BytesLike) -> Dict[str, Any]:
    """The document as JSON gives it (docs/JSON.md)."""
    document: Dict[str, Any] = _json.loads(_made("export", _bytes(data)))
    return document


def import_json(document: Mapping[str, Any]) -> bytes:
    """The full save of a document that is given as `export` gives it."""
    if not isinstance(document, Mapping):
        raise TypeError(f"a document is a dict, as export gives it, and not {type(document).__name__!r}")
    return _made("import", _json_bytes(dict(document)))


def join(first: BytesLike, second: BytesLike) -> bytes:
    """The full save of one document with another behind it."""
    return _made("join", _bytes(first), _bytes(second))


def fit(data: BytesLike, plain: bool = False) -> Fitted:
    """A document of Word 97 to 2007 as a file that docbin accepts, with what of it is left out (docs/FIT.md). Endnotes and comments are notes of it; with `plain`
    they are left out. `NotWord97` or `Encrypted` where it is no such file or cannot be read, `RuleBroken` where it
    breaks a rule that is left."""
    status, report, made = _call("fit", _bytes(data), flags=_flags(plain=plain))
    if status:
        raise _refused(status, report.rstrip("\n"))
    return _fitted(made, report)


def plain(data: BytesLike, hidden: bool = False, headers: bool = False) -> str:
    """The document as people read it (docs/VIEW.md), with hidden text, header texts, or without them. `text` gives the main text as it stands."""
    return _text("plain", _bytes(data), flags=_flags(hidden=hidden, headers=headers))


def markdown(data: BytesLike, hidden: bool = False, headers: bool = False) -> str:
    """The same as Markdown (CommonMark with tables, strikethrough and footnotes)."""
    return _text("markdown", _bytes(data), flags=_flags(hidden=hidden, headers=headers))


def html(data: BytesLike, hidden: bool = False, headers: bool = False) -> str:
    """The same as a page in HTML."""
    return _text("html", _bytes(data), flags=_flags(hidden=hidden, headers=headers))


def folder(path: Union[str, "os.PathLike[str]"], call: Callable[[bytes], Any] = text, pattern: str = "**/*.doc") -> Iterator[Tuple[pathlib.Path, Any]]:
    """What a call gives for each file of a folder, in order of the names; for a file that is refused, or cannot be read, the exception.

    >>> [(path.name, got) for path, got in docbin.folder("examples", pattern="hello*")]
    [('hello.doc', 'Hello\\n')]
    """
    for name in sorted(pathlib.Path(path).glob(pattern)):
        if name.is_file():
            try:
                data = name.read_bytes()
            except OSError as why:
                yield name, why
                continue
            try:
                yield name, call(data)
            except Refused as why:
                yield name, why
