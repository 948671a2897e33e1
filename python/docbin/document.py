"""Documents as objects: paragraphs, runs, tables and notes to read, and a text to replace.

What is proved is what the calls beneath give; this module counts and sorts what they give."""
import os
import pathlib
import re
from typing import Any, Dict, Iterator, List, NamedTuple, Optional, Sequence, Tuple, Union

from . import names

Source = Union[bytes, bytearray, memoryview, str, "os.PathLike[str]"]
Settings = Dict[str, str]
# Units that end a cell and a row, and the settings of marks that say so: in a table, and the end of a row.
CELL = "\x07"
IN_TABLE, ROW_END = "2416", "2417"
# How many texts a script may replace: two edits each, and a save behind them all.
MOST_PAIRS = 2_047


class Summary(NamedTuple):
    """Title, subject and author; None where there is none. Bytes that are no ASCII are `\\xNN`."""

    title: Optional[str]
    subject: Optional[str]
    author: Optional[str]


class Heading(NamedTuple):
    """A paragraph that has a level in the outline, 0 to 8, or a number in a list."""

    paragraph: int
    level: Optional[int]
    number: Optional[str]
    text: str


class Stream(NamedTuple):
    """A stream of the container: its name as shown text, and how many bytes it has."""

    name: str
    size: int


class Properties(NamedTuple):
    """What holds at an item: its unit, its paragraph's style, and the settings of the character and of the paragraph, set there and in effect."""

    unit: int
    style: int
    character: Settings
    effective_character: Settings
    paragraph: Settings
    effective_paragraph: Settings
    tabs: List[Tuple[int, int]]


class Style(NamedTuple):
    """A style by its number in the sheet, and its name."""

    number: int
    name: str


class Run(NamedTuple):
    """Neighbouring characters with the same settings: by the name of the setting, or by its code where it has none here, the bytes of its value as
    hexadecimal digits."""

    begin: int
    text: str
    settings: Settings

    @property
    def bold(self) -> bool:
        return self.settings.get("bold") == "01"

    @property
    def italic(self) -> bool:
        return self.settings.get("italic") == "01"


class Paragraph(NamedTuple):
    """A paragraph: its items from `begin` to before `end`, the mark among them; its style, the mark's settings, and its runs without the mark."""

    begin: int
    end: int
    style: Style
    settings: Settings
    runs: List[Run]
    mark: str

    @property
    def text(self) -> str:
        return "".join(it.text for it in self.runs)

    @property
    def is_cell(self) -> bool:
        return self.mark == CELL


class Table(NamedTuple):
    """A table of the main text: its rows, each a list of the texts of its cells."""

    begin: int
    end: int
    rows: List[List[str]]


class Note(NamedTuple):
    """A note: where its reference is in the main text, whether it is numbered, and its paragraphs."""

    reference: int
    is_numbered: bool
    paragraphs: List[Paragraph]

    @property
    def text(self) -> str:
        return "\n".join(it.text for it in self.paragraphs)


def _units(digits: str) -> str:
    """Units as the JSON has them, a character each."""
    return "".join(chr(int(digits[at : at + 4], 16)) for at in range(0, len(digits), 4))


def _joined(units: str) -> str:
    """Units with their surrogate pairs as characters; a half without the other stays one."""
    return units.encode("utf-16-le", "surrogatepass").decode("utf-16-le", "surrogatepass")


def _split(text: str) -> str:
    """A text with a character for each unit of UTF-16."""
    return _units(text.encode("utf-16-be", "surrogatepass").hex())


def _named(settings: Dict[str, str]) -> Settings:
    return {names.SETTINGS.get(code, code): value for code, value in settings.items()}


def _printed(line: str) -> Settings:
    return _named(dict(re.findall(r" ([0-9a-f]{4})=([0-9a-f]*)", line)))


class Document:
    """A document that docbin accepts; `RuleBroken` and others as the calls raise them.

    >>> letter = Document.open("examples/letter.doc")
    >>> [it.text for it in letter.paragraphs][0]
    'Offer'
    >>> [it.text for it in letter.paragraphs[1].runs if it.bold]
    ['Ann']
    >>> letter.notes[0].text
    '\\x02 Net price.'
    >>> letter.replace("Ann", "Zoë")
    1
    >>> letter.text.split("\\n")[1].split("\\t")[0]
    'Dear Zoë,'
    """

    def __init__(self, data: bytes):
        from . import check

        check(data)
        self.data = data
        self._held: Optional[Dict[str, Any]] = None

    @classmethod
    def open(cls, source: Source) -> "Document":
        """The document of a file, by its path or by its bytes."""
        if isinstance(source, (str, os.PathLike)):
            return cls(pathlib.Path(source).read_bytes())
        return cls(memoryview(source).tobytes())

    def save(self, path: Union[str, "os.PathLike[str]"]) -> None:
        """Writes the file as it is now: what was opened, or the full save of the last change. A new file beside it takes its place."""
        place = pathlib.Path(os.path.realpath(path))
        new = place.with_name(f".{place.name}.{os.getpid()}.new")
        try:
            new.write_bytes(self.data)
            if place.exists():
                new.chmod(place.stat().st_mode & 0o7777)
            os.replace(new, place)
        finally:
            new.unlink() if new.exists() else None

    @property
    def _json(self) -> Dict[str, Any]:
        from . import export

        if self._held is None:
            self._held = export(self.data)
        return self._held

    def _change(self, data: bytes) -> None:
        self.data, self._held = data, None

    @property
    def styles(self) -> Dict[int, Style]:
        """The styles by their numbers."""
        return {at: Style(at, _joined(_units(it["name"]))) for at, it in enumerate(self._json["sheet"]["styles"]) if it}

    def _paragraphs(self, pieces: Sequence[Dict[str, Any]]) -> Iterator[Paragraph]:
        styles, begin, at, runs = self.styles, 0, 0, []  # type: Dict[int, Style], int, int, List[Run]
        for piece in pieces:
            units = _units(piece["t"])
            mark = piece.get("m")
            if mark is None:
                settings = _named(piece["c"])
                if runs and runs[-1].settings == settings:
                    runs[-1] = runs[-1]._replace(text=runs[-1].text + units)
                else:
                    runs.append(Run(at, units, settings))
            at += len(units)
            if mark is not None:
                shown = [it._replace(text=_joined(it.text)) for it in runs]
                yield Paragraph(begin, at, styles.get(mark["s"], Style(mark["s"], "")), _named(mark["p"]), shown, units)
                begin, runs = at, []

    @property
    def paragraphs(self) -> List[Paragraph]:
        """The paragraphs of the main text: those of tables among them, a cell's last one with `is_cell`."""
        return list(self._paragraphs(self._json["main"]))

    @property
    def text(self) -> str:
        """The main text, a line for each paragraph."""
        return "".join(f"{it.text}\n" for it in self.paragraphs)

    @property
    def headers(self) -> List[List[Paragraph]]:
        """The header texts: six of notes, and six of each section."""
        return [list(self._paragraphs(it)) for it in self._json["heads"]]

    @property
    def notes(self) -> List[Note]:
        """The notes in the order of their references."""
        at, found = 0, []
        for piece in self._json["main"]:
            if "n" in piece:
                found.append((at, piece["n"] == "auto"))
            at += len(piece["t"]) // 4
        return [Note(*it, list(self._paragraphs(pieces))) for it, pieces in zip(found, self._json["notes"])]

    @property
    def tables(self) -> List[Table]:
        """The tables of the main text. A table in a cell is shown as its cells are: one behind the other."""
        found: List[Table] = []
        row: List[str] = []
        lines: List[str] = []
        for it in self.paragraphs:
            codes = {names.CODES.get(key, key): value for key, value in it.settings.items()}
            if not it.is_cell and codes.get(IN_TABLE) != "01":
                row, lines = [], []
                continue
            if not row and not lines and not (found and found[-1].end == it.begin):
                found.append(Table(it.begin, it.begin, []))
            if it.is_cell and codes.get(ROW_END) == "01":
                found[-1].rows.append(row)
                row, lines = [], []
            elif it.is_cell:
                row.append("\n".join([*lines, it.text]))
                lines = []
            else:
                lines.append(it.text)
            found[-1] = found[-1]._replace(end=it.end)
        return [it for it in found if it.rows]

    @property
    def bookmarks(self) -> Dict[str, Tuple[int, int]]:
        """The bookmarks by name: the items of the main text from before to before."""
        return {_joined(_units(name)): (begin, end) for name, begin, end, _ in self._json["bookmarks"]}

    @property
    def summary(self) -> Summary:
        """Title, subject and author; `NoSummary` where the document has no summary."""
        from . import title

        return Summary(*(None if it.partition(" ")[2] == "-" else it.partition(" ")[2] for it in title(self.data)))

    @property
    def title(self) -> Optional[str]:
        """The title. What is set is at most 255 characters of plain ASCII, and the document has a summary already."""
        return self.summary.title

    @title.setter
    def title(self, new: str) -> None:
        from . import retitle

        self._change(retitle(self.data, new))

    @property
    def outline(self) -> List[Heading]:
        """The paragraphs that have a level in the outline or a number in a list."""
        from . import outline

        found = []
        for line in outline(self.data):
            at, level, number, text = re.match(r"(\d+) (-|\d) (.*?) \| (.*)", line, re.S).groups()  # type: ignore[union-attr]
            found.append(Heading(int(at), None if level == "-" else int(level), None if number == "-" else number, text))
        return found

    @property
    def streams(self) -> List[Stream]:
        """The streams of the container."""
        from . import streams

        return [Stream(name, int(size)) for size, name in (it.split(" ", 1) for it in streams(self.data))]

    def properties(self, position: int) -> Properties:
        """What holds at an item of the main text."""
        from . import props

        unit, style, *settings, tabs = props(self.data, position)
        own, effective, paragraph, all_of_paragraph = map(_printed, settings)
        stops = [(int(at), int(kind, 16)) for at, kind in re.findall(r" (-?\d+):([0-9a-f]{2})", tabs)]
        return Properties(int(unit[5:], 16), int(style[6:]), own, effective, paragraph, all_of_paragraph, stops)

    def _texts(self) -> Iterator[Tuple[str, str]]:
        """The texts by the names that scripts have for them, a character for each unit."""
        yield "main", "".join(_units(it["t"]) for it in self._json["main"])
        for kind, key in (("note", "notes"), ("head", "heads")):
            for number, pieces in enumerate(self._json[key]):
                yield f"{kind}:{number}", "".join(_units(it["t"]) for it in pieces)

    def replace(self, old: str, new: str) -> int:
        """Puts a text in place of another one wherever that is, in the main text, the notes and the header texts, with the settings of its first
        character. Returns how many times. Neither has a control character; bookmarks move with the text."""
        from . import edit

        if not old or any(ord(it) < 0x20 for it in old + new):
            raise ValueError("what is replaced is a text of one character at least, and neither has control characters")
        sought, put = _split(old), _split(new)
        places = [(story, begin) for story, units in self._texts() for begin in _places(units, sought)]
        # (from the last place to the first, so that no place moves)
        places.reverse()
        for first in range(0, len(places), MOST_PAIRS):
            script: List[Dict[str, Any]] = []
            for story, begin in places[first : first + MOST_PAIRS]:
                if new:
                    script.append({"do": "insert", "story": story, "at": begin, "text": new})
                script.append({"do": "erase", "story": story, "from": begin + len(put), "to": begin + len(put) + len(sought)})
            self._change(edit(self.data, script))
        return len(places)


def _places(units: str, sought: str) -> List[int]:
    """Where a text stands in units, one behind the other."""
    found, begin = [], units.find(sought)
    while begin >= 0:
        found.append(begin)
        begin = units.find(sought, begin + len(sought))
    return found
