"""What docfit prints of a file, as objects."""
import re
from typing import Dict, List, NamedTuple, Union

Field = Union[int, str]


class Feature(NamedTuple):
    """What is left out of a file, or mended: its kind, and what the line says of it, by name. Texts are those of the file, numbers numbers.

    >>> left = docbin.fitting.feature("part 50 DggInfo 1234")
    >>> left.kind, left.fields["name"], left.fields["bytes"]
    ('part', 'DggInfo', 1234)
    """

    kind: str
    fields: Dict[str, Field]


class Fitted(NamedTuple):
    """A file that docbin accepts, what of the file that was given is left out, and what is mended."""

    bytes: bytes
    left_out: List[Feature]
    mended: List[Feature]


_PLACE = r"(?P<place>main|(?:note|head) \d+)"
# What stands behind the kind of a line (docs/FIT.md). Names may have spaces.
_FORMS = {
    "stream": r"(?P<name>.*)",
    "storage": r"(?P<name>.*)",
    "part": r"(?P<pair>\d+) (?P<name>[^\s:]+)(?: (?P<bytes>\d+)|: (?P<made>emptied))",
    "story": r"(?P<story>\S+) (?P<units>\d+) \| (?P<text>.*)",
    "autotext": r"page (?P<page>\d+)",
    "reference": rf"(?P<story>\S+) {_PLACE} (?P<at>\d+)(?:: (?P<made>.*))?",
    "code": r"(?P<list>\S+) (?P<code>[0-9a-f]{4}) (?P<count>\d+)",
    "repeat": r"(?P<list>\S+) (?P<code>[0-9a-f]{4}) (?P<count>\d+)",
    "endnote": r"(?P<endnote>\d+): note (?P<note>\d+)",
    "comment": r"(?P<comment>\d+): note (?P<note>\d+)",
    "deleted": rf"{_PLACE} (?P<begin>\d+) (?P<end>\d+)(?:: (?P<made>.*))?",
    "bookmark": r"(?P<name>.*) (?P<begin>\d+) (?P<end>\d+)",
    "sheet": r"(?P<bytes>\d+)",
    "sector": r"(?P<bytes>\d+): (?P<made>.*)",
    "stops": r"(?P<count>\d+): (?P<made>read)",
    "style": r"(?P<style>\d+): (?P<made>emptied)",
    "styles": r"(?P<style>\d+): (?P<made>cut)",
    "base": r"(?P<style>\d+)",
    "mark": rf"{_PLACE} (?P<at>\d+): (?:style (?P<style>\d+)|(?P<made>cells of Data))",
    "row": rf"{_PLACE} (?P<at>\d+): (?P<cells>\d+) cells",
    "end": _PLACE,
}
_NUMBERS, _SHOWN = ("pair", "bytes", "units", "page", "at", "count", "begin", "end", "style", "cells", "endnote", "comment", "note"), ("name", "text")


def unshown(text: str) -> str:
    """The text that is shown so: `\\u` and four digits are a unit."""
    return re.sub(r"\\u([0-9a-f]{4})", lambda it: chr(int(it[1], 16)), text)


def feature(line: str) -> Feature:
    """The object of a line. A line of a form that is not known has its words."""
    kind, _, rest = line.partition(" ")
    found = re.fullmatch(_FORMS.get(kind, "(?!)"), rest)
    if not found:
        return Feature(kind, {"words": rest})
    said = {name: it for name, it in found.groupdict().items() if it is not None}
    return Feature(kind, {name: int(it) if name in _NUMBERS else unshown(it) if name in _SHOWN else it for name, it in said.items()})


def fitted(made: bytes, report: str) -> Fitted:
    """What docfit made and printed."""
    first, *lines = report.split("\n")[:-1]
    left_out = int(first.partition("left out ")[2].partition(",")[0])
    features = [feature(it) for it in lines]
    return Fitted(made, features[:left_out], features[left_out:])
