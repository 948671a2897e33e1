"""The settings and the field types by name, as the tables of docs/SETTINGS.md have them."""
import os
import re

PAGE = os.path.join(os.path.dirname(os.path.dirname(os.path.realpath(__file__))), "docs/SETTINGS.md")
# How many of a setting's unit a point is. Of those in BARE a number alone is one of points.
PER_POINT = {"half points": 2, "twips": 20, "eighths of a point": 8}
BARE = "half points"
POINTS = {"pt": 1, "in": 72, "cm": 72 / 2.54, "mm": 72 / 25.4}
NUMBER = re.compile(r"(-?[0-9]+(?:\.[0-9]+)?)(pt|in|cm|mm)?")
# Spacing of lines: how many parts a line has, and the two bytes that say so.
LINE_PARTS, OF_LINES, OF_TWIPS = 240, "0100", "0000"
LINES = {"single": 1, "double": 2}
# Other words for values.
SAME = {"center": "centre", "justify": "both", "justified": "both"}


def plain(name):
    """A name as it is written in a line: in lower case, with hyphens."""
    return name.strip().lower().replace(" ", "-")


class Setting:
    """A setting: its code, its group, and how its value is written."""

    def __init__(self, name, code, group, value):
        self.name, self.code, self.group = plain(name), code, group
        kind, size, unit, meaning = re.fullmatch(r"(toggle|flag|list|(\d+) bytes?)(?:, ([^:]*))?(?:: (.*))?", value).groups()
        self.kind, self.size, self.unit = kind, int(size or 1), (unit or "").strip()
        words = re.findall(rf"\b([0-9a-f]{{{2 * self.size}}}) ([^,]+)", meaning or "") if size else []
        self.words = {word.strip().replace(" ", "-"): int(number, 16) for number, word in words}

    def value(self, text):
        """The digits of a value as a script has them, or ValueError with what would do."""
        if text.startswith("hex:"):
            return text[4:].lower()
        if self.kind in ("toggle", "flag"):
            if text not in ("on", "off"):
                raise ValueError(f"{self.name} is on or off")
            return "01" if text == "on" else "00"
        named = self.named(text)
        if named is not None:
            return self.bytes(named)
        if self.unit.startswith("red green blue") and re.fullmatch(r"#([0-9a-fA-F]{3}){1,2}", text):
            digits = text[1:] if len(text) == 7 else "".join(2 * it for it in text[1:])
            return digits.lower() + "00"
        if self.unit == "line":
            return self.lines(text)
        return self.bytes(self.number(text))

    def named(self, text):
        """The number that a word stands for; `on` and `off` where the first is one of several kinds."""
        if text in ("on", "off") and "single" in self.words:
            text = "single" if text == "on" else "none"
        text = SAME.get(text.lower(), text)
        found = [it for it in self.words if it == text] or [it for it in self.words if it.lower() == text.lower()]
        return self.words[found[0]] if found else None

    def number(self, text):
        """A number of the setting's own unit, from a number or a length."""
        found, unit = NUMBER.fullmatch(text), re.sub("^signed ", "", self.unit).split(",")[0]
        per_point = PER_POINT.get(unit)
        if self.kind == "list" or not found or found[2] and not per_point or "." in found[1] and not found[2] and unit != BARE:
            raise ValueError(f"{self.name} takes {self.wanted(unit)}; or hex: and the digits of its bytes")
        if found[2] or unit == BARE:
            return round(float(found[1]) * POINTS[found[2] or "pt"] * per_point)
        if per_point and float(found[1]):
            raise ValueError(f"{text} of what? Say {found[1]}pt, {found[1]}mm or {found[1]}in")
        return int(found[1])

    def wanted(self, unit):
        """What a value may be, in a few words."""
        if self.unit.startswith("red green blue"):
            return "#c05000, red green blue in two digits each (colour-number takes red, blue and others)"
        lengths = "a number of points, as 14 or 14pt" if unit == BARE else "a length, as 14pt, 5mm or 1in" if unit in PER_POINT else ""
        return ", ".join([*self.words, *[lengths] * bool(lengths)]) or self.unit or "bytes"

    def lines(self, text):
        """A spacing of lines: a number of them, or a length, at least or, below 0, exactly."""
        found = NUMBER.fullmatch(str(LINES.get(text.lower(), text)))
        if not found:
            raise ValueError(f"{self.name} takes lines, as 1.5, single or double; 14pt for at least, -14pt for exactly; or hex: and the digits of its bytes")
        number = round(float(found[1]) * (POINTS[found[2]] * PER_POINT["twips"] if found[2] else LINE_PARTS))
        if not -(1 << 15) <= number < 1 << 15:
            raise ValueError(f"{self.name} cannot be {text}")
        return (number % (1 << 16)).to_bytes(2, "little").hex() + (OF_TWIPS if found[2] else OF_LINES)

    def bytes(self, number):
        """A number of the setting's size, with the lowest byte first."""
        most = 1 << 8 * self.size
        low = -most // 2 if self.unit.startswith("signed") else 0
        if not low <= number < (most // 2 if low else most):
            raise ValueError(f"{self.name} cannot be {number}")
        return (number % most).to_bytes(self.size, "little").hex()


def tables(page=PAGE):
    """The rows of the page, by the first word of their table's head."""
    head = None
    with open(page, encoding="utf8") as file:
        for line in file:
            cells = [it.strip() for it in line.strip().strip("|").split(" | ")]
            if not line.startswith("|"):
                head = None
            elif head is None:
                head = cells[0]
            elif not cells[0].startswith("--"):
                yield head, cells


def settings(page=PAGE):
    """The settings by their plain names, and by the standard's."""
    found = {}
    for head, cells in tables(page):
        if head == "name":
            standard, _, name = cells[0].partition(" ")
            setting = Setting(name, cells[1].strip("`"), cells[2], cells[3])
            found[setting.name] = found[standard.strip("`").lower()] = setting
    return found


def field_types(page=PAGE):
    """The numbers of field types by their plain names."""
    return {plain(cells[1].partition(",")[0]): int(cells[0]) for head, cells in tables(page) if head == "type"}
