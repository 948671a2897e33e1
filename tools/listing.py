"""The texts of a document as `docbin show` lists them, with the positions that a script counts."""
import errno
import os
import re
import shutil
import stat
import subprocess
import sys

import files
from files import FAULT, MISSING, Ended

TOP = os.path.dirname(os.path.dirname(os.path.realpath(__file__)))
# The name under which the program reads a file.
INPUT = "/dev/stdin"
# Statuses of the program where the system failed.
SYSTEM = (3, 4, 5, 70)
CELL, FIELD_BEGIN, FIELD_END = "\x07", "\x13", "\x15"
# A row of a table ends with a mark that has this setting (sprmPFTtp).
ROW_END = "2417=01"


def program(name="docbin"):
    """A program: that of the environment's DOCBIN or DOCVIEW, else the built one, else the one that is installed."""
    variable = name.upper()
    named = os.environ.get(variable)
    places = [named] if named else [f"{TOP}/crates/{name}/out/{name}", shutil.which(name)]
    found = next((it for it in places if it and os.access(it, os.X_OK)), None)
    if not found:
        raise Ended(f"{name} is not built: run ./build, or name it by the environment's {variable}", 70)
    return found


def units(text):
    """A text with one character a unit of UTF-16."""
    data = text.encode("utf-16-le", "surrogatepass")
    return "".join(chr(int.from_bytes(data[at : at + 2], "little")) for at in range(0, len(data), 2))


def unshown(text):
    """The units that a shown text stands for."""
    return units(re.sub(r"\\u([0-9a-f]{4})", lambda it: chr(int(it[1], 16)), text))


def shown(text):
    """Units as the program shows them."""
    joined = text.encode("utf-16-le", "surrogatepass").decode("utf-16-le", "surrogatepass")
    return "".join(f"\\u{ord(it):04x}" if ord(it) < 0x20 or it == "\\" or 0xD800 <= ord(it) < 0xE000 else it for it in joined)


class Paragraph:
    """A paragraph: where it begins, where the next one does, its style, and the settings of its mark."""

    def __init__(self, begin, style, settings):
        self.begin, self.end, self.style, self.settings = begin, begin, style, settings


class Story:
    """A text by its name in scripts: its units, its paragraphs, its references to notes, and where its sections end."""

    def __init__(self, name):
        self.name, self.text, self.paragraphs, self.notes, self.sections = name, "", [], [], []

    def line(self, word, rest):
        if word == "mark":
            style, _, settings = rest.partition(" ")
            self.paragraphs.append(Paragraph(len(self.text), int(style), settings.split()))
        elif word == "sect":
            self.sections.append(len(self.text))
        else:
            if word == "note":
                self.notes.append(len(self.text))
            self.text += unshown(rest.partition("| ")[2])
            self.paragraphs[-1].end = len(self.text)

    def places(self, word):
        """Where a word stands, each place."""
        found = self.text.find(word) if word else -1
        while found >= 0:
            yield found
            found = self.text.find(word, found + 1)

    def kind(self, paragraph):
        """What a paragraph is, in a word or two."""
        if ROW_END in paragraph.settings:
            return "row end"
        return "cell" if self.text[paragraph.begin : paragraph.end].endswith(CELL) else "paragraph"

    def fields(self):
        """Where fields begin and end, the inner ones first."""
        open_at = []
        for at, unit in enumerate(self.text):
            if unit == FIELD_BEGIN:
                open_at.append(at)
            elif unit == FIELD_END and open_at:
                yield open_at.pop(), at + 1


class Listing:
    """The styles of a document by their numbers, its stories by their names, and its bookmarks (from, to, shown name), in the order of `show`."""

    def __init__(self, lines):
        self.styles, self.stories, self.bookmarks, story = {}, {}, [], None
        for line in lines:
            word, _, rest = line.partition(" ")
            if word == "style" and story is None:
                number, kind, _, _, name = (rest + " ").split(" ", 4)
                self.styles[int(number)] = (kind, name.rstrip(" "))
            elif word == "story":
                story = Story(":".join(rest.split()))
                self.stories[story.name] = story
            elif word == "bookmark":
                begin, end, name = rest.split(" ", 2)
                self.bookmarks.append((int(begin), int(end), name))
            elif story is not None:
                story.line(word, rest)


def run_on(name, *words):
    """Runs the program on a file, which it reads as its standard input, so that the bytes of the name do not matter. INPUT stands for the file
    among the words. Returns the status, and what was printed, with the name in its line. Why it ended so, which the program says beside it, is
    said only where the system failed."""
    with open(name, "rb") as file:
        if stat.S_ISDIR(os.fstat(file.fileno()).st_mode):
            raise IsADirectoryError(errno.EISDIR, os.strerror(errno.EISDIR), name)
        ran = subprocess.run([program(), *words], stdin=file, stdout=subprocess.PIPE, stderr=subprocess.PIPE, check=False)
    if ran.returncode in SYSTEM or ran.returncode < 0:
        sys.stderr.write(ran.stderr.decode(errors="replace"))
    status, printed = ran.returncode if ran.returncode >= 0 else 128 - ran.returncode, ran.stdout.decode(errors="replace")
    return status, re.sub(f"^{INPUT}: ", "", printed) if status else printed


def listing(name):
    """The listing of a file."""
    try:
        status, printed = run_on(name, "show", INPUT)
    except OSError as error:
        raise Ended(f"{files.shown(name)}: {files.reason(error)}", MISSING if isinstance(error, FileNotFoundError) else FAULT) from None
    if status:
        raise Ended(f"{files.shown(name)}: {printed.strip() or f'docbin ended with status {status}'}", status)
    return Listing(printed.split("\n"))
