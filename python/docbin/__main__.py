"""`python -m docbin COMMAND ..`: the commands of the program `docbin` that take files and write one at most, by the package's own calls.

    text streams check show outline title FILE       what they print
    props FILE POSITION                              the same
    equal FILE FILE                                  `equal` or `different`
    full export import FILE OUT, retitle FILE TEXT OUT, edit FILE SCRIPT OUT, join FILE FILE OUT
    fit FILE OUT; plain markdown html FILE           what docfit and docview print

Statuses are those of docbin (docs/COMMANDS.md), of docfit (docs/FIT.md) and docview (docs/VIEW.md)."""
import os
import pathlib
import sys
from typing import List

from . import backends

# How many files each command reads, and whether a word that is no file stands behind them, and the name OUT last.
FILES = {"edit": 2, "equal": 2, "join": 2}
WORDS = ("props", "retitle")
WRONG, MISSING, FAULT = 2, 3, 4


def main(words: List[str]) -> int:
    name, rest = (words or [""])[0], words[1:]
    if name not in backends.CALLS:
        print(__doc__, file=sys.stderr)
        return WRONG
    asked = backends.CALLS[name]
    count, puts, has_word = FILES.get(name, 1), asked.puts, name in WORDS
    if len(rest) != count + puts + has_word:
        print(__doc__, file=sys.stderr)
        return WRONG
    given: List[backends.Given] = []
    for it in rest[:count]:
        try:
            given.append(pathlib.Path(it).read_bytes())
        except OSError as why:
            print(f"{it}: {why.strerror}", file=sys.stderr)
            return MISSING if isinstance(why, FileNotFoundError) else FAULT
    if has_word:
        given.append(int(rest[count]) if name == "props" and rest[count].isdigit() else rest[count])
        if name == "props" and not isinstance(given[-1], int):
            print(f"{rest[count]}: no position", file=sys.stderr)
            return WRONG
    status, text, made = backends.found().call(name, given, [True] * (name == "edit"))
    before = f"{asked.program}: " if status and asked.program == "docview" else ""
    for number, file in enumerate(rest[:count]):
        shown = f"{before}{backends.FILES[number]}: "
        text = f"{before}{file}: {text[len(shown):]}" if text.startswith(shown) else text
    (sys.stderr if before else sys.stdout).write(text)
    if puts and status == 0:
        place = os.path.realpath(rest[-1])
        pathlib.Path(place).write_bytes(made)
    return status


sys.exit(main(sys.argv[1:]))
