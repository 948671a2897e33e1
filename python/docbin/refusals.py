"""What docbin refuses, as exceptions."""
import re
from typing import Optional

LAST = r"rule (\d+) (.+?) (\d+)(?: \(.*\))?$"


class Refused(Exception):
    """Why a call gives nothing: the status of the program, and the line that it prints. `index` counts the commands of a script from 0, where the
    line names one."""

    def __init__(self, status: int, line: str):
        super().__init__(status, line)
        self.status, self.line = status, line
        found = re.match(r"(?:edit|save|script: command) (\d+)\b", line)
        self.index: Optional[int] = int(found[1]) if found else None

    def __str__(self) -> str:
        return self.line


class RuleBroken(Refused):
    """A rule that a file, or what is made, breaks first: its number, the place by name, and the offset in it."""

    def __init__(self, status: int, line: str):
        super().__init__(status, line)
        found = re.search(LAST, line)
        number = re.search(r"rule (\d+)", line)
        self.rule: int = int(number[1]) if number else 0
        self.place: str = found[2] if found else ""
        self.offset: int = int(found[3]) if found else 0


class WrongScript(Refused):
    """A script is none, or what is imported is no document."""


class EditRefused(Refused):
    """An edit may not be made, or a position is not there."""


class SaveRefused(Refused):
    """A file would be too large, or a fast save is refused."""


class GuardRefused(Refused):
    """The guard does not allow an edit."""


class NoSummary(Refused):
    """There is no summary, or it is wrong."""


class NotWord97(Refused):
    """A file is not of Word 97 to 2007: the wIdent and nFib of its FIB, where the line names them (that of `fit` does)."""

    def __init__(self, status: int, line: str):
        super().__init__(status, line)
        found = re.search(r"wIdent ([0-9a-f]{4}) nFib ([0-9a-f]{4})$", line)
        self.ident: int = int(found[1], 16) if found else 0
        self.version: int = int(found[2], 16) if found else 0


class Encrypted(Refused):
    """A file is encrypted or obfuscated."""


KINDS = {1: RuleBroken, 7: WrongScript, 8: EditRefused, 9: SaveRefused, 10: GuardRefused, 13: NoSummary, 14: NoSummary, 15: NotWord97, 16: Encrypted}


def refused(status: int, line: str) -> Exception:
    """The exception of a status and its line."""
    if status == 6:
        return MemoryError("docbin")
    if status not in (15, 16) and re.search(LAST, line):
        return RuleBroken(status, line)
    return KINDS.get(status, Refused)(status, line)
