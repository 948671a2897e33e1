"""The two ways in which a call is made: by the shared library, or by a program. Both take bytes, texts, numbers and flags, and give a status, a text and bytes."""
import ctypes
import mmap
import os
import pathlib
import re
import shutil
import subprocess
import tempfile
from typing import Any, Dict, List, NamedTuple, Optional, Sequence, Tuple, Union

Given = Union[bytes, str, int]
Answer = Tuple[int, str, bytes]


class Call(NamedTuple):
    """The function of the library; the program and its command; whether bytes are put."""

    function: str
    program: str
    command: Tuple[str, ...]
    puts: bool = False


PUTTING = ("full", "retitle", "edit", "export", "import", "join")
CALLS = {it: Call(f"docbin_{it}", "docbin", (it,), it in PUTTING) for it in
         ("text", "streams", "check", "show", "props", "outline", "title", "equal", *PUTTING)}
CALLS["fit"] = Call("docbin_fit_with", "docfit", (), True)
CALLS["plain"] = Call("docview_text", "docview", ("text",))
CALLS["markdown"] = Call("docview_markdown", "docview", ("markdown",))
CALLS["html"] = Call("docview_html", "docview", ("html",))
# The options of programs, in the order of flags, which is that of their bits in the library.
OPTIONS: Dict[str, Tuple[str, ...]] = {"docview": ("--hidden", "--headers"), "docfit": ("--plain",)}
# No file that is put is longer, and no JSON; a longer text is asked for once more.
MOST_BYTES, MUCH_TEXT = 7_143_937, 1 << 26
# The names of the files in the lines of both.
FILES = ("first", "second")
# Statuses of a program where the system failed, and the last one that a program has.
FAULTS, LAST_STATUS = (3, 4, 5), 16


class _Answer(ctypes.Structure):
    _fields_ = [("text_len", ctypes.c_uint64), ("bytes_len", ctypes.c_uint64), ("status", ctypes.c_uint32)]


class _Room:
    """Room that takes memory only where something is written."""

    def __init__(self, size: int):
        self.held = mmap.mmap(-1, size)
        self.words: List[Any] = [(ctypes.c_char * size).from_buffer(self.held), ctypes.c_size_t(size)]

    def first(self, size: int) -> bytes:
        return self.held[:size]


class Library:
    """Calls of the shared library, in this process."""

    def __init__(self, name: Union[str, "os.PathLike[str]"]):
        self.calls = ctypes.CDLL(os.fspath(name))
        for it in CALLS.values():
            getattr(self.calls, it.function).restype = _Answer

    def call(self, name: str, given: Sequence[Given], flags: Sequence[bool] = ()) -> Answer:
        asked, words = CALLS[name], []  # type: Call, List[Any]
        for it in given:
            if isinstance(it, int):
                words.append(ctypes.c_uint32(it))
            else:
                data = it.encode() if isinstance(it, str) else it
                words += [ctypes.c_char_p(data), ctypes.c_size_t(len(data))]
        if asked.program in OPTIONS:
            words.append(ctypes.c_uint32(sum(1 << at for at, is_on in enumerate(flags) if is_on)))
        else:
            words += map(ctypes.c_bool, flags)
        size = MUCH_TEXT
        while True:
            rooms = [_Room(size)] + [_Room(MOST_BYTES)] * asked.puts
            answer = getattr(self.calls, asked.function)(*words, *(word for room in rooms for word in room.words))
            if answer.text_len <= size:
                made = rooms[1].first(answer.bytes_len) if asked.puts else b""
                return answer.status, rooms[0].first(answer.text_len).decode(), made
            size = answer.text_len


class Program:
    """Runs of the programs, over files in a folder of their own."""

    def __init__(self, name: Union[str, "os.PathLike[str]"]):
        self.names: Dict[str, str] = {"docbin": os.path.abspath(name)}

    def place(self, program: str) -> str:
        """Where a program is: that of the environment or of the PATH, else the one beside docbin."""
        if program not in self.names:
            beside = os.path.join(os.path.dirname(self.names["docbin"]), program)
            variable = program.upper()
            place = shutil.which(os.environ.get(variable) or program) or (None if os.environ.get(variable) else shutil.which(beside))
            if not place:
                raise FileNotFoundError(f"{program} is not there ({variable}, or {program} in the PATH)")
            self.names[program] = os.path.abspath(place)
        return self.names[program]

    def call(self, name: str, given: Sequence[Given], flags: Sequence[bool] = ()) -> Answer:
        asked = CALLS[name]
        if name == "edit" and False in flags:
            raise NotImplementedError("edits without a guard need the library libdocbin.so: the program always has its guard")
        options = [it for it, is_on in zip(OPTIONS.get(asked.program, ()), flags) if is_on]
        program = self.place(asked.program)
        with tempfile.TemporaryDirectory(prefix="docbin-") as folder:
            words, files = [*options, *asked.command], iter(FILES)
            for it in given:
                words.append(str(it) if isinstance(it, (int, str)) else next(files))
                if isinstance(it, bytes):
                    pathlib.Path(folder, words[-1]).write_bytes(it)
            ran = subprocess.run([program, *words, *["out"] * asked.puts], cwd=folder, stdin=subprocess.DEVNULL, stdout=subprocess.PIPE, stderr=subprocess.PIPE, check=False)
            if ran.returncode in FAULTS or not 0 <= ran.returncode <= LAST_STATUS:
                said = re.sub(f"^{asked.program}: ", "", ran.stderr.decode(errors="replace").strip())
                raise OSError(f"{program} ended with status {ran.returncode}" + (f": {said}" if said else ""))
            made = pathlib.Path(folder, "out").read_bytes() if asked.puts and ran.returncode == 0 else b""
            # (docview prints pages alone: why there is none goes to its standard error)
            told = ran.stderr if asked.program == "docview" and ran.returncode else ran.stdout
            return ran.returncode, told.decode(), made


def found() -> Union[Library, Program]:
    """The library of the environment's DOCBIN_LIBRARY or beside this file, else the program of DOCBIN or of the PATH."""
    beside = pathlib.Path(__file__).with_name("libdocbin.so")
    library = os.environ.get("DOCBIN_LIBRARY") or (beside if beside.exists() else None)
    if library:
        return Library(library)
    program = shutil.which(os.environ.get("DOCBIN") or "docbin")
    if program:
        return Program(program)
    raise FileNotFoundError("docbin is not there: neither the library (DOCBIN_LIBRARY, or libdocbin.so in the package) nor the program (DOCBIN, or docbin in the PATH)")
