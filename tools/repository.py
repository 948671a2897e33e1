"""What the scripts know of this repository: its crates, its programs, the kit, the machine that it is on, the words of a tool."""
import argparse
import glob
import os
import re
import shutil
import signal
import subprocess
import sys
from typing import NamedTuple

TOP = os.path.dirname(os.path.dirname(os.path.realpath(__file__)))
# The programs: a folder of crates each, and a script at the top that runs it. One that crates.txt does not have is not there yet.
PROGRAMS = ("docbin", "docview", "docfit")
# The pages and examples that are installed, below share/doc/docbin and in the folders that they have here.
INSTALLED = ("*.md", "docs/*", "examples/*", "examples/c/*")
LINK = re.compile(r"(?<!!)\[([^\]\n]*)\]\(([^)\s]+)\)")
# Minutes of a crate that docs/FIGURES.md does not have yet.
UNKNOWN_MINUTES = 2.0
# Status where the work cannot be begun or ended, which no run of the program has.
NO_ANSWER = 70


def crates(top=TOP):
    """The crates of this repository, lowest first, and those of them that each uses."""
    with open(f"{top}/crates.txt", encoding="utf8") as file:
        lines = [line.split(":", 1) for line in file if ":" in line and not line.startswith("#")]
    names = {line[0].split()[0]: line[1].split() for line in lines}
    return {name: [it for it in uses if it in names] for name, uses in names.items()}


def programs(uses):
    """The programs that are there, by the crates of this repository."""
    return [it for it in PROGRAMS if it in uses]


def stands_on(names, uses):
    """Some crates and those that they stand on, lowest first."""
    needed = set(names)
    for it in reversed(list(uses)):
        if it in needed:
            needed.update(uses[it])
    return [it for it in uses if it in needed]


def built_program(top=TOP, name=PROGRAMS[0]):
    """A program, where it is built and no source is newer, or None."""
    return of_these_sources(f"{top}/crates/{name}/out/{name}", name, top)


def tried_program(name, top=TOP):
    """Where what a try compiled of a program is kept: without proofs, with checks."""
    return f"{top}/crates/{name}/out/tried"


def of_these_sources(program, name, top=TOP):
    """A file that was made of the sources of a program, where it is there and none of them is newer, or None."""
    if not os.access(program, os.X_OK):
        return None
    folders = [f"{top}/crates/{it}/{part}" for it in stands_on([name], crates(top)) for part in ("src", "specs", "proofs")]
    places = [f"{at}/{it}" for folder in folders for at, _, names in os.walk(folder) for it in [".", *names]]
    newest = max(os.stat(it).st_mtime_ns for it in [*places, f"{top}/crates.txt"])
    return None if newest > os.stat(program).st_mtime_ns else program


def proof_minutes(top=TOP):
    """Processor minutes of the proof of each crate, by the table of docs/FIGURES.md."""
    with open(f"{top}/docs/FIGURES.md", encoding="utf8") as file:
        table = file.read().partition("| crate | proof |")[2].partition("\n\n")[0]
    return {name: float(number) for name, number in re.findall(r"^\| (\w+) \| ([0-9.]+) \|", table, re.M)}


def processor_minutes(names, minutes):
    """Processor minutes of the proofs of these crates."""
    return sum(minutes.get(it, UNKNOWN_MINUTES) for it in names)


def clock_minutes(names, uses, minutes, at_once):
    """Minutes by the clock for the proofs of crates, lowest first, a job a crate: those with the longest row of others behind them begin
    first."""
    cost = {it: minutes.get(it, UNKNOWN_MINUTES) for it in names}
    behind, ends, now, waiting = {}, {}, 0.0, list(names)
    for it in reversed(waiting):
        behind[it] = cost[it] + max([behind[up] for up in behind if it in uses[up]], default=0)
    while waiting:
        running = [it for it in ends.values() if it > now]
        ready = [it for it in waiting if all(low not in cost or ends.get(low, now + 1) <= now for low in uses[it])]
        for it in sorted(ready, key=behind.get, reverse=True)[: at_once - len(running)]:
            waiting.remove(it)
            ends[it] = now + cost[it]
        now = min(it for it in ends.values() if it > now)
    return max(ends.values(), default=0)


def reckoned(top=TOP):
    """How many crates ./build proves, and what it takes: processor minutes, and minutes on two processors and on four."""
    uses, minutes = crates(top), proof_minutes(top)
    names = stands_on(programs(uses), uses)
    return [len(names), *(round(it) for it in (processor_minutes(names, minutes), *(clock_minutes(names, uses, minutes, it) for it in (2, 4))))]


def installed_pages(top=TOP):
    """The names of the pages and examples that are installed."""
    return sorted(os.path.relpath(it, top) for pattern in INSTALLED for it in glob.glob(f"{top}/{pattern}") if os.path.isfile(it))


def linked_file(name, target):
    """The file that a link of a page leads to, and its heading, or nothing for none."""
    path, _, place = target.partition("#")
    return os.path.normpath(os.path.join(os.path.dirname(name), path)) if path else name, place


def installed_page(name, text):
    """A page as it is installed: a link to a crate, which is not installed with it, is its words alone."""
    return LINK.sub(lambda found: found[1] if linked_file(name, found[2])[0].startswith("crates/") else found[0], text)


class Kit(NamedTuple):
    """The Rattle kit of this machine: the line that it prints of itself, what is to be said of it where that is not the line of the file KIT,
    and why there is none."""

    line: str = ""
    note: str = ""
    fault: str = ""

    @property
    def logic(self):
        """By which logic this kit proves."""
        return logic_of(self.line)


def logic_of(line):
    return line.partition(" logic ")[2]


def kit_line(top=TOP):
    """The line of the kit with which the proofs were last run."""
    with open(f"{top}/KIT", encoding="utf8") as file:
        return file.read().strip()


def kit(top=TOP):
    """The kit that is here. Any one serves: what its logic proves is proved by that logic."""
    last = kit_line(top)
    todo = f"needed is a Rattle kit, best {last}: unpack one, put its folder bin into PATH, and begin again"
    if not shutil.which("rt"):
        return Kit(fault=f"the command rt of the Rattle kit is not there; {todo}")
    ran = subprocess.run(["rt", "version"], stdin=subprocess.DEVNULL, capture_output=True, text=True, errors="replace", check=False)
    found = ran.stdout.strip()
    if ran.returncode or not logic_of(found):
        said = (ran.stderr.strip() or found).split("\n")[-1] or f"status {ran.returncode}"
        return Kit(fault=f"the command rt does not say of which kit it is ({said}); {todo}")
    if found == last:
        return Kit(found)
    rest = "" if logic_of(found) == logic_of(last) else ": another logic"
    return Kit(found, f"this kit is {found}, the proofs were last run with {last}{rest}")


def processors():
    """How many processors there are to use: those that this process may run on, or fewer by a quota."""
    found = len(os.sched_getaffinity(0))
    try:
        with open("/sys/fs/cgroup/cpu.max", encoding="ascii") as file:
            quota, period = file.read().split()
        if quota.isdigit():
            found = min(found, max(int(quota) // int(period), 1))
    except (OSError, ValueError):
        pass
    return found


def free_memory():
    """The free memory, in units of 1,000,000 bytes."""
    with open("/proc/meminfo", encoding="ascii") as file:
        found = re.search(r"^MemAvailable:\s+(\d+)", file.read(), re.M)
    return int(found[1]) * 1024 // 1_000_000 if found else 1_000


def below(root):
    """The processes that come from this one, and it itself."""
    todo, seen = [root], []
    while todo:
        pid = todo.pop()
        seen.append(pid)
        try:
            threads = os.listdir(f"/proc/{pid}/task")
        except OSError:
            continue
        for thread in threads:
            todo += map(int, text_of(f"/proc/{pid}/task/{thread}/children").split())
    return seen


def crate_of(pid, names):
    """The crate that a process works for, by its words and its folder, or None."""
    words = text_of(f"/proc/{pid}/cmdline").replace("\0", " ")
    try:
        place = os.readlink(f"/proc/{pid}/cwd")
    except OSError:
        place = ""
    named = re.search(r"--crate-name ([a-z0-9_]+)", words) or re.search(r"crates/([a-z0-9_]+)", f"{place} {words}")
    return named[1] if named and named[1] in names else None


def text_of(path):
    """A file of the system, or nothing where it is not there, as of a process that has ended."""
    try:
        with open(path, "rb") as file:
            return file.read().decode(errors="replace")
    except OSError:
        return ""


def resident_memory(root):
    """The memory that a process and those that come from it have now, in units of 1,000,000 bytes."""
    pages = [text_of(f"/proc/{pid}/statm").split() for pid in below(root)]
    return sum(int(it[1]) for it in pages if it) * os.sysconf("SC_PAGE_SIZE") // 1_000_000


def end_on_signals(stop=lambda number, _: sys.exit(128 + number)):
    """Lets the usual signals end this process as an error does, so that what it began is ended and removed."""
    for number in (signal.SIGTERM, signal.SIGHUP, signal.SIGINT):
        signal.signal(number, stop)


def ended(process):
    """Ends a process that was begun here, where it still runs."""
    if process.poll() is None:
        process.terminate()
        process.wait()


def clock(seconds):
    """Seconds as minutes, or as hours and minutes."""
    seconds = int(seconds)
    return f"{seconds // 60}:{seconds % 60:02}"


class Words(argparse.ArgumentParser):
    """The words of a tool. `--help` prints its page and does nothing else; words that it does not know are refused."""

    def __init__(self, page, status=2, **how):
        super().__init__(description=page, formatter_class=argparse.RawDescriptionHelpFormatter, allow_abbrev=False, **how)
        self.status = status

    def error(self, message):
        self.print_usage(sys.stderr)
        print(f"{self.prog}: {message}", file=sys.stderr)
        sys.exit(self.status)


# The name of the tool, where it is not that of its file.
PROG = ""


def words_of(page, status=2, **how):
    """What reads the words of a tool with this page; wrong ones end it with this status."""
    return Words(page, status, prog=PROG or os.path.relpath(os.path.realpath(sys.argv[0]), TOP), **how)
