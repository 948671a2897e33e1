"""What the tools read of a compound file ([MS-CFB], versions 3 and 4): the only reader, but for that of tools/paragraph-runs, which is a
judge apart."""
import struct

from files import Ended

# Bytes of a sector in version 3, the only one that the program accepts, and of a mini sector; streams below the limit lie in mini sectors.
SECTOR, MINI, LIMIT = 512, 64, 4096
FREE, END, FAT = 0xFFFFFFFF, 0xFFFFFFFE, 0xFFFFFFFD

# The entries of a FAT from here on name no sector.
MARKS = 0xFFFFFFFA
SIGNATURE = bytes.fromhex("D0CF11E0A1B11AE1")
# Where the header has the shift of a sector, the number of FAT sectors, the directory, the mini FAT, the first sector of further FAT
# sectors (the DIFAT), and the list of the first ones.
SHIFT, FAT_COUNT, DIRECTORY, MINI_FAT, MORE_FATS, FAT_LIST, MOST_FATS = 30, 44, 48, 60, 68, 76, 109
# Where an entry of the directory has the length of its name, its kind, its two siblings, its child, its start, its size and the upper half of it.
ENTRY, NAME_LENGTH, KIND, SIBLINGS, CHILD, START, SIZE, UPPER = 128, 64, 66, (68, 72), 76, 116, 120, 124
ROOT, STREAM, STORAGE = 5, 2, 1


def numbers(*values):
    return struct.pack(f"<{len(values)}I", *values)


def number(data, at):
    if at + 4 > len(data):
        raise Ended(f"it is cut short: it ends at {len(data)}, before its number at {at}", 1)
    return struct.unpack_from("<I", data, at)[0]


def sector(data, index, size=SECTOR):
    return data[(index + 1) * size:(index + 2) * size]


def chain(table, start):
    found = []
    while start < MARKS:
        if start >= len(table) or len(found) > len(table):
            raise Ended(f"a chain of its sectors is broken at {start}", 1)
        found.append(start)
        start = table[start]
    return found


def units_for(unit, length):
    return -(-length // unit)


class Stream:
    """A stream by its entry: its number in the directory, its chain in the FAT or in the mini FAT, where its parts stand in the file (first
    byte, length), and its bytes."""

    def __init__(self, file, place, name, start, size):
        self.place, self.name, self.size, self.is_mini = place, name, size, size < LIMIT
        self.chain = chain(file.mini_table if self.is_mini else file.table, start) if size else []
        self.parts = [file.mini_place(it) if self.is_mini else file.place(it) for it in self.chain]
        self.bytes = b"".join(file.data[at:at + length] for at, length in self.parts)[:size]


class File:
    """A compound file: its tables, its directory and its streams. Only what a chain needs is judged."""

    def __init__(self, data):
        if data[:8] != SIGNATURE:
            raise Ended("it is no compound file: a .docx, RTF or text under another name?", 1)
        self.data, self.sector_size = data, 1 << (number(data, SHIFT) & 0xFFFF)
        if self.sector_size not in (SECTOR, 4096):
            raise Ended("it is no compound file that is known", 1)
        self.sectors = len(data) // self.sector_size - 1
        self.fats = self.fat_sectors(number(data, FAT_COUNT))
        self.table = self.entries(self.fats)
        self.directory = chain(self.table, number(data, DIRECTORY))
        self.mini_fat = chain(self.table, number(data, MINI_FAT)) if number(data, MINI_FAT + 4) else []
        self.mini_table = self.entries(self.mini_fat)
        self.listed = b"".join(sector(data, it, self.sector_size) for it in self.directory)
        start, size = number(self.listed, START), number(self.listed, SIZE)
        self.mini_chain = chain(self.table, start) if size else []

    def fat_sectors(self, count):
        """The sectors of the FAT: those that the header lists, and those that the DIFAT does."""
        found = [number(self.data, FAT_LIST + 4 * k) for k in range(min(count, MOST_FATS))]
        following, each = number(self.data, MORE_FATS), self.sector_size // 4 - 1
        while len(found) < count and following < MARKS:
            at = (following + 1) * self.sector_size
            found += [number(self.data, at + 4 * k) for k in range(min(each, count - len(found)))]
            following = number(self.data, at + 4 * each)
        return found

    def entries(self, sectors):
        found = []
        for it in sectors:
            at, size = self.place(it)
            number(self.data, at + size - 4)
            found += struct.unpack_from(f"<{size // 4}I", self.data, at)
        return found

    def place(self, index):
        """Where a sector stands in the file."""
        return (index + 1) * self.sector_size, self.sector_size

    def mini_place(self, index):
        """Where a mini sector stands in the file."""
        each = self.sector_size // MINI
        if index // each >= len(self.mini_chain):
            raise Ended("a chain of its mini sectors is broken", 1)
        return self.place(self.mini_chain[index // each])[0] + index % each * MINI, MINI

    def of_storage(self, index):
        """The numbers of the entries of a storage, the root's is 0, without those of storages in it: embedded documents have streams of the same names."""
        found, waiting = [], [number(self.listed, ENTRY * index + CHILD)]
        while waiting:
            entry = waiting.pop()
            if entry < len(self.listed) // ENTRY and entry not in found:
                found.append(entry)
                waiting += [number(self.listed, ENTRY * entry + it) for it in SIBLINGS]
        return found

    def name(self, entry):
        at = ENTRY * entry
        size = max(struct.unpack_from("<H", self.listed, at + NAME_LENGTH)[0], 2) - 2
        return self.listed[at:at + size].decode("utf-16-le", "replace")

    def named(self):
        """The entries of streams: number in the directory, name, start, size."""
        for entry in range(len(self.listed) // ENTRY):
            at = ENTRY * entry
            if self.listed[at + KIND] == STREAM:
                yield entry, self.name(entry), number(self.listed, at + START), number(self.listed, at + SIZE)

    def streams(self):
        """The streams of all entries, by their numbers in the directory."""
        for entry in self.named():
            yield Stream(self, *entry)

    def stream(self, name):
        """The stream of the root with a name."""
        roots = self.of_storage(0)
        found = [it for it in self.named() if it[0] in roots and it[1].upper() == name.upper()]
        if len(found) != 1:
            raise Ended(f"{len(found)} streams are named {name}", 1)
        return Stream(self, *found[0])
