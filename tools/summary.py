"""Property sets of a summary as [MS-OLEPS] has them, and the stream that a document without one gets."""
import struct
import uuid

NAME = "\x05SummaryInformation"
FORMAT_ID = uuid.UUID("f29f85e0-4ff9-1068-ab91-08002b27b3d9").bytes_le
HEAD, SET_HEAD = 48, 8
# The numbers of the properties that are set here, and the types of values.
PROPERTIES = {"title": 2, "subject": 3, "author": 4, "keywords": 5, "comments": 6, "template": 7, "last-author": 8, "revision": 9, "application": 18}
CODE_PAGE = 1
I2, LPSTR, LPWSTR = 2, 30, 31
UTF_16, UTF_8 = (1200, 1201), 65001
# Python's names of code pages that are not cpN.
CODECS = {1200: "utf-16-le", 1201: "utf-16-be", UTF_8: "utf-8", 10000: "mac-roman", 20127: "ascii", 28591: "latin-1"}


class WrongSummary(Exception):
    """Why a stream is no property set that is read here."""


def padded(data):
    return data + bytes(-len(data) % 4)


class Summary:
    """The properties of a summary in their order: their numbers, and their values as bytes, the type first."""

    def __init__(self, data=None):
        self.head, self.values = None, {CODE_PAGE: struct.pack("<IhH", I2, 1252, 0)}
        if data is not None:
            self.read(data)

    def read(self, data):
        try:
            order, _, count = struct.unpack_from("<HH", data)[0], data[2:4], struct.unpack_from("<I", data, 24)[0]
            begin = struct.unpack_from("<I", data, 44)[0]
            size, number = struct.unpack_from("<II", data, begin)
            places = [struct.unpack_from("<II", data, begin + SET_HEAD + 8 * it) for it in range(number)]
        except struct.error:
            raise WrongSummary("the summary is cut short") from None
        if order != 0xFFFE or count != 1 or data[28:44] != FORMAT_ID or begin + size > len(data) or any(not SET_HEAD + 8 * number <= at <= size - 4 for _, at in places):
            raise WrongSummary("the summary is no property set of one section, which is all that is read here")
        ends = sorted({at for _, at in places} | {size})
        self.head, self.values = data[:28], {it: data[begin + at : begin + ends[ends.index(at) + 1]] for it, at in places}
        if len(self.values) != number:
            raise WrongSummary("the summary has a property twice")

    @property
    def code_page(self):
        value = self.values.get(CODE_PAGE)
        return struct.unpack_from("<H", value, 4)[0] if value and len(value) >= 6 else 1252

    def codec(self):
        codec = CODECS.get(self.code_page, f"cp{self.code_page}")
        try:
            "".encode(codec)
        except LookupError:
            raise WrongSummary(f"the code page {self.code_page} of the summary is not known here") from None
        return codec

    def text(self, number):
        """The text of a property, or None where its value is no text."""
        value = self.values.get(number, b"")
        kind, count = struct.unpack_from("<II", value) if len(value) >= 8 else (0, 0)
        if kind not in (LPSTR, LPWSTR) or 8 + count * (2 if kind == LPWSTR else 1) > len(value):
            return None
        if kind == LPWSTR:
            return value[8 : 8 + 2 * count].decode("utf-16-le", "replace").partition("\0")[0]
        return value[8 : 8 + count].decode(self.codec(), "replace").partition("\0")[0]

    def set(self, name, text):
        """Gives a property a text. Where the code page has not all of its letters, all texts are written in UTF-8."""
        number, codec = PROPERTIES[name], self.codec()
        try:
            if self.code_page in UTF_16:
                raise UnicodeError
            self.values[number] = self.lpstr(text, codec)
        except UnicodeError:
            held = {it: self.text(it) for it, value in self.values.items() if struct.unpack_from("<I", value)[0] == LPSTR}
            self.values[CODE_PAGE] = struct.pack("<IHH", I2, UTF_8, 0)
            for it, old in {**held, number: text}.items():
                self.values[it] = self.lpstr(old or "", CODECS[UTF_8])

    @staticmethod
    def lpstr(text, codec):
        data = text.encode(codec) + b"\0"
        return padded(struct.pack("<II", LPSTR, len(data)) + data)

    def data(self):
        """The bytes of the stream."""
        places, parts, at = [], [], SET_HEAD + 8 * len(self.values)
        for number, value in self.values.items():
            places.append(struct.pack("<II", number, at))
            parts.append(padded(value))
            at += len(parts[-1])
        head = self.head or struct.pack("<HHI16sI", 0xFFFE, 0, 0x00020006, bytes(16), 1)
        return head + FORMAT_ID + struct.pack("<I", HEAD) + struct.pack("<II", at, len(self.values)) + b"".join(places + parts)
