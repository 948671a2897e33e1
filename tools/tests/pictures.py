"""Tests of docview's pictures, in real folders."""
import importlib.machinery
import importlib.util
import os
import re
import struct
import urllib.parse

from tool import TOP, VIEWER, Tool, needs_viewer


def containers():
    """The writer of containers of tools/check-properties."""
    loader = importlib.machinery.SourceFileLoader("check_properties_containers", f"{TOP}/tools/check-properties")
    module = importlib.util.module_from_spec(importlib.util.spec_from_loader("check_properties_containers", loader))
    loader.exec_module(module)
    return module


# Where hello.doc has its table stream and WordDocument, how many bytes of them are used, and where the text of the latter is and the page with
# the properties of its characters.
TABLE, TABLE_LEN, DOCUMENT, DOCUMENT_LEN, TEXT, PAGE = 512, 512, 4608, 2560, 1024, 1536


def picture(kind, data):
    """[MS-DOC] PICFAndOfficeArtData with a shape and a bare blip of this type."""
    blip = struct.pack("<HHI", 0x6E00, kind, 17 + len(data)) + bytes(17) + data
    art = struct.pack("<HHI", 0x000F, 0xF004, 0) + blip
    return struct.pack("<IHH", 68 + len(art), 68, 0x64) + bytes(60) + art


def document(places, data):
    """hello.doc, where a character for each place, at most four, names it in a stream Data."""
    with open(f"{TOP}/examples/hello.doc", "rb") as file:
        hello = file.read()
    table, text = hello[TABLE:TABLE + TABLE_LEN], bytearray(hello[DOCUMENT:DOCUMENT + DOCUMENT_LEN])
    ends = [TEXT + 2 * k for k in range(len(places) + 1)] + [TEXT + 12]
    struct.pack_into(f"<{len(ends)}I", text, PAGE, *ends)
    for k, place in enumerate(places):
        struct.pack_into("<H", text, TEXT + 2 * k, 1)
        text[PAGE + 4 * len(ends) + k] = 200 + 6 * k
        struct.pack_into("<BHBHI", text, PAGE + 2 * (200 + 6 * k), 9, 0x0855, 1, 0x6A03, place)
    text[PAGE + 4 * len(ends) + len(places)] = 0
    text[PAGE + 511] = len(places) + 1
    return containers().container([("Data", data), ("1Table", table), ("WordDocument", bytes(text))])


PNG, JPEG = b"\x89PNG\r\n\x1a\n" + bytes(40), b"\xff\xd8\xff\xe0" + bytes(30)


@needs_viewer
class Pictures(Tool):
    def setUp(self):
        super().setUp()
        first = picture(0xF01E, PNG)
        self.write("f.doc", document([0, len(first), 0], first + picture(0xF01D, JPEG)))

    def view(self, *words):
        return self.run_words([VIEWER, *words])

    def test_files_are_written(self):
        os.mkdir(self.path("p"))
        self.assertEqual(self.view("text", "--pictures", "p", "f.doc"), (0, "[picture][picture][picture]lo\n", ""))
        self.assertEqual(sorted(os.listdir(self.path("p"))), ["picture-1.png", "picture-2.jpg"])
        self.assertEqual((self.read("p/picture-1.png"), self.read("p/picture-2.jpg")), (PNG, JPEG))

    def test_a_file_that_is_there_is_kept(self):
        os.mkdir(self.path("p"))
        self.write("p/picture-2.jpg", b"mine")
        self.assertEqual(self.view("html", "--pictures", "p", "f.doc"), (8, "", "docview: p: a file of a picture is there: --force writes over it\n"))
        self.assertEqual((self.read("p/picture-1.png"), self.read("p/picture-2.jpg")), (PNG, b"mine"))
        status, printed, said = self.view("html", "--pictures", "p", "--force", "f.doc")
        self.assertEqual((status, said), (0, ""))
        self.assertIn('<p><img src="p/picture-1.png" alt=""><img src="p/picture-2.jpg" alt=""><img src="p/picture-1.png" alt="">lo</p>', printed)
        self.assertEqual(self.read("p/picture-2.jpg"), JPEG)

    def test_a_page_names_the_files_that_are_there(self):
        folder = 'a "<é&%:\n'
        os.mkdir(self.path(folder))
        status, printed, said = self.view("html", "--pictures", folder, "f.doc")
        self.assertEqual((status, said), (0, ""))
        named = [urllib.parse.unquote(src) for src in re.findall('<img src="([^"]*)" alt="">', printed)]
        self.assertEqual(named, [f"{folder}/picture-1.png", f"{folder}/picture-2.jpg", f"{folder}/picture-1.png"])
        self.assertNotIn("[picture]", printed)

    def test_without_files_a_page_names_none(self):
        status, printed, said = self.view("html", "f.doc")
        self.assertEqual((status, said, printed.count("[picture]"), "<img" in printed), (0, "", 3, False))

    def test_a_folder_that_is_not_there(self):
        status, printed, said = self.view("text", "--pictures", "none", "f.doc")
        self.assertEqual((status, printed), (4, ""))
        self.assertIn('docview: "none/picture-1.png": ', said)
        self.assertFalse(os.path.exists(self.path("none")))

    def test_a_document_without_pictures(self):
        self.assertEqual(self.view("text", "--pictures", "none", "hello.doc"), (0, "Hello\n", ""))
