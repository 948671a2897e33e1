"""Tests of tools/script: the commands that lines make, and what docbin says of them."""
import json
import os
import subprocess

from settings import settings, tables
from tool import PROGRAM, TOP, Tool, needs_program


class Made(Tool):
    name = "script"

    def made(self, lines, file="letter.doc"):
        """The commands that lines make, or what was said."""
        self.write("lines", lines.encode())
        status, printed, said = self.tool(file, "lines")
        return json.loads(printed) if status == 0 else said

    def one(self, line):
        made = self.made(line)
        self.assertNotIsInstance(made, str, made)
        return made[:-1]


class Lines(Made):
    def test_what_needs_no_document(self):
        cases = {
            'insert 5 "text"': [{"do": "insert", "story": "main", "at": 5, "text": "text"}],
            'insert start "a" in head:7': [{"do": "insert", "story": "head:7", "at": 0, "text": "a"}],
            "bold 12 20": [{"do": "char", "story": "main", "from": 12, "to": 20, "set": {"0835": "01"}}],
            "italic 0 5 off": [{"do": "char", "story": "main", "from": 0, "to": 5, "set": {"0836": "00"}}],
            "size 0 5 14pt": [{"do": "char", "story": "main", "from": 0, "to": 5, "set": {"4a43": "1c00"}}],
            "colour 0 5 #c05000": [{"do": "char", "story": "main", "from": 0, "to": 5, "set": {"6870": "c0500000"}}],
            "first-line at 0 -18pt": [{"do": "para", "story": "main", "at": 0, "set": {"8411": "98fe"}}],
            "size 0 5 14": [{"do": "char", "story": "main", "from": 0, "to": 5, "set": {"4a43": "1c00"}}],
            "Size 0 5 10.5": [{"do": "char", "story": "main", "from": 0, "to": 5, "set": {"4a43": "1500"}}],
            "color 0 5 #f00": [{"do": "char", "story": "main", "from": 0, "to": 5, "set": {"6870": "ff000000"}}],
            "underline 0 5": [{"do": "char", "story": "main", "from": 0, "to": 5, "set": {"2a3e": "01"}}],
            "underline 0 5 off": [{"do": "char", "story": "main", "from": 0, "to": 5, "set": {"2a3e": "00"}}],
            "font 0 5 2": [{"do": "char", "story": "main", "from": 0, "to": 5, "set": {"4a4f": "0200"}}],
            "line-spacing 0 1.5": [{"do": "para", "story": "main", "at": 0, "set": {"6412": "68010100"}}],
            "line-spacing 0 double": [{"do": "para", "story": "main", "at": 0, "set": {"6412": "e0010100"}}],
            "line-spacing 0 -14pt": [{"do": "para", "story": "main", "at": 0, "set": {"6412": "e8fe0000"}}],
            "left-indent 0 0": [{"do": "para", "story": "main", "at": 0, "set": {"840f": "0000"}}],
            "align 30 center": [{"do": "para", "story": "main", "at": 30, "set": {"2403": "01"}}],
            "center at 30": [{"do": "para", "story": "main", "at": 30, "set": {"2403": "01"}}],
            "justify 30": [{"do": "para", "story": "main", "at": 30, "set": {"2403": "03"}}],
            "delete 3 5": [{"do": "erase", "story": "main", "from": 3, "to": 5}],
            'insert 5 "a\\nb"': [{"do": "insert", "story": "main", "at": 5, "text": "a"}, {"do": "split", "story": "main", "at": 6},
                                 {"do": "insert", "story": "main", "at": 7, "text": "b"}],
            'insert 5 "\\r\\n"': [{"do": "split", "story": "main", "at": 5}],
            'replace 3 5 "a\\nb"': [{"do": "insert", "story": "main", "at": 3, "text": "a"}, {"do": "split", "story": "main", "at": 4},
                                    {"do": "insert", "story": "main", "at": 5, "text": "b"}, {"do": "erase", "story": "main", "from": 6, "to": 8}],
            "justification 30 centre": [{"do": "para", "story": "main", "at": 30, "set": {"2403": "01"}}],
            "page-width 0 A4": [{"do": "sect", "at": 0, "new": False, "set": {"b01f": "822e"}}],
            "tab-stops 0 hex:0001d00200": [{"do": "para", "story": "main", "at": 0, "set": {"c60d": "0001d00200"}}],
            "row at 40: a | b | c": [{"do": "row", "story": "main", "at": 40, "width": 1000, "cells": ["a", "b", "c"]}],
            "row 40 width 900: a b |": [{"do": "row", "story": "main", "at": 40, "width": 900, "cells": ["a b", ""]}],
            'field page 3 "1"': [{"do": "field", "story": "main", "at": 3, "type": 33, "code": " PAGE ", "result": "1"}],
            'field 12 3 code " SEQ A "': [{"do": "field", "story": "main", "at": 3, "type": 12, "code": " SEQ A ", "result": ""}],
            "style 1 at 6": [{"do": "style", "story": "main", "at": 6, "istd": 1}],
            "plain 3 4": [{"do": "plain", "story": "main", "from": 3, "to": 4}],
            'bookmark 3 9 "total"': [{"do": "bookmark", "name": "total", "from": 3, "to": 9}],
            'unmark "total"': [{"do": "unmark", "name": "total"}],
            "section 6": [{"do": "sect", "at": 6, "new": True, "set": {}}],
            'define 1 bold': [{"do": "stylechar", "istd": 1, "set": {"0835": "01"}}],
            'replace 3 5 "\\u00e9 \\"x\\""': [{"do": "insert", "story": "main", "at": 3, "text": 'é "x"'},
                                              {"do": "erase", "story": "main", "from": 8, "to": 10}],
        }
        for line, wanted in cases.items():
            self.assertEqual(self.one(line), wanted)

    def test_a_last_save_is_added_and_others_stay(self):
        self.assertEqual(self.made("# nothing\n\n"), [{"do": "save", "mode": "full"}])
        self.assertEqual([it["mode"] for it in self.made("save fast\nsplit 3\nsave fast\n") if it["do"] == "save"], ["fast", "fast"])

    def test_each_example_of_the_page_has_its_name(self):
        names = settings()
        rows = [cells for head, cells in tables() if head == "name"]
        for cells in rows:
            code, value = json.loads("{" + cells[4].strip("`") + "}").popitem()
            setting = names[cells[0].split("`")[1].lower()]
            self.assertEqual((setting.code, setting.group), (code, cells[2]))
            self.assertEqual(setting.value(f"hex:{value}"), value)
        printed = self.tool("--names")[1]
        self.assertEqual(len(rows), sum(printed.count(f"({group} ") for group in ("char", "para", "sect")))

    def test_a_line_that_is_wrong_is_named(self):
        cases = {"foo 1 2": "foo is no command", "insert 5": "a text in quotes is missing", 'insert 5 "a': "no end", "row 0 a|b": "cells behind", "row : a": "a position is missing",
                 "bold 1 2 3": "bold is on or off", "size 0 5 huge": "size takes", "split 3 4": "no more words", "save slow": "no more words",
                 "underline 0 1 999": "cannot be 999", 'insert 5 "a" in notes': "is no text", "field x 3": "is no field", "bold 5": "is missing",
                 'insert 5 "\\x"': "no text of JSON", "split -1": "a position is a number", "bold M\u00fcller": 'a range is two numbers, or a text in quotes: "M\u00fcller"',
                 'insert after M\u00fcller "x"': 'after "M\u00fcller"', "left-indent 0 300": "Say 300pt, 300mm or 300in", "line-spacing 0 wide": "lines, as 1.5",
                 "colour 0 5 red": "#c05000", "bolt 0 5": "bold", "footnote 5": 'note AT "text"', 'note 5 "a\\nb"': "one paragraph", '"Hello"': 'append "text"',
                 "left-indent 0 wide": "a length, as 14pt, 5mm or 1in", "insert 5 x": 'in place of x: "x"'}
        for line, why in cases.items():
            said = self.made(f"split 3\n{line}\n")
            self.assertIsInstance(said, str, line)
            self.assertTrue(said.startswith("line 2: ") and why in said, (line, said))

    def test_a_byte_order_mark_is_no_part_of_a_line(self):
        self.assertEqual(self.one("\ufeffsplit 3")[0]["do"], "split")

    def test_words_that_are_wrong(self):
        self.assertEqual(self.tool("letter.doc")[0], 2)
        self.assertEqual(self.tool("letter.doc", "none")[0], 1)
        self.write("lines", b"\xff")
        self.assertEqual(self.tool("letter.doc", "lines"), (1, "", "lines: is no UTF-8\n"))


@needs_program
class Places(Made):
    def test_places_by_words(self):
        cases = {
            'insert after "Dear " "old "': [{"do": "insert", "story": "main", "at": 11, "text": "old "}],
            'split before "see"': [{"do": "split", "story": "main", "at": 16}],
            'replace "Ann" "Bob"': [{"do": "insert", "story": "main", "at": 11, "text": "Bob"}, {"do": "erase", "story": "main", "from": 14, "to": 17}],
            'bold all "ee"': [{"do": "char", "story": "main", "from": 17, "to": 19, "set": {"0835": "01"}}],
            'italic last "e"': [{"do": "char", "story": "main", "from": 21, "to": 22, "set": {"0836": "01"}}],
            'erase "Net " in note:0': [{"do": "erase", "story": "note:0", "from": 2, "to": 6}],
            'heading 1 at after "Dear"': [{"do": "style", "story": "main", "at": 10, "istd": 1}],
            'insert end "!"': [{"do": "insert", "story": "main", "at": 27, "text": "!"}],
            'insert end "!" in head:7': [{"do": "insert", "story": "head:7", "at": 15, "text": "!"}],
            'row before "Dear": a: b | "c"': [{"do": "row", "story": "main", "at": 6, "width": 1000, "cells": ["a: b", '"c"']}],
            'header "Page " page': [{"do": "insert", "story": "head:7", "at": 0, "text": "Page "},
                                    {"do": "field", "story": "head:7", "at": 5, "type": 33, "code": " PAGE ", "result": "1"}],
        }
        for line, wanted in cases.items():
            self.assertEqual(self.one(line), wanted)

    def test_places_are_those_after_the_lines_before(self):
        made = self.made('insert start "Now "\nreplace "Ann" "Robert"\nbold "see"\n')
        self.assertEqual(made[-2], {"do": "char", "story": "main", "from": 23, "to": 26, "set": {"0835": "01"}})

    def test_a_text_that_is_nowhere_or_at_several_places(self):
        self.assertIn('line 1: "e" stands at 3, 7, 17, 18, 21', self.made('bold "e"'))
        self.assertIn('"Zoe" stands nowhere', self.made('erase "Zoe"'))
        self.assertIn('there is no style "heading 9"', self.made("heading 9 at 0"))
        self.assertIn("note:7 has no items", self.made('insert end "a" in note:7'))
        self.assertIn("edit 0: range (line 1)", self.made('insert 99 "x"\nbold "see"'))

    def test_check_says_what_docbin_answers_and_puts_nothing(self):
        self.write("lines", b'replace "Ann" "Bob"\n\nerase 90 91\n')
        before = sorted(os.listdir(self.folder))
        status, printed, _ = self.tool("--check", "letter.doc", "lines")
        self.assertEqual((status, printed.splitlines()[-1]), (1, "docbin: edit 2: range (line 3)"))
        self.assertEqual(sorted(os.listdir(self.folder)), before)

    def test_the_script_is_made_by_docbin(self):
        lines = 'replace "Ann" "Bob"\nbold "Bob"\nrow at start: a | b\nheader "Page " page " of " numpages\ndefine "Normal" size 12pt\nsave fast\n'
        with open(self.path("script.json"), "wb") as file:
            ran = subprocess.run([f"{TOP}/tools/script", "letter.doc", "-"], input=lines.encode(), stdout=file, cwd=self.folder,
                                 env={**os.environ, "DOCBIN": PROGRAM}, check=False)
        self.assertEqual(ran.returncode, 0)
        self.assertEqual(self.docbin("edit", "letter.doc", "script.json", "out.doc")[1], "edit: 10 commands, fast 1, full 0\n")
        shown = self.docbin("show", "out.doc")[1]
        self.assertIn("run 0835=01 | Bob\n", shown)
        self.assertIn("run |  NUMPAGES \n", shown)

    def test_one_step(self):
        self.write("lines", b'replace "Ann" "Bob"\nappend "\\nEnd."\n')
        self.assertEqual(self.tool("--edit", "letter.doc", "lines", "out.doc"), (0, "edit: 5 commands, fast 0, full 1\n", ""))
        self.assertEqual(self.docbin("text", "out.doc")[1], "Offer\nDear Bob,\\u0009see\\u0009below\\u0002.\nEnd.\n")
        self.assertEqual(self.tool("--edit", "out.doc", "lines", "out.doc")[::2], (1, 'line 1: "Ann" stands nowhere in main\n'))
        self.write("lines", b"split 5\nerase 90 91\n")
        self.assertEqual(self.tool("--edit", "letter.doc", "lines", "letter.doc"), (1, "", "edit 1: range (line 2)\n"))
        self.assertEqual(self.tool("--edit", "letter.doc", "lines")[0], 2)

    def test_a_new_document(self):
        self.write("lines", b'append "Report"\nheading 1 at start\nappend "\\nFirst"\nstyle "List Bullet" at end\nfont "First" "Arial"\n')
        self.assertEqual(self.tool("--new", "lines", "out.doc"), (0, "edit: 7 commands, fast 0, full 1\n", ""))
        self.assertEqual(self.docbin("outline", "out.doc")[1], "0 0 - | Report\n1 - \uf0b7 | First\n")
        self.assertEqual(self.docbin("retitle", "out.doc", "Report", "out.doc")[0], 0)

    def test_the_start_document_is_what_its_tool_prints(self):
        with open(self.path("start.json"), "wb") as file:
            subprocess.run([f"{TOP}/tools/start-document"], stdout=file, check=True)
        self.assertEqual(self.docbin("import", "start.json", "start.doc")[0], 0)
        for name in ("start.json", "start.doc"):
            with open(f"{TOP}/examples/{name}", "rb") as file:
                self.assertEqual(self.read(name), file.read())

    def test_fonts_by_their_names(self):
        self.assertIn('the file has no font "Arial", and docbin adds none; it has none', self.made('font "Ann" "Arial"'))
        self.docbin("export", "letter.doc", "letter-doc.json")
        document = json.loads(self.read("letter-doc.json"))
        entries = [bytes(39) + name.encode("utf-16-le") + bytes(2) for name in ("Times New Roman", "Arial")]
        document["carried"]["fonts"] = (b"\2\0\0\0" + b"".join(bytes([len(it)]) + it for it in entries)).hex()
        self.write("fonts.json", json.dumps(document).encode())
        self.assertEqual(self.docbin("import", "fonts.json", "fonts.doc")[0], 0)
        self.assertEqual(self.made('font "Ann" "arial"', "fonts.doc")[0]["set"], {"4a4f": "0100", "4a51": "0100"})
        self.assertIn('it has "Times New Roman", "Arial"', self.made('font "Ann" "Courier"', "fonts.doc"))

    def test_what_docbin_refuses(self):
        self.assertEqual(self.tool("letter.json", "lines"), (1, "", "lines: No such file or directory\n"))
        self.write("lines", b"bold 0 1")
        self.assertEqual(self.tool("--check", "none.doc", "lines")[::2], (3, "none.doc: No such file or directory\n"))
        self.write("lines", b'bold "a"')
        self.assertEqual(self.tool("letter.json", "lines"), (1, "", "letter.json: rule 1 File 356\n"))
