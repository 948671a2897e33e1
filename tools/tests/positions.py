"""Tests of tools/positions. What the letter has where was counted by hand in the listing of docs/COMMANDS.md."""
import os

from tool import Tool, needs_program


@needs_program
class Positions(Tool):
    name = "positions"

    def test_the_parts_of_the_letter(self):
        status, printed, _ = self.tool("letter.doc")
        lines = printed.splitlines()
        self.assertEqual(status, 0)
        for line in ("main 0 6 paragraph, style 1 heading 1 | Offer\\u000d", "main 25 26 reference to note:0", "main 0 28 section 0",
                     "note:0 0 13 paragraph, style 0 Normal | \\u0002 Net price.\\u000d", "head:7 5 15 field | \\u0013 PAGE \\u00141\\u0015",
                     "head:7 0 16 paragraph of the odd header of section 0, style 0 Normal | Page \\u0013 PAGE \\u00141\\u0015\\u000d"):
            self.assertIn(line, lines)

    def test_each_place_of_a_word(self):
        self.assertEqual(self.tool("letter.doc", "Ann", "Net price")[:2], (0, "main 11 14 Ann\nnote:0 2 11 Net price\n"))
        self.assertEqual(self.tool("letter.doc", "nowhere")[:2], (1, ""))

    def test_a_position_is_that_of_the_program(self):
        at = int(self.tool("letter.doc", "Ann")[1].split()[1])
        self.assertIn("unit 0041\n", self.docbin("props", "letter.doc", str(at))[1])
        self.assertIn("unit 006e\n", self.docbin("props", "letter.doc", str(at + 1))[1])

    def test_cells_and_pairs_of_surrogates(self):
        self.write("s.json", b'[{"do": "row", "story": "main", "at": 0, "width": 900, "cells": ["\\ud83d\\ude00x", "b"]}, {"do": "save", "mode": "full"}]')
        self.assertEqual(self.docbin("edit", "hello.doc", "s.json", "out.doc")[0], 0)
        lines = self.tool("out.doc")[1].splitlines()
        self.assertEqual([it.split(",")[0] for it in lines if "," in it], ["main 0 4 cell", "main 4 6 cell", "main 6 7 row end", "main 7 13 paragraph"])
        self.assertEqual(self.tool("out.doc", "x", "\U0001F600")[1], "main 0 2 \U0001F600\nmain 2 3 x\n")

    def test_bookmarks(self):
        self.write("s.json", b'[{"do": "bookmark", "name": "a b", "from": 1, "to": 4}, {"do": "save", "mode": "full"}]')
        self.assertEqual(self.docbin("edit", "hello.doc", "s.json", "out.doc")[0], 0)
        self.assertIn("main 1 4 bookmark a b", self.tool("out.doc")[1].splitlines())

    def test_what_is_refused(self):
        self.assertEqual(self.tool("letter.json"), (1, "", "letter.json: rule 1 File 356\n"))
        self.assertEqual(self.tool("none.doc"), (3, "", "none.doc: No such file or directory\n"))
        self.assertEqual(self.tool(self.folder), (4, "", f"{self.folder}: Is a directory\n"))
        self.assertEqual(self.tool()[0], 2)

    def test_names_of_any_bytes(self):
        name = os.path.join(os.fsencode(self.folder), b"a\n\xff.doc")
        os.link(self.path("hello.doc"), name)
        self.assertEqual(self.tool(name, "Hello")[:2], (0, "main 0 5 Hello\n"))
        os.link(self.path("letter.json"), name + b"x")
        self.assertEqual(self.tool(name + b"x")[::2], (1, f"{self.folder}/a\\u000a\\udcff.docx: rule 1 File 356\n"))
        self.assertEqual(self.tool("letter.doc", env={**os.environ, "DOCBIN": "/none"})[0], 70)
