"""Tests of tools/for-catdoc."""
import shutil
import unittest

from tool import Tool, needs_program


@needs_program
class ForCatdoc(Tool):
    name = "for-catdoc"

    def test_two_numbers_change_and_the_document_is_the_same(self):
        self.assertEqual(self.docbin("full", "letter.doc", "full.doc")[0], 0)
        self.assertEqual(self.tool("full.doc", "out.doc"), (0, "", ""))
        old, new = self.read("full.doc"), self.read("out.doc")
        changed = {at for at in range(len(old)) if old[at] != new[at]}
        begin = min(changed) - 25
        self.assertLessEqual(changed, set(range(begin + 24, begin + 32)))
        self.assertEqual((old[begin : begin + 2], int.from_bytes(new[begin + 24 : begin + 28], "little")), (b"\xec\xa5", 1024))
        self.assertEqual(self.docbin("equal", "letter.doc", "out.doc")[1], "equal\n")
        self.assertEqual(self.tool("out.doc", "out.doc")[0], 0)
        self.assertEqual(self.read("out.doc"), new)

    @unittest.skipUnless(shutil.which("catdoc"), "catdoc is missing")
    def test_catdoc_prints_the_text(self):
        self.docbin("full", "letter.doc", "full.doc")
        self.assertEqual(self.run_words(["catdoc", "-d", "utf-8", "full.doc"])[1].strip(), "")
        self.tool("full.doc", "out.doc")
        self.assertIn("Dear Ann,\tsee\tbelow", self.run_words(["catdoc", "-d", "utf-8", "out.doc"])[1])

    def test_other_files_are_refused(self):
        for name, why in (("letter.doc", "not that of a full save"), ("letter.json", "no compound file"), ("none.doc", "No such file")):
            status, printed, said = self.tool(name, "out.doc")
            self.assertEqual((status, printed, why in said), (3 if name == "none.doc" else 1, "", True), said)
        self.assertEqual(self.tool("letter.doc")[0], 2)
