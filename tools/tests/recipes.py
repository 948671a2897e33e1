"""Tests of the programs of jq that docs/RECIPES.md shows: characters of two units, bookmarks, and ends of lines of all kinds."""
import json
import re
import shutil
import subprocess
import unittest

from tool import TOP, Tool, needs_program


def recipe(name):
    """The lines of a program that the page writes into a file of this name."""
    with open(f"{TOP}/docs/RECIPES.md", encoding="utf8") as file:
        lines = re.search(rf"^cat > {re.escape(name)} <<'EOF'\n((?:.*\n)*?)EOF\n", file.read(), re.M)[1]
    return lines


@needs_program
@unittest.skipUnless(shutil.which("jq"), "jq is missing")
class Recipes(Tool):
    def made(self, text, *commands):
        """The letter with a text at its begin and a bookmark over each place that is given, as JSON."""
        script = [{"do": "insert", "story": "main", "at": 0, "text": text}, *commands, {"do": "save", "mode": "full"}]
        self.write("s.json", json.dumps(script).encode())
        self.assertEqual(self.docbin("edit", "letter.doc", "s.json", "made.doc")[0], 0)
        self.assertEqual(self.docbin("export", "made.doc", "made.json")[0], 0)
        return self.read("made.json")

    def jq(self, name, given, *words):
        ran = subprocess.run(["jq", "-c", *words, recipe(name)], input=given, cwd=self.folder, stdout=subprocess.PIPE, stderr=subprocess.PIPE, check=False)
        self.assertEqual((ran.returncode, ran.stderr), (0, b""))
        return ran.stdout

    def imported(self, data):
        """The text of what is imported, and the lines of its bookmarks."""
        self.write("in.json", data)
        self.assertEqual(self.docbin("import", "in.json", "out.doc")[::2], (0, ""))
        return self.docbin("text", "out.doc")[1], re.findall(r"^bookmark .*", self.docbin("show", "out.doc")[1], re.M)

    def replaced(self, given, old, new):
        return self.imported(self.jq("replace.jq", given, "--arg", "old", old, "--arg", "new", new))

    def test_a_character_of_two_units_is_replaced_and_put(self):
        given = self.made("a\U0001F642b")
        self.assertIn("a\U0001F600\u00e9bOffer", self.replaced(given, "\U0001F642", "\U0001F600\u00e9")[0])
        self.assertIn("aXbOffer", self.replaced(given, "\U0001F642", "X")[0])

    def test_bookmarks_go_with_the_text(self):
        marks = [{"do": "bookmark", "name": name, "from": begin, "to": end} for name, begin, end in (("before", 0, 2), ("over", 1, 8), ("in", 4, 5), ("behind", 8, 9))]
        given = self.made("..Ann..Ann..", *marks)
        text, found = self.replaced(given, "Ann", "Barbara")
        self.assertTrue(text.startswith("..Barbara..Barbara..Offer\nDear Barbara,"))
        self.assertEqual(found, ["bookmark 0 2 before", "bookmark 1 18 over", "bookmark 9 9 in", "bookmark 18 18 behind"])
        text, found = self.replaced(given, "Ann", "")
        self.assertTrue(text.startswith("......Offer\nDear ,"))
        self.assertEqual(found, ["bookmark 0 2 before", "bookmark 1 4 over", "bookmark 2 2 in", "bookmark 4 4 behind"])

    def test_lines_of_all_kinds(self):
        self.assertEqual(self.docbin("export", "start.doc", "template.json")[0], 0)
        how = ("-R", "-s", "--slurpfile", "template", "template.json")
        cases = {"": "\n", "a": "a\n", "a\n": "a\n", "a\r\nb\r\n": "a\nb\n", "a\rb": "a\nb\n", "a\n\nb\n": "a\n\nb\n", "\ufeffa\tb": "a\\u0009b\n",
                 "\U0001F642\n": "\U0001F642\n", "\n": "\n"}
        for given, wanted in cases.items():
            self.assertEqual(self.imported(self.jq("lines.jq", given.encode(), *how)), (wanted, []), given)

    def test_a_template_gives_no_bookmark_and_no_note(self):
        self.write("template.json", self.made("x", {"do": "bookmark", "name": "b", "from": 0, "to": 1}))
        got = self.imported(self.jq("lines.jq", b"a\n", "-R", "-s", "--slurpfile", "template", "template.json"))
        self.assertEqual(got, ("a\n", []))
        self.assertIn("story head 7", self.docbin("show", "out.doc")[1])

    def test_paragraphs_are_utf_8(self):
        printed = self.jq("paragraphs.jq", self.made("a\U0001F642"), "-r").decode()
        self.assertTrue(printed.startswith("heading 1: a\U0001F642Offer"), printed)
        document = json.loads(self.made("x"))
        document["main"][0]["t"] = "d83d0041de42"
        self.assertIn("\ufffdA\ufffd", self.jq("paragraphs.jq", json.dumps(document).encode(), "-r").decode())
