"""Tests of tools/check-words, and of the words of all tools."""
import glob
import os
import shutil

from tool import TOP, Tool

# A change of a page, and what is then wrong.
CHANGES = (
    ("completions/docbin.bash", 'commands="text', 'commands="test', "completions/docbin.bash"),
    ("completions/_docbin", "'check:", "'chick:", "completions/_docbin"),
    ("completions/docbin.fish", "-a join", "-a joins", "completions/docbin.fish"),
    ("docs/COMMANDS.md", "| `outline FILE`", "| `outlines FILE`", "docs/COMMANDS.md, the commands"),
    ("docs/COMMANDS.md", "usage: docbin text FILE", "usage: docbin texts FILE", "docs/COMMANDS.md, the usage line"),
    ("docs/EDITING.md", '{"do": "merge"', '{"do": "merges"', "docs/EDITING.md, an example of each command"),
    ("man/docbin.1", "\n.B docbin equal", "\n.B docbin equals", "man/docbin.1, the commands"),
    ("man/docbin.1", "\n.B 14\n", "\n.B 24\n", "man/docbin.1, the statuses"),
    ("man/docbin-script.5", "\\(dqerase\\(dq", "\\(dqerased\\(dq", "man/docbin-script.5, the commands"),
    ("docs/RULES.md", "| the file begins", "| a file begins", "man/docbin-rules.7, the rules"),
    ("docs/REFUSED.md", "| `rule 19 ", "| `rule 60 ", "crates/run_stages/src/reasons.rt, rules of docs/REFUSED.md that have no words of their own"),
    ("README.md", "./docbin text examples/hello.doc ", "./docbin text examples/hallo.doc ", "README.md, the file of the first command"),
    ("docs/BUILDING.md", "logic d", "logic e", "docs/BUILDING.md, the kit's line"),
    ("docs/FIGURES.md", "| `./build`, from nothing, ", "| `./build`, from nothing, 1", "docs/FIGURES.md, the row of ./build"),
    ("include/docbin.h", 'DOCBIN_VERSION "', 'DOCBIN_VERSION "2', "include/docbin.h, the version"),
    ("docbin", "run-program\" docbin", "run-program\" docfit", "./docbin runs another program"),
)


class CheckWords(Tool):
    def setUp(self):
        super().setUp()
        os.mkdir(self.path("repository"))
        for it in ("completions", "docs", "include", "man", "python", "tools"):
            shutil.copytree(f"{TOP}/{it}", self.path(f"repository/{it}"), ignore=shutil.ignore_patterns("__pycache__"))
        for it in ("README.md", "CHANGES.md", "CONTRIBUTING.md", "SECURITY.md", "KIT", "VERSION", "crates.txt", *(it for it in ("docbin", "docview", "docfit") if os.path.exists(f"{TOP}/{it}"))):
            shutil.copy(f"{TOP}/{it}", self.path(f"repository/{it}"))
        for it in ("crates", "examples"):
            os.symlink(f"{TOP}/{it}", self.path(f"repository/{it}"))

    def check(self):
        return self.run_words([self.path("repository/tools/check-words")])

    def test_the_pages_as_they_are(self):
        self.assertEqual(self.check(), (0, "", ""))

    def test_pages_that_say_something_else(self):
        for page, old, new, _ in CHANGES:
            text = self.read(f"repository/{page}").decode()
            self.assertTrue(old in text, f"{page}: {old}")
            self.write(f"repository/{page}", text.replace(old, new).encode())
        status, _, said = self.check()
        self.assertEqual(status, 1)
        for page, _, new, wrong in CHANGES:
            self.assertIn(f"tools/check-words: {wrong}", said, f"{page}: {new}")


class Words(Tool):
    def test_each_tool_tells_its_words_and_does_nothing(self):
        for path in sorted(glob.glob(f"{TOP}/tools/*")):
            if os.path.isfile(path) and os.access(path, os.X_OK):
                status, printed, said = self.run_words([path, "--help"])
                self.assertEqual((status, said), (0, ""), path)
                self.assertRegex(printed, f"(?m)^usage: (tools/)?{os.path.basename(path)}", path)

    def test_words_that_a_tool_does_not_know_are_refused(self):
        for path in sorted(glob.glob(f"{TOP}/tools/*")):
            if os.path.isfile(path) and os.access(path, os.X_OK):
                status, printed, said = self.run_words([path, "--no-such-word"])
                self.assertIn(status, (2, 70), path)
                self.assertEqual(printed, "", path)
