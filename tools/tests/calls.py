"""Tests of tools/calls and tools/layers, over copies of the pages."""
import os
import shutil

from tool import TOP, Tool


class OverPages(Tool):
    def setUp(self):
        super().setUp()
        os.mkdir(self.path("repository"))
        for it in ("docs", "tools"):
            shutil.copytree(f"{TOP}/{it}", self.path(f"repository/{it}"), ignore=shutil.ignore_patterns("__pycache__"))
        shutil.copy(f"{TOP}/crates.txt", self.path("repository/crates.txt"))
        os.symlink(f"{TOP}/crates", self.path("repository/crates"))

    def changed(self, page, old, new):
        text = self.read(f"repository/{page}").decode()
        self.assertIn(old, text)
        self.write(f"repository/{page}", text.replace(old, new, 1).encode())

    def run_tool(self, *words):
        return self.run_words([self.path(f"repository/tools/{self.name}"), *words])


class Calls(OverPages):
    name = "calls"

    def test_claims_name_clauses_that_there_are(self):
        self.assertEqual(self.run_tool("--check"), (0, "", ""))

    def test_a_clause_and_a_call_that_are_not_there(self):
        self.changed("docs/CLAIMS.md", "`read_whole` (`whole`, `len`)", "`read_whale` (`whole`, `lent`)")
        status, _, said = self.run_tool("--check")
        self.assertEqual(status, 1)
        self.assertIn("doc_outer: read_whale is no call of this crate", said)
        self.assertIn("doc_outer: read_whale has no clause lent", said)

    def test_the_table_has_calls_with_their_clauses(self):
        status, printed, _ = self.run_tool("--table", "doc_outer")
        self.assertEqual(status, 0)
        self.assertIn("| `write_all` | `err`, `failed`, `faults`, `ok` |", printed)


class Layers(OverPages):
    name = "layers"

    def test_the_picture_is_that_of_the_crates(self):
        self.assertEqual(self.run_tool("--check"), (0, "", ""))
        self.changed("crates.txt", "\ndocview: ", "\nanother: doc_bits\ndocview: ")
        self.assertEqual(self.run_tool("--check")[0], 1)
        self.assertEqual(self.run_tool("--write")[0], 0)
        self.assertEqual(self.run_tool("--check"), (0, "", ""))
        self.assertIn("[another](../crates/another/README.md), [docview]", self.read("repository/docs/LAYERS.md").decode())

    def test_a_layer_is_there_once(self):
        self.changed("crates.txt", "\ndocview: ", "\n# Base\n# None\ndocview: ")
        self.run_tool("--write")
        self.assertEqual(self.run_tool("--check")[2], "tools/layers: crates.txt has the layer Base twice\n")
