"""Tests of tools/pages."""
import os
import shutil

from tool import TOP, Tool

PAGE = """# One

A long line that is about nothing, names docs/TWO.md in the midst of it, and has `a piece of code that is not divided` near its end.

- An item of a list that is too long for one line, as it goes on and on about nothing at all until it is at its end - there.

| a table | that is wide, and stays so, whatever is in it, since no line of a table can be divided, and docs/TWO.md is linked |

    four spaces in: docs/TWO.md in a line that is wider than the lines of pages may be, which stays as it is, since it is no text

```text
docs/TWO.md in a block, and a line that is wider than the lines of pages may be, which stays as it is, since it is no text
```
"""


class Pages(Tool):
    def setUp(self):
        super().setUp()
        os.makedirs(self.path("repository/docs"))
        os.mkdir(self.path("repository/tools"))
        for it in ("pages", "repository.py"):
            shutil.copy(f"{TOP}/tools/{it}", self.path(f"repository/tools/{it}"))
        self.write("repository/README.md", PAGE.encode())
        self.write("repository/docs/TWO.md", b"# Two\n\nFor tests.\n\n## A heading\n\nSee [One](../README.md#one).\n")

    def pages(self, *words):
        return self.run_words([self.path("repository/tools/pages"), *words])

    def test_lines_are_wrapped_and_pages_are_linked(self):
        status, _, said = self.pages()
        self.assertEqual((status, len(said.splitlines())), (1, 4))
        self.assertEqual(self.pages("--write"), (0, "", ""))
        text = self.read("repository/README.md").decode()
        self.assertEqual(text.count("[TWO](docs/TWO.md)"), 2)
        self.assertIn("`a piece of code that is not divided`", text)
        self.assertIn("\ndocs/TWO.md in a block", text)
        self.assertIn("\n    four spaces in: docs/TWO.md", text)
        self.assertNotIn("\n- there", text)
        self.assertEqual(text.replace("[TWO](docs/TWO.md)", "docs/TWO.md").split(), PAGE.split())
        self.assertEqual(self.pages("--write"), (0, "", ""))
        self.assertEqual(self.read("repository/README.md").decode(), text)

    def test_links_that_lead_nowhere(self):
        self.write("repository/docs/TWO.md", b"# Two\n\nSee [One](../README.md#two) and [three](THREE.md).\n")
        said = self.pages("docs/TWO.md")[2]
        self.assertIn("docs/TWO.md:3: the first line does not say for whom the page is", said)
        self.assertIn("docs/TWO.md:3: a link to ../README.md#two, a heading that is not there", said)
        self.assertIn("docs/TWO.md:3: a link to THREE.md, which is not there", said)
        self.write("repository/docs/TWO.md", b"# Two\n\nSee [the tool](../tools/pages).\n")
        self.assertIn("docs/TWO.md:3: a link to ../tools/pages, which is not installed with the page", self.pages("docs/TWO.md")[2])
