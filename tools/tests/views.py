"""Tests of tools/check-views."""
import importlib.machinery
import importlib.util
import os
import shutil
import unittest

from tool import TOP, Tool


def tool():
    loader = importlib.machinery.SourceFileLoader("check_views", f"{TOP}/tools/check-views")
    module = importlib.util.module_from_spec(importlib.util.spec_from_loader("check_views", loader))
    loader.exec_module(module)
    return module


VIEWS = tool()
FRONT = '<!DOCTYPE html><html lang="de"><head><meta charset="utf-8"><title>x</title><style>p{}</style></head><body>'
RIGHT = FRONT + '<p>a <a href="HTTP://b">c</a><br><a href="#bm-d">e</a></p><h1><a id="bm-d"></a>f &lt;g&gt;</h1></body></html>'
WRONG = {
    "<b><i>x</b></i>": "</b> closes another",
    "<script>x</script>": "<script> with []",
    '<p onclick="x">x</p>': "<p> with ['onclick']",
    '<a href=" javascript:x">x</a>': " javascript:x is a link",
    '<a href="#fn-x">x</a>': "#fn-x leads nowhere",
    "<p>x": "<p> is left open",
}


class Views(Tool):
    def test_a_page_in_html_is_read(self):
        page = VIEWS.Html(RIGHT)
        self.assertEqual(page.wrong, [])
        self.assertEqual("".join(page.characters), "a cef <g>")

    def test_what_is_wrong_with_a_page_is_named(self):
        for text, why in WRONG.items():
            self.assertIn(why, VIEWS.Html(text).wrong, text)

    @unittest.skipUnless(shutil.which("cmark-gfm"), "cmark-gfm is missing")
    def test_characters_are_read_as_they_are_written(self):
        status, out, _ = self.run_words([f"{TOP}/tools/check-views", "--rules", "20", "--documents", "0", "--docview", os.devnull])
        self.assertEqual((status, out.splitlines()[0]), (0, "rules: 40 pages, 0 read otherwise"))

    @unittest.skipUnless(shutil.which("cmark-gfm"), "cmark-gfm is missing")
    def test_a_parenthesis_behind_a_note_makes_a_link(self):
        seen = VIEWS.Seen(VIEWS.read("[^1](x)\n\n[^1]: note\n"))
        self.assertEqual("".join(it for it, _, _ in seen.found).strip(), "^1")
