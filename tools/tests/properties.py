"""Tests of tools/check-properties."""
import importlib.machinery
import importlib.util
import os

from tool import TOP, VIEWER, Tool, needs_viewer


def tool():
    loader = importlib.machinery.SourceFileLoader("check_properties", f"{TOP}/tools/check-properties")
    module = importlib.util.module_from_spec(importlib.util.spec_from_loader("check_properties", loader))
    loader.exec_module(module)
    return module


CHECK = tool()


def titled(code_page, text):
    pairs = [(1, CHECK.value(0x02, code_page.to_bytes(2, "little"))), (2, CHECK.counted(0x1E, text)), (12, CHECK.value(0x40, (133500000000000000).to_bytes(8, "little")))]
    return CHECK.stream(CHECK.set_bytes(pairs))


class Properties(Tool):
    name = "check-properties"

    def test_the_model_has_the_words_of_the_page(self):
        self.assertEqual(CHECK.page(titled(1251, b"\xcf\x98\\\n"), None, False),
                         "summary.codepage: 1251\ntitle: П\\x98\\\\\\u000a\ncreated: 2024-01-17T21:20:00Z\n")
        self.assertEqual(CHECK.page(None, titled(65001, b'"'), True),
                         '{"document.codepage": 65001, "category": "\\"", "heading-pairs": "2024-01-17T21:20:00Z"}\n')
        self.assertEqual(CHECK.page(b"", None, False), "SummaryInformation: \\damaged\n")

    def test_another_page_is_named(self):
        self.write("docview", b"#!/bin/sh\necho title: x\n")
        os.chmod(self.path("docview"), 0o755)
        status, printed, _ = self.tool("--docview", self.path("docview"), "--files", "2")
        self.assertEqual((status, len(printed.splitlines())), (1, 11))
        self.assertIn("code page 1249: docview meta prints another page than the model\n", printed)
        self.assertTrue(printed.endswith("tools/check-properties: 18 files, 18 wrong\n"))

    def test_a_program_that_is_not_there(self):
        self.assertEqual(self.tool("--docview", self.path("none"))[0], 2)

    @needs_viewer
    def test_docview_prints_what_the_model_does(self):
        self.assertEqual(self.tool("--docview", VIEWER, "--files", "20"), (0, "tools/check-properties: 36 files, 0 wrong\n", ""))
