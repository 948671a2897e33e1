"""Tests of what is installed: tools/package, and the command docbin-tools with `explain` and `meta`."""
import json
import os
import re
import shutil
import subprocess
import sys
import tarfile
import unittest
from importlib.machinery import SourceFileLoader
from importlib.util import module_from_spec, spec_from_loader

from tool import PROGRAM, TOP, Tool, needs_program, needs_viewer

NEEDED = ("dpkg-deb", "objcopy", "readelf")
needs_commands = unittest.skipUnless(all(map(shutil.which, NEEDED)), f"one of {', '.join(NEEDED)} is not there")


def package():
    sys.path.insert(0, f"{TOP}/tools")
    loader = SourceFileLoader("package_tool", f"{TOP}/tools/package")
    found = module_from_spec(spec_from_loader(loader.name, loader))
    loader.exec_module(found)
    return found


class Packages(Tool):
    name = "package"

    def setUp(self):
        super().setUp()
        os.mkdir(self.path("programs"))
        for it in ("docbin", "docview", "docfit"):
            shutil.copy(sys.executable if os.path.getsize(os.path.realpath(sys.executable)) < 1 << 20 else "/bin/true", self.path(f"programs/{it}"))
        self.env = {**os.environ, "DEBFULLNAME": "Somebody", "DEBEMAIL": "somebody@example.org"}

    @needs_commands
    def test_packages_are_made(self):
        status, printed, error = self.tool("--programs", "programs", "out", env=self.env)
        self.assertEqual(status, 0, error)
        names = sorted(os.listdir(self.path("out")))
        self.assertEqual([it for it in names if it.endswith((".deb", ".gz")) and not it.startswith("lib")],
                         ["docbin-1.0.0-x86_64-linux.tar.gz", "docbin-1.0.0.tar.gz", "docbin-tools_1.0.0_all.deb", "docbin_1.0.0_amd64.deb"])
        ran = subprocess.run(["sha256sum", "--check", "--quiet", "SHA256SUMS"], cwd=self.path("out"), check=False)
        self.assertEqual(ran.returncode, 0)
        listed = subprocess.run(["dpkg-deb", "-c", self.path("out/docbin_1.0.0_amd64.deb")], stdout=subprocess.PIPE, check=True).stdout.decode()
        for it in ("./usr/bin/docfit", "./usr/share/man/man5/docbin-script.5.gz", "./usr/share/doc/docbin/copyright"):
            self.assertIn(it, listed)

    @needs_commands
    def test_a_program_has_its_version_and_is_else_what_was_built(self):
        status, _, error = self.tool("--install", "--programs", "programs", "prefix", env={**self.env, "DESTDIR": ""})
        self.assertEqual(status, 0, error)
        noted = subprocess.run(["readelf", "-n", self.path("prefix/bin/docview")], stdout=subprocess.PIPE, check=True).stdout.decode()
        self.assertIn("docbin", noted)
        self.assertIn(" ".join(f"{it:02x}" for it in b"1.0.0\0"), noted)
        loaded = package().loaded
        self.assertEqual(loaded(self.read("prefix/bin/docview")), loaded(self.read("programs/docview")))

    def test_links_of_installed_pages_lead_to_installed_files(self):
        made = package()
        files = {it.name: it.data for it in made.page_files()}
        self.assertIn("share/doc/docbin/docs/COMMANDS.md", files)
        for name, data in files.items():
            if name.endswith(".md"):
                for _, target in made.repository.LINK.findall(re.sub(r"`[^`\n]*`", "", data.decode())):
                    if not re.match("https?:|mailto:", target):
                        self.assertIn(made.repository.linked_file(name, target)[0], files, name)

    def test_a_program_that_is_not_there(self):
        os.unlink(self.path("programs/docfit"))
        status, _, error = self.tool("--programs", "programs", "out", env=self.env)
        self.assertEqual(status, 1)
        self.assertIn("docfit is not built", error)
        self.assertFalse(os.path.exists(self.path("out/SHA256SUMS")))


class Tools(Tool):
    """docbin-tools as it is installed: a link to a folder that has what it needs."""

    def setUp(self):
        super().setUp()
        made = package()
        made.put(made.tool_files(), self.path("prefix"))
        self.command = self.path("prefix/bin/docbin-tools")

    def said(self, *words):
        return self.run_words([self.command, *words])

    def test_words(self):
        self.assertEqual(self.said("--version"), (0, "docbin-tools 1.0.0\n", ""))
        for it in ("script", "positions", "many", "explain", "meta", "paragraph-runs"):
            status, printed, error = self.said(it, "--help")
            self.assertEqual((status, error), (0, ""), it)
            self.assertIn(f"usage: docbin-tools {it} ", printed)
        self.assertEqual(self.said("change")[0], 2)
        self.assertEqual(self.said()[0], 2)

    def test_lines_are_explained(self):
        for line, word in (("a.doc: rule 18 WordDocument 2", "docfit IN OUT"), ("edit 3: range", "a place, a text, a style"), ("save 2: sixteenth, count 15", "save it fully"),
                           ("a.doc: missing", "no file of this name"), ("different", "status 11"), ("position 9 of 6", "LENGTH"), ("full: too large, needs 14000 sectors", "Divide")):
            status, printed, error = self.said("explain", line)
            self.assertEqual((status, error), (0, ""), line)
            self.assertIn(word, printed)
        self.assertEqual(self.said("explain", "no such line")[::2], (1, "no such line: neither a file nor a line of docbin\n"))

    @needs_program
    def test_a_key_of_a_script_is_named(self):
        self.write("script", b'[{"do": "insert", "story": "main", "at": 0, "txt": "a"}, {"do": "save", "mode": "full"}]')
        status, printed, _ = self.said("explain", "hello.doc", "script")
        self.assertEqual(status, 0)
        self.assertIn("script: command 0: `txt` is no key of insert, `text` is missing\nscript: command 0 has a wrong shape\n", printed)
        self.write("script", b'[{"do": "char", "story": "main", "from": 0, "to": -1, "set": {"0835": "1"}}]')
        printed = self.said("explain", "hello.doc", "script")[1]
        self.assertIn("`to` is not from 0 to 4294967295, `set` has for 0835 no bytes", printed)
        self.assertIn("its last command is no save", printed)
        self.assertEqual(self.said("explain", "hello.doc"), (0, "hello.doc: accepted\n", ""))

    @needs_program
    @needs_viewer
    def test_properties_in_any_letters(self):
        self.assertEqual(self.said("meta", "hello.doc"), (0, "", ""))
        self.assertEqual(self.said("meta", "hello.doc", "title=Größe Ω", "author=李", "out.doc"), (0, "", ""))
        self.assertEqual(self.said("meta", "out.doc"), (0, "summary.codepage: 65001\ntitle: Größe Ω\nauthor: 李\n", ""))
        self.assertEqual(self.said("meta", "out.doc", "author=", "subject=x", "out.doc"), (0, "", ""))
        self.assertEqual(self.said("meta", "--json", "out.doc"), (0, '{"summary.codepage": 65001, "title": "Größe Ω", "subject": "x"}\n', ""))
        self.assertEqual(self.docbin("check", "out.doc")[0], 0)
        self.assertEqual(self.said("meta", "out.doc", "size=3", "new.doc")[0], 2)
        self.assertFalse(os.path.exists(self.path("new.doc")))
        status, printed, error = self.said("meta", "letter.json")
        self.assertEqual((status, printed), (1, ""))
        self.assertTrue(error.startswith("docview: letter.json: not shown: rule "), error)
        self.assertEqual(self.said("meta", "none.doc")[0], 3)

    @needs_program
    def test_a_script_is_made_far_from_the_repository(self):
        self.write("lines", b'insert end "!"\n')
        self.assertEqual(self.said("script", "--edit", "hello.doc", "lines", "out.doc")[0], 0)
        self.assertEqual(self.docbin("text", "out.doc")[1], "Hello!\n")
        self.assertEqual(self.said("many", "check", "hello.doc")[0], 0)
        self.assertEqual(self.said("positions", "hello.doc", "Hello")[1], "main 0 5 Hello\n")


class Schema(unittest.TestCase):
    def test_the_schema_has_the_commands_of_the_page(self):
        with open(f"{TOP}/docs/EDITING.md", encoding="utf8") as file:
            rows = re.findall(r"^\| `([a-z]*)` \| (`[^|]*`) \| ", file.read().partition("## The script")[2].partition("\n## ")[0], re.M)
        with open(f"{TOP}/docs/script.schema.json", encoding="utf8") as file:
            forms = {it["properties"]["do"]["const"]: it["required"][1:] for it in json.load(file)["items"]["oneOf"]}
        self.assertEqual({name: re.findall(r"`([a-z]+)`", keys) for name, keys in rows}, forms)


if __name__ == "__main__":
    unittest.main()
