"""Tests of the Python package, each over the shared library that tools/c-library makes and over the program, where they are there."""
import array
import doctest
import json
import os
import pickle
import re
import subprocess
import sys
import tempfile
import unittest
from concurrent.futures import ProcessPoolExecutor, ThreadPoolExecutor

import docbin
from docbin import backends, fitting

TOP = os.path.dirname(os.path.dirname(os.path.dirname(os.path.realpath(__file__))))
LIBRARY = os.environ.get("DOCBIN_LIBRARY", f"{TOP}/python/docbin/libdocbin.so")
PROGRAM = os.environ.get("DOCBIN", f"{TOP}/crates/docbin/out/docbin")
for it in ("docfit", "docview"):
    if os.access(f"{TOP}/crates/{it}/out/{it}", os.X_OK):
        os.environ.setdefault(it.upper(), f"{TOP}/crates/{it}/out/{it}")


def example(name):
    with open(f"{TOP}/examples/{name}", "rb") as file:
        return file.read()


def changed(data, **numbers):
    """A file whose FIB has these bytes at these places, as b8=24."""
    made = bytearray(data)
    for place, number in numbers.items():
        made[data.index(b"\xec\xa5") + int(place[1:])] = number
    return bytes(made)


def refusal_of(data):
    """What a call says of bytes in another process, where an exception is pickled on its way back."""
    return docbin.check(data)


class Calls:
    """What holds of both backends."""

    def setUp(self):
        os.chdir(TOP)
        docbin._backend = self.backend()

    def tearDown(self):
        docbin._backend = None

    def needs(self, program):
        """Skips the test where a run of this program is wanted and it is not there."""
        if isinstance(docbin._backend, backends.Program):
            try:
                docbin._backend.place(program)
            except FileNotFoundError as why:
                self.skipTest(str(why))

    def raised(self, kind, call, *given):
        with self.assertRaises(kind) as got:
            call(*given)
        return got.exception

    def test_the_examples_of_the_package(self):
        self.needs("docfit")
        self.needs("docview")
        failed, tried = doctest.testmod(docbin, extraglobs={"docbin": docbin}, optionflags=doctest.IGNORE_EXCEPTION_DETAIL)
        self.assertEqual(failed, 0)
        self.assertGreater(tried, 5)

    def test_what_a_refusal_carries(self):
        got = self.raised(docbin.RuleBroken, docbin.text, b"no document")
        self.assertEqual((got.status, got.rule, got.place, got.offset, str(got)), (1, 1, "File", 11, "first: rule 1 File 11"))
        got = self.raised(docbin.RuleBroken, docbin.equal, example("hello.doc"), b"no")
        self.assertEqual((got.index, str(got)), (None, "second: rule 1 File 2"))
        script = [{"do": "split", "story": "main", "at": 0}, {"do": "merge", "story": "main", "at": 99}]
        got = self.raised(docbin.EditRefused, docbin.edit, example("hello.doc"), script)
        self.assertEqual((got.status, got.index), (8, 1))
        script = [{"do": "split", "story": "main", "at": 0}, {"do": "erase", "story": "main", "from": 6, "to": 7}]
        got = self.raised(docbin.RuleBroken, docbin.edit, example("hello.doc"), script)
        self.assertEqual((got.status, got.rule, got.index), (8, 60, 1))
        self.assertEqual(self.raised(docbin.WrongScript, docbin.edit, example("hello.doc"), [{"do": "split"}]).index, 0)
        self.assertEqual(self.raised(docbin.SaveRefused, self.saved_fast, 16).index, 0)
        self.raised(docbin.NoSummary, docbin.title, example("hello.doc"))
        self.raised(docbin.WrongScript, docbin.import_json, {})
        self.raised(docbin.EditRefused, docbin.props, example("hello.doc"), 6)

    def test_arguments_of_other_kinds(self):
        hello = example("hello.doc")
        for given in ((1, 2), (hello, None), ("hello", hello), (hello, [1])):
            self.raised(TypeError, docbin.join, *given)
        for call in (docbin.text, docbin.streams, docbin.check, docbin.show, docbin.outline, docbin.title, docbin.full, docbin.export):
            self.raised(TypeError, call, 5)
        for kind, position in ((OverflowError, 2 ** 32 + 3), (OverflowError, 10 ** 9), (ValueError, -1), (TypeError, 1.0), (TypeError, "1")):
            self.raised(kind, docbin.props, hello, position)
        for kind, new in ((TypeError, b"New"), (ValueError, "Z\u00fcrich"), (ValueError, "a\n"), (ValueError, "a" * 256)):
            self.raised(kind, docbin.retitle, example("titled.doc"), new)
        for kind, commands in ((TypeError, 5), (TypeError, ["save"]), (TypeError, [{"do": {1}}]), (ValueError, [{"do": float("nan")}])):
            self.raised(kind, docbin.edit, hello, commands)
        self.raised(TypeError, docbin.edit, hello, [], 1)
        self.raised(TypeError, docbin.import_json, [])

    def test_bytes_of_all_kinds(self):
        hello = example("hello.doc")
        wide = memoryview(array.array("I", hello))
        for given in (bytearray(hello), memoryview(hello), wide, memoryview(hello + hello)[: len(hello)], memoryview(bytes(it for it in hello for _ in "ab"))[::2]):
            self.assertEqual(docbin.text(given), "Hello\n")

    def test_no_bytes(self):
        self.assertEqual(self.raised(docbin.RuleBroken, docbin.text, b"").line, "first: rule 1 File 0")
        self.assertEqual(docbin.title(docbin.retitle(example("titled.doc"), ""))[0], "title ")

    def test_a_file_that_is_fitted(self):
        self.needs("docfit")
        letter = example("letter.doc")
        got = docbin.fit(letter)
        self.assertEqual((got.bytes, got.left_out, got.mended), (docbin.full(letter), [], []))
        got = docbin.fit(changed(letter, b8=24))
        self.assertEqual((got.bytes, got.left_out), (docbin.full(letter), [docbin.Feature("autotext", {"page": 24})]))
        self.assertEqual(pickle.loads(pickle.dumps(got)), got)
        self.assertEqual(docbin.check(docbin.fit(changed(letter, b2=0xD9)).bytes), docbin.check(letter))
        self.assertEqual(docbin.fit(letter, plain=True).bytes, docbin.full(letter))

    def test_files_that_are_not_fitted(self):
        self.needs("docfit")
        hello = example("hello.doc")
        got = self.raised(docbin.NotWord97, docbin.fit, changed(hello, b0=0xDC))
        self.assertEqual((got.status, got.ident, got.version), (15, 0xA5DC, 0xC1))
        self.assertEqual(self.raised(docbin.Encrypted, docbin.fit, changed(hello, b11=1)).status, 16)
        got = self.raised(docbin.RuleBroken, docbin.fit, changed(hello, b32=13))
        self.assertEqual((got.rule, got.place, got.offset), (21, "WordDocument", 32))
        self.assertEqual(self.raised(docbin.RuleBroken, docbin.fit, b"").line, "first: rule 1 File 0")
        self.raised(TypeError, docbin.fit, "hello")

    def test_the_lines_of_a_report(self):
        report = ("fit: 8 bytes, left out 11, mended 14\nstream 1Table\nstorage Object Pool\npart 50 DggInfo 1234\n"
                  "story comments 7 | a\\u005cb \u00e4\\u000d\nautotext page 24\nreference endnotes note 3 57\ncode style-char 0801 87\n"
                  "repeat par d634 12\nbookmark a b 3 4\nsheet 12\nsomething new\nsector 37: filled\npart 11 PlcfHdd: emptied\nstyle 12: emptied\nstyles 20: cut\n"
                  "deleted main 120 135: struck\n"
                  "deleted head 6 1 2\nendnote 3: note 5\ncomment 0: note 6\nmark main 20: cells of Data\n"
                  "base 7\nmark head 6 0: style 65535\nrow main 8: 3 cells\nreference comments main 9: cut\nend note 0\n")
        got = fitting.fitted(b"", report)
        self.assertEqual(got.left_out, [docbin.Feature(kind, fields) for kind, fields in (
            ("stream", {"name": "1Table"}), ("storage", {"name": "Object Pool"}), ("part", {"pair": 50, "name": "DggInfo", "bytes": 1234}),
            ("story", {"story": "comments", "units": 7, "text": "a\\b \u00e4\r"}), ("autotext", {"page": 24}),
            ("reference", {"story": "endnotes", "place": "note 3", "at": 57}), ("code", {"list": "style-char", "code": "0801", "count": 87}),
            ("repeat", {"list": "par", "code": "d634", "count": 12}),
            ("bookmark", {"name": "a b", "begin": 3, "end": 4}), ("sheet", {"bytes": 12}), ("something", {"words": "new"}))])
        self.assertEqual(got.mended, [docbin.Feature(kind, fields) for kind, fields in (
            ("sector", {"bytes": 37, "made": "filled"}), ("part", {"pair": 11, "name": "PlcfHdd", "made": "emptied"}),
            ("style", {"style": 12, "made": "emptied"}), ("styles", {"style": 20, "made": "cut"}),
            ("deleted", {"place": "main", "begin": 120, "end": 135, "made": "struck"}),
            ("deleted", {"place": "head 6", "begin": 1, "end": 2}), ("endnote", {"endnote": 3, "note": 5}), ("comment", {"comment": 0, "note": 6}),
            ("mark", {"place": "main", "at": 20, "made": "cells of Data"}), ("base", {"style": 7}),
            ("mark", {"place": "head 6", "at": 0, "style": 65535}), ("row", {"place": "main", "at": 8, "cells": 3}),
            ("reference", {"story": "comments", "place": "main", "at": 9, "made": "cut"}),
            ("end", {"place": "note 0"}))])

    def test_each_line_that_the_page_shows_has_a_form(self):
        with open(f"{TOP}/docs/FIT.md", encoding="utf8") as file:
            rows = re.findall(r"^\| `([a-z]+ [^`]*)` \|", file.read().partition("## What is printed")[2].partition("\n## ")[0].replace("\\|", "|"), re.M)
        self.assertGreaterEqual(len(rows), 5)
        for it in rows:
            self.assertNotIn("words", fitting.feature(it).fields, it)

    def test_pages_for_people(self):
        self.needs("docview")
        letter = example("letter.doc")
        self.assertEqual(docbin.plain(letter), "Offer\nDear Ann,\tsee\tbelow[1].\n\n[1] Net price.\n")
        self.assertIn("Dear <b>Ann</b>,", docbin.html(letter))
        script = [{"do": "insert", "story": "main", "at": 0, "text": "\u00e4" * 100_000}, {"do": "char", "story": "main", "from": 0, "to": 9, "set": {"083c": "01"}}]
        made = docbin.edit(example("hello.doc"), script)
        self.assertEqual(docbin.plain(made), "\u00e4" * 99_991 + "Hello\n")
        self.assertEqual(docbin.plain(made, hidden=True), "\u00e4" * 100_000 + "Hello\n")
        self.assertEqual(len(docbin.html(made, hidden=True)) - len(docbin.html(made)), 9)
        self.assertGreater(len(docbin.plain(letter, headers=True)), len(docbin.plain(letter)))
        self.assertGreater(len(docbin.plain(letter, hidden=True, headers=True)), len(docbin.plain(letter)))
        self.assertIn("Dear **Ann**,", docbin.markdown(letter))
        for call in (docbin.plain, docbin.markdown, docbin.html):
            self.assertEqual(call(changed(letter, b2=0xD9, b8=24)), call(letter))
            got = self.raised(docbin.RuleBroken, call, changed(letter, b32=13))
            self.assertEqual((got.status, got.rule, got.place, got.offset), (1, 21, "WordDocument", 32))
            self.assertEqual(self.raised(docbin.Encrypted, call, changed(letter, b11=1)).status, 16)
            self.assertEqual(self.raised(docbin.NotWord97, call, changed(letter, b0=0xDC)).status, 15)
            self.raised(TypeError, call, letter, 1)

    def test_the_package_as_a_program(self):
        self.needs("docfit")
        self.needs("docview")

        def ran(*words):
            got = subprocess.run([sys.executable, "-m", "docbin", *words], env={**os.environ, "PYTHONPATH": f"{TOP}/python", **self.env}, capture_output=True, check=False)
            return got.returncode, got.stdout.decode(), got.stderr.decode()

        with tempfile.TemporaryDirectory() as folder:
            locked, out = f"{folder}/locked.doc", f"{folder}/out.doc"
            with open(locked, "wb") as file:
                file.write(changed(example("hello.doc"), b11=1))
            self.assertEqual(ran("text", "examples/hello.doc"), (0, "Hello\n", ""))
            self.assertEqual(ran("fit", "examples/hello.doc", out), (0, "fit: 6656 bytes, left out 0, mended 0\n", ""))
            self.assertEqual(ran("equal", "examples/hello.doc", out), (0, "equal\n", ""))
            self.assertEqual(ran("check", locked), (1, f"{locked}: rule 19 WordDocument 10\n", ""))
            self.assertEqual(ran("fit", locked, out), (16, f"{locked}: encrypted\n", ""))
            status, printed, said = ran("plain", locked)
            self.assertEqual((status, printed, said.partition(" (")[0]), (16, "", f"docview: {locked}: not shown: rule 19 WordDocument 10"))
            self.assertEqual(ran("plain")[:2], (2, ""))

    def saved_fast(self, times):
        data = example("hello.doc")
        for _ in range(times):
            data = docbin.edit(data, [docbin.FAST])
        return data

    def test_long_texts(self):
        made = docbin.edit(example("hello.doc"), [{"do": "insert", "story": "main", "at": 0, "text": "\u00e4" * 100_000}])
        self.assertEqual(docbin.text(made), "\u00e4" * 100_000 + "Hello\n")
        self.assertEqual(docbin.text(self.saved_fast(15)), "Hello\n")

    def test_lines_end_with_line_feeds_alone(self):
        document = docbin.export(example("hello.doc"))
        document["carried"]["streams"] = [["0041008520280042", "00"]]
        self.assertIn("1 A\x85\u2028B", docbin.streams(docbin.import_json(document)))

    def test_documents_as_json_and_back(self):
        letter = example("letter.doc")
        made = docbin.import_json(docbin.export(letter))
        self.assertEqual(made, docbin.full(letter))
        self.assertTrue(docbin.equal(letter, made))
        self.assertFalse(docbin.equal(letter, example("hello.doc")))
        self.assertIn("Hello", docbin.text(docbin.join(example("hello.doc"), letter)))

    def test_each_file_of_a_folder(self):
        got = {path.name: it for path, it in docbin.folder("examples", docbin.check, "*")}
        self.assertIsInstance(got["letter.json"], docbin.RuleBroken)
        self.assertTrue(got["letter.doc"].startswith("accepted: units 58"))

    def test_a_document_as_objects(self):
        letter = docbin.Document.open(f"{TOP}/examples/letter.doc")
        self.assertEqual([(it.text, it.style.name) for it in letter.paragraphs], [("Offer", "heading 1"), ("Dear Ann,\tsee\tbelow\x02.", "Normal")])
        self.assertEqual([it.text for it in letter.paragraphs[1].runs if it.bold], ["Ann"])
        self.assertEqual([(it.reference, it.is_numbered, it.text) for it in letter.notes], [(25, True, "\x02 Net price.")])
        self.assertEqual(letter.outline, [docbin.Heading(0, 0, None, "Offer")])
        self.assertEqual(letter.streams[0], docbin.Stream("1Table", 4096))
        found = letter.properties(11)
        self.assertEqual((found.unit, found.style, found.character, found.tabs), (65, 0, {"bold": "01"}, [(-1000, 2), (1440, 25)]))
        self.assertEqual(docbin.Document.open(example("titled.doc")).summary, ("Offer", "Tables and chairs", "Zo\\xeb Miller"))
        with self.assertRaises(docbin.RuleBroken):
            docbin.Document.open(b"no document")

    def test_a_text_is_replaced_everywhere(self):
        letter = docbin.Document(example("letter.doc"))
        self.assertEqual(letter.replace("e", "é🙂"), 8)
        self.assertEqual(letter.text, "Offér\nDéar Ann,\tsee\tbelow\x02.\n".replace("é", "é🙂").replace("see", "sé🙂é🙂").replace("below", "bé🙂low"))
        self.assertEqual(letter.notes[0].text, "\x02 Né🙂t pricé🙂.")
        self.assertEqual((letter.replace("🙂", ""), letter.replace("absent", "x")), (8, 0))
        with self.assertRaises(ValueError):
            letter.replace("a", "b\n")
        with tempfile.TemporaryDirectory() as folder:
            letter.save(f"{folder}/out.doc")
            self.assertEqual(os.listdir(folder), ["out.doc"])
            self.assertEqual(docbin.Document.open(f"{folder}/out.doc").text, letter.text)

    def test_tables_and_bookmarks(self):
        made = docbin.Document(docbin.edit(example("letter.doc"), [
            {"do": "row", "story": "main", "at": 6, "width": 1440, "cells": ["a", "b"]}, {"do": "row", "story": "main", "at": 11, "width": 1440, "cells": ["c", ""]},
            {"do": "bookmark", "name": "é", "from": 0, "to": 5}]))
        self.assertEqual([it.rows for it in made.tables], [[["a", "b"], ["c", ""]]])
        self.assertEqual(made.bookmarks, {"é": (0, 5)})
        with self.assertRaises(docbin.NoSummary):
            made.title = "x"
        titled = docbin.Document(example("titled.doc"))
        titled.title = "Other"
        self.assertEqual(titled.title, "Other")

    def test_a_title(self):
        self.assertEqual(docbin.title(docbin.retitle(example("titled.doc"), "New"))[0], "title New")

    def test_many_threads(self):
        with ThreadPoolExecutor(8) as pool:
            self.assertEqual(len(set(pool.map(lambda _: json.dumps(docbin.export(example("letter.doc"))), range(32)))), 1)

    def test_refusals_in_another_process(self):
        for kind, line in ((docbin.RuleBroken, "edit 3: rule 60 Main 4"), (docbin.GuardRefused, "edit 2: guard 0"), (docbin.Refused, "x")):
            got = pickle.loads(pickle.dumps(kind(8, line)))
            self.assertEqual((type(got), vars(got)), (kind, vars(kind(8, line))))
        with ProcessPoolExecutor(2) as pool:
            self.assertIsInstance(pool.submit(refusal_of, b"no").exception(), docbin.RuleBroken)
            self.assertTrue(pool.submit(refusal_of, example("hello.doc")).result().startswith("accepted"))


@unittest.skipUnless(os.path.exists(LIBRARY), "the library is not made")
class ByLibrary(Calls, unittest.TestCase):
    backend = staticmethod(lambda: backends.Library(LIBRARY))
    env = {"DOCBIN_LIBRARY": LIBRARY}

    def test_without_a_guard(self):
        script = [it for _ in range(3) for it in ({"do": "insert", "story": "main", "at": 0, "text": "a" * 400_000}, {"do": "erase", "story": "main", "from": 0, "to": 400_000})]
        self.assertEqual(self.raised(docbin.GuardRefused, docbin.edit, example("hello.doc"), script).index, 4)
        self.assertEqual(docbin.text(docbin.edit(example("hello.doc"), script, guarded=False)), "Hello\n")

    def test_a_text_is_made_once(self):
        calls, real = [], docbin._backend.calls.docbin_text
        made = docbin.edit(example("hello.doc"), [{"do": "insert", "story": "main", "at": 0, "text": "\u00e4" * 100_000}])

        class Counting:
            def __getattr__(self, name):
                calls.append(name)
                return real

        docbin._backend.calls = Counting()
        self.assertEqual(len(docbin.text(made)), 100_006)
        self.assertEqual(calls, ["docbin_text"])


@unittest.skipUnless(os.access(PROGRAM, os.X_OK), "the program is not built")
class ByProgram(Calls, unittest.TestCase):
    backend = staticmethod(lambda: backends.Program(PROGRAM))
    env = {"DOCBIN": PROGRAM}

    def test_without_a_guard(self):
        self.assertIn("need the library", str(self.raised(NotImplementedError, docbin.edit, example("hello.doc"), [], False)))

    def test_a_program_that_fails(self):
        with tempfile.TemporaryDirectory() as folder:
            for text, why in (("echo 'docbin: full' >&2; exit 4", "status 4: full"), ("exit 70", "status 70"), ("kill -9 $$", "status -9")):
                with open(f"{folder}/docbin", "w", encoding="ascii") as file:
                    file.write(f"#!/bin/sh\n{text}\n")
                os.chmod(f"{folder}/docbin", 0o755)
                docbin._backend = backends.Program(f"{folder}/docbin")
                self.assertIn(why, str(self.raised(OSError, docbin.text, b"")))


class Found(unittest.TestCase):
    def asked(self, **env):
        """The kind of the backend that is found, or why there is none."""
        code = f"import sys; sys.path.insert(0, {TOP + '/python'!r}); from docbin import backends; backends.__file__ = '/none/x'; print(type(backends.found()).__name__)"
        ran = subprocess.run([sys.executable, "-c", code], env={"PATH": "/none", **env}, stdout=subprocess.PIPE, stderr=subprocess.PIPE, check=False)
        return ran.stdout.decode().strip() or ran.stderr.decode().splitlines()[-1]

    def test_programs_beside_docbin(self):
        with tempfile.TemporaryDirectory() as folder:
            for name in ("docbin", "docfit"):
                with open(f"{folder}/{name}", "w", encoding="ascii"):
                    pass
                os.chmod(f"{folder}/{name}", 0o755)
            code = (f"import sys; sys.path.insert(0, {TOP + '/python'!r}); from docbin import backends; program = backends.Program({folder + '/docbin'!r})\n"
                    "for it in ('docfit', 'docview'):\n    try:\n        print(program.place(it))\n    except FileNotFoundError as why:\n        print(why)")
            ran = subprocess.run([sys.executable, "-c", code], env={"PATH": "/none"}, stdout=subprocess.PIPE, check=True)
            self.assertEqual(ran.stdout.decode(), f"{folder}/docfit\ndocview is not there (DOCVIEW, or docview in the PATH)\n")

    def test_the_program_where_there_is_no_library(self):
        self.assertIn("docbin is not there: neither the library", self.asked())
        with tempfile.TemporaryDirectory() as folder:
            with open(f"{folder}/docbin", "w", encoding="ascii"):
                pass
            os.chmod(f"{folder}/docbin", 0o755)
            self.assertEqual(self.asked(PATH=folder), "Program")
            self.assertEqual(self.asked(DOCBIN=f"{folder}/docbin"), "Program")
            self.assertIn("docbin is not there", self.asked(DOCBIN="/none", PATH=folder))


if __name__ == "__main__":
    unittest.main()
