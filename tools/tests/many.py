"""Tests of tools/docbin-many."""
import json
import os

from tool import Tool, needs_program


@needs_program
class Many(Tool):
    name = "docbin-many"

    def test_a_line_a_file_and_a_summary(self):
        status, printed, said = self.tool("check", "letter.doc", "hello.doc", "letter.json")
        self.assertEqual((status, said), (1, ""))
        self.assertEqual(printed, "letter.doc: accepted: units 58 styles 3 sections 1 notes 1 streams 3\n"
                         "hello.doc: accepted: units 6 styles 3 sections 1 notes 0 streams 0\nletter.json: rule 1 File 356\n"
                         "3 files\n     2 accepted\n     1 rule 1\n")

    def test_what_has_several_lines_is_counted(self):
        self.assertEqual(self.tool("text", "letter.doc", "hello.doc")[1].splitlines()[:2], ["letter.doc: 2 lines, 43 bytes", "hello.doc: Hello"])

    def test_folders_links_and_names(self):
        os.makedirs(self.path("a/b"))
        for name in ("a/z.DOC", "a/b/x y.doc", "a/n\n.dot", b"a/\xff.doc", "a/other.txt"):
            with open(os.path.join(os.fsencode(self.folder), os.fsencode(name)), "wb") as file:
                file.write(self.read("hello.doc"))
        os.symlink("../letter.doc", self.path("a/link.doc"))
        os.symlink("..", self.path("a/b/up"))
        status, printed, _ = self.tool("check", "a")
        names = [it.split(": accepted")[0] for it in printed.splitlines()[:-2]]
        self.assertEqual((status, names), (0, ["a/link.doc", "a/n\\u000a.dot", "a/z.DOC", "a/\\udcff.doc", "a/b/x y.doc"]))
        self.assertEqual(self.tool("--all", "check", "a")[1].splitlines()[-2:], ["6 files", "     6 accepted"])

    def test_what_cannot_be_read_has_its_reason(self):
        os.symlink("loop", self.path("loop"))
        status, printed, _ = self.tool("--jobs", "2", "check", "none.doc", "loop", "hello.doc")
        self.assertEqual(status, 4)
        self.assertEqual(printed.splitlines()[:2], ["none.doc: cannot be read: No such file or directory", "loop: cannot be read: Too many levels of symbolic links"])

    def test_what_the_program_says_beside_its_line_is_said_where_the_system_fails_alone(self):
        for status, said in ((1, ""), (4, "docbin: why\n")):
            self.write("other", f"#!/bin/sh\n[ $# = 0 ] && echo 'usage: docbin check FILE' || echo 'rule 1 File 5'\necho 'docbin: why' >&2\nexit {status}\n".encode())
            os.chmod(self.path("other"), 0o755)
            got = self.tool("check", "hello.doc", env={**os.environ, "DOCBIN": self.path("other")})
            self.assertEqual((got[0], got[2]), (status, said))

    def test_texts_are_written_into_a_folder(self):
        os.makedirs(self.path("a/b"))
        for name in ("a/x.doc", "a/b/x.doc", "a/no.doc"):
            self.write(name, self.read("letter.json" if name == "a/no.doc" else "hello.doc"))
        status, printed, _ = self.tool("--into", "out", "text", "a", "letter.doc")
        self.assertEqual((status, printed.splitlines()[-2:]), (1, ["     3 accepted", "     1 rule 1"]))
        found = sorted(os.path.relpath(os.path.join(at, it), self.path("out")) for at, _, names in os.walk(self.path("out")) for it in names)
        self.assertEqual(found, ["b/x.doc.txt", "letter.doc.txt", "x.doc.txt"])
        self.assertEqual(self.read("out/letter.doc.txt"), b"Offer\nDear Ann,\\u0009see\\u0009below\\u0002.\n")
        status, _, said = self.tool("--into", "out", "text", "a/x.doc", "a/b/x.doc")
        self.assertEqual((status, said.splitlines()[-1]), (2, "tools/docbin-many: two files would be out/x.doc.txt"))
        self.assertEqual(self.tool("--into", "hello.doc", "text", "letter.doc")[0], 4)

    def test_tables(self):
        status, printed, _ = self.tool("--tsv", "check", "hello.doc", "letter.json")
        self.assertEqual((status, printed), (1, "file\tstatus\trule\tplace\toffset\tline\n"
                         "hello.doc\t0\t\t\t\taccepted: units 6 styles 3 sections 1 notes 0 streams 0\nletter.json\t1\t1\tFile\t356\trule 1 File 356\n"))
        rows = [json.loads(it) for it in self.tool("--json", "check", "hello.doc", "letter.json")[1].splitlines()]
        self.assertEqual((rows[0]["file"], rows[0]["status"], rows[0]["rule"], rows[0]["units"], rows[0]["streams"]), ("hello.doc", 0, None, 6, 0))
        self.assertEqual([rows[1][it] for it in ("file", "status", "rule", "place", "offset")], ["letter.json", 1, 1, "File", 356])

    def test_its_help_has_all_that_it_takes(self):
        said = self.tool("none", "hello.doc")[2]
        there = said.strip().rpartition("is one of ")[2].split(", ")
        printed = self.tool("--help")[1]
        self.assertIn(f"takes a file alone: {', '.join(there)}.", printed)
        for word in ("--into", "--tsv", "--json", "--jobs", "--all"):
            self.assertIn(f"\n  {word}", printed)

    def test_words_that_are_wrong(self):
        for words in ((), ("check",), ("full", "hello.doc"), ("--jobs", "0", "check", "hello.doc"), ("--none", "check", "hello.doc"),
                      ("--into",), ("--tsv", "--json", "check", "hello.doc")):
            self.assertEqual(self.tool(*words)[:2], (2, ""))

    def test_no_file_is_no_fault(self):
        os.mkdir(self.path("empty"))
        self.assertEqual(self.tool("check", "empty")[:2], (0, "0 files\n"))
