"""Tests of ./docbin, ./test and ./build with a stub in the place of the kit: the kit of the file KIT, another release of the same logic,
another logic, and none."""
import os
import shutil

from tool import TOP, Tool

LAST = "rattle-kit-1a logic 0123456789abcdef"
SAME, OTHER = "rattle-kit-1b logic 0123456789abcdef", "rattle-kit-2a logic fedcba9876543210"
NOTE = f"this kit is {SAME}, the proofs were last run with {LAST}\n"
NOTE_OTHER = f"this kit is {OTHER}, the proofs were last run with {LAST}: another logic"
# What the scripts call of the system, so that a kit of this machine is not found.
SYSTEM = ("awk", "bash", "cat", "chmod", "cp", "dirname", "env", "find", "grep", "mkdir", "printf", "python3", "readlink", "sed", "sh", "sleep")
STUB = """#!/bin/sh
case $1 in
  version) echo "$STUB_LINE" ;;
  try) for it; do case $it in */pipe) cp "$(command -v cat)" "$TMPDIR/program"; "$TMPDIR/program" "$it"
         echo "docbin: \\"$it\\": a reason, and $it: another one" >&2
         printf 'checked: ended status=0\\nrun=ended status=0 runners=1 proved=no\\n' >&2; exit ;; esac; done
       if [ -e killed ]; then left=$(cat killed); if [ "$left" -gt 0 ]; then echo $((left - 1)) > killed; kill -9 $$; fi; fi
       if [ -e stdin ]; then cat stdout; else echo Hello; fi
       printf 'checked: ended status=0\\nrun=ended status=0 runners=1 proved=no\\n' >&2 ;;
  all) echo "== docbin"; echo "logic=proved" ;;
  run) mkdir -p out; printf '#!/bin/sh\\necho built\\n' > out/docbin; chmod +x out/docbin ;;
  ci) for it in crates/*; do (cd "$it"; sleep 2; :); echo "rt: ${it#crates/} proved"; done; mkdir -p crates/docbin/out; printf '#!/bin/sh\\necho built\\n' > crates/docbin/out/docbin
      chmod +x crates/docbin/out/docbin ;;
esac
"""


class Kits(Tool):
    """Each test works in a repository of one crate."""

    def setUp(self):
        super().setUp()
        for it in ("bin", "system", "tools", "docs", "crates/docbin/src", "crates/docbin/specs", "crates/docbin/proofs", "examples"):
            os.makedirs(self.path(it))
        for it in ("docbin", "build", "test", "HANDLES", "tools/repository.py", "tools/run-program", "tools/answer-unbuilt", "tools/kit"):
            shutil.copy(f"{TOP}/{it}", self.path(it))
        shutil.copy(f"{TOP}/crates/docbin/stdout", self.path("crates/docbin/stdout"))
        self.write("crates.txt", b"docbin:\n")
        self.write("KIT", f"{LAST}\n".encode())
        self.write("docs/FIGURES.md", b"| crate | proof |\n|---|---|\n| docbin | 1.0 |\n\n")
        self.write("bin/rt", STUB.encode())
        os.chmod(self.path("bin/rt"), 0o755)
        for it in SYSTEM:
            os.symlink(shutil.which(it), self.path(f"system/{it}"))

    def with_kit(self, line, *words):
        """What a command does where the kit prints this line, or is not there."""
        path = os.pathsep.join([*[self.path("bin")] * bool(line), self.path("system")])
        return self.run_words([self.path(words[0]), *words[1:]], env={**os.environ, "PATH": path, "STUB_LINE": line})

    def test_the_kit_of_the_file(self):
        status, printed, said = self.with_kit(LAST, "docbin", "text", "hello.doc")
        self.assertEqual((status, printed), (0, self.read("hello.doc").decode(errors="replace")))
        self.assertNotIn("this kit is", said)
        status, printed, said = self.with_kit(LAST, "build")
        self.assertEqual((status, said), (0, ""), printed)
        self.assertRegex(printed, r" 1 of 1  docbin (was )?proved")
        self.assertRegex(printed, r"it took \d+ minutes, \d+ of a processor; told were 1 and 1, from nothing\n")
        self.assertEqual(self.with_kit(LAST, "docbin", "text", "hello.doc"), (0, "built\n", ""))

    def test_another_release_of_the_logic(self):
        status, printed, said = self.with_kit(SAME, "docbin", "text", "hello.doc")
        self.assertEqual((status, printed), (0, self.read("hello.doc").decode(errors="replace")))
        self.assertIn(f"docbin: {NOTE}", said)
        status, printed, said = self.with_kit(SAME, "build")
        self.assertEqual(status, 0, said)
        self.assertEqual(said, f"build: {NOTE[:-1]}; what is proved now is proved by the logic 0123456789abcdef\n")
        self.assertEqual(self.with_kit(SAME, "test")[2], f"test: {NOTE}")
        self.assertEqual(self.with_kit(SAME, "tools/kit"), (0, f"{SAME}\n", f"tools/kit: {NOTE}"))

    def test_another_logic(self):
        status, printed, said = self.with_kit(OTHER, "docbin", "text", "hello.doc")
        self.assertEqual((status, printed), (0, self.read("hello.doc").decode(errors="replace")))
        self.assertIn(f"docbin: {NOTE_OTHER}\n", said)
        status, printed, said = self.with_kit(OTHER, "build")
        self.assertEqual(status, 0, said)
        self.assertEqual(said, f"build: {NOTE_OTHER}; what is proved now is proved by the logic fedcba9876543210\n")
        self.assertIn("by the logic fedcba9876543210", printed)
        self.assertEqual(self.with_kit(OTHER, "test")[2], f"test: {NOTE_OTHER}\n")
        self.assertEqual(self.with_kit(OTHER, "tools/kit"), (0, f"{OTHER}\n", f"tools/kit: {NOTE_OTHER}\n"))

    def test_crates_that_end_while_they_are_looked_at(self):
        os.makedirs(self.path("kit/release/bin"))
        os.makedirs(self.path("kit/rattle-kept"))
        os.rename(self.path("bin/rt"), self.path("kit/release/bin/rt"))
        os.symlink(self.path("kit/release/bin/rt"), self.path("bin/rt"))
        os.makedirs(self.path("crates/low/src"))
        self.write("crates.txt", b"low:\ndocbin: low\n")
        status, printed, said = self.with_kit(LAST, "build")
        self.assertEqual((status, said), (0, ""), printed)
        self.assertRegex(printed, r" 1 of 2  docbin proved; about \d+ minutes left\n")
        self.assertIn(" 2 of 2  low proved\n", printed)

    def rows_killed(self, times):
        """What ./test says of the rows of a crate whose program is killed so many times, and its last line."""
        os.makedirs(self.path("crates/some_rows/src"))
        for name, data in (("src/main.rt", b""), ("stdin", b"row a\nrow b\n"), ("stdout", b"row a\nrow b\n"), ("killed", b"%d" % times)):
            self.write(f"crates/some_rows/{name}", data)
        self.write("crates.txt", b"docbin:\nsome_rows:\n")
        status, printed, said = self.with_kit(LAST, "test", "--compiled")
        lines = printed.split("\n")
        return status, [it.partition("part 1 of 1: ")[2] for it in lines if "rows of some_rows" in it], lines[-2]

    def test_a_part_that_is_killed_is_run_once_more(self):
        status, of_rows, last = self.rows_killed(1)
        self.assertEqual(of_rows[1:], ["2 passed"])
        self.assertIn("killed, for memory as it seems: once more", of_rows[0])
        self.assertRegex(last, r"^\d+ passed, \d+ failed, \d+ skipped$")

    def test_a_part_that_is_killed_twice_gives_no_answer(self):
        status, of_rows, last = self.rows_killed(2)
        self.assertEqual((status, of_rows[1:]), (1, ["2 without an answer"]))
        self.assertRegex(last, r"^\d+ passed, \d+ failed, \d+ skipped, 2 without an answer$")

    def test_what_a_try_compiled_answers_the_next_command(self):
        self.write("note", b"a text\n")
        status, printed, said = self.with_kit(LAST, "docbin", "text", "note")
        self.assertEqual((status, printed), (0, "a text\n"), said)
        self.assertIn('docbin: "note": a reason, and note: another one\n', said)
        self.assertEqual(self.read("crates/docbin/out/tried"), self.read("system/cat"))
        # (the copy of cat takes the command for a file, too)
        status, printed, said = self.with_kit("", "docbin", "text", "note")
        self.assertEqual((status, printed), (1, "a text\n"))
        self.assertIn("docbin: not built yet: answering without proofs, by what a try has compiled", said)
        self.write("crates/docbin/src/main.rt", b"")
        self.assertEqual(self.with_kit("", "docbin", "text", "note")[0], 70)

    def test_another_program(self):
        os.makedirs(self.path("crates/docview/src"))
        self.write("crates.txt", b"docbin:\ndocview:\n")
        self.write("docview", self.read("docbin").replace(b"docbin", b"docview"))
        os.chmod(self.path("docview"), 0o755)
        self.write("note", b"a text\n")
        status, printed, said = self.with_kit(LAST, "docview", "--hidden", "html", "note")
        self.assertEqual((status, printed), (0, "a text\n"), said)
        self.assertIn("docview: not built yet", said)
        os.unlink(self.path("crates/docview/out/tried"))
        status, printed, said = self.with_kit(LAST, "docview", "none")
        self.assertEqual((status, printed, said), (3, "", "docview: none: no such file\n"))
        self.assertEqual(self.with_kit(LAST, "docview", "--help")[:2], (0, "Hello\n"))

    def test_no_kit(self):
        todo = f"needed is a Rattle kit, best {LAST}: unpack one, put its folder bin into PATH, and begin again\n"
        for words in (("docbin", "text", "hello.doc"), ("build",), ("test",), ("tools/kit",)):
            status, printed, said = self.with_kit("", *words)
            self.assertEqual((status, printed), (70, ""), words)
            self.assertIn("the command rt of the Rattle kit is not there", said)
            self.assertTrue(said.endswith(todo), said)
