"""Tests of tools/try-bodies with a stub in the place of the kit, which says what a check is to have said."""
import os
import shutil

from tool import TOP, Tool

SOURCE = b"pub fn one() -> u8 {\n    1\n}\n\nimpl Guard for Lock {\n    fn may(&self) -> bool {\n        true\n    }\n}\n"
STUB = """#!/bin/sh
case $1 in
  version) cat "$STUB_ROOM/KIT" ;;
  check) shift; echo "$@" > "$STUB_ROOM/asked"; cat src/*.rt > "$STUB_ROOM/tried"; cat "$STUB_ROOM/said"; exit 1 ;;
esac
"""
NO_PROOF = "fn low::one: no proof: expected answers in ./proofs/one/Answers.antt; `search` did not prove `returns`\n"
ERROR = "./proofs/LockGuard/may/Answers.antt:3:1: error: `returns`: `omega` did not prove it\nfn low::LockGuard::may: not proved\n"
END = "only=2 proved=0\n"


class TryBodies(Tool):
    def setUp(self):
        super().setUp()
        for it in ("bin", "tools", "crates/low/src", "crates/low/bodies"):
            os.makedirs(self.path(it))
        for it in ("try-bodies", "bodies.py", "repository.py"):
            shutil.copy(f"{TOP}/tools/{it}", self.path(f"tools/{it}"))
        self.write("KIT", b"rattle-kit-1a logic 0\n")
        self.write("crates.txt", b"low: std_of_kit\n")
        self.write("crates/low/src/lib.rt", SOURCE)
        self.write("crates/low/bodies/one_is_two.edit", b"file: src/lib.rt\nold:     1\nnew:     2\n")
        self.write("crates/low/bodies/nothing_is_allowed.edit", b"file: src/lib.rt\nold:         true\nnew:         false\n")
        self.write("bin/rt", STUB.encode())
        os.chmod(self.path("bin/rt"), 0o755)

    def tried(self, said):
        """The status, and what is printed, where the check says this."""
        self.write("said", said.encode())
        path = os.pathsep.join([self.path("bin"), os.environ["PATH"]])
        status, printed, error = self.run_words([self.path("tools/try-bodies"), "--at-once", "1"], env={**os.environ, "PATH": path, "STUB_ROOM": self.folder})
        return status, printed + error

    def test_each_body_is_refused_by_its_own_line(self):
        status, said = self.tried(NO_PROOF + ERROR + END)
        self.assertEqual((status, said.split("\n")[-2]), (0, "tools/try-bodies: 2 ran, 0 wrong, 0 skipped"), said)
        self.assertIn("low/one_is_two: refused, as it must be: fn low::one: no proof", said)
        self.assertIn("low/nothing_is_allowed: refused, as it must be: ./proofs/LockGuard/may/Answers.antt:3:1: error: `returns`", said)
        self.assertEqual(self.read("tried"), SOURCE.replace(b"    1\n", b"    2\n").replace(b"true", b"false"))
        asked = self.read("asked").decode().split()
        self.assertEqual((asked[0], {asked[2], asked[4]}), ("low", {"one", "LockGuard::may"}))
        self.assertEqual(self.read("crates/low/src/lib.rt"), SOURCE)

    def test_a_body_that_is_proved(self):
        status, said = self.tried(ERROR + END)
        self.assertEqual(status, 1)
        self.assertIn("low/one_is_two: NOT REFUSED", said)
        self.assertIn("2 ran, 1 wrong", said)

    def test_another_function_that_is_not_proved(self):
        status, said = self.tried(NO_PROOF + ERROR + "fn low::three: not proved\n" + END)
        self.assertEqual(status, 1)
        self.assertIn("low: low::three is not proved either", said)

    def test_names_that_are_lost_alone(self):
        lost = "./proofs/LockGuard/may/Answers.antt:3:1: error: `c.first` is not in scope\nfn low::LockGuard::may: not proved\n"
        status, said = self.tried(NO_PROOF + lost + END)
        self.assertEqual(status, 1)
        self.assertIn("low/nothing_is_allowed: BAD: names alone are lost", said)

    def test_two_bodies_of_one_function_are_tried_apart(self):
        self.write("crates/low/bodies/one_is_three.edit", b"file: src/lib.rt\nold:     1\nnew:     3\n")
        status, said = self.tried(NO_PROOF + ERROR + END)
        # (the second check is of the one function, and the stub says of it that another one fails too)
        self.assertEqual((status, said.split("\n")[-2]), (1, "tools/try-bodies: 3 ran, 1 wrong, 0 skipped"), said)
        self.assertEqual(self.read("asked").split()[:3], [b"low", b"--only", b"one"])
        self.assertIn(b"    2\n", self.read("tried"))

    def test_a_check_that_comes_to_no_end(self):
        status, said = self.tried("src/lib.rt:2:5: error: a word is missing\n")
        self.assertEqual(status, 70)
        self.assertIn("no check came to an end", said)

    def test_bodies_over_a_library_that_is_not_kept(self):
        self.write("crates.txt", b"below:\nlow: below\n")
        status, said = self.tried("")
        self.assertEqual((status, said.split("\n")[-2]), (0, "tools/try-bodies: 0 ran, 0 wrong, 2 skipped"))
        self.assertIn("low: 2 skipped: the library below below it is not kept", said)
