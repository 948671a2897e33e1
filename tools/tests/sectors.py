"""Tests of tools/changed-sectors and tools/scrambled-containers."""
import os

from tool import PROGRAM, Tool, needs_program


class Sectors(Tool):
    name = "changed-sectors"

    def test_a_byte_a_sector_and_one_more(self):
        old = self.read("letter.doc")
        new = bytearray(old) + bytes(512)
        new[600] ^= 1
        new[1025] ^= 1
        self.write("new.doc", new)
        status, printed, said = self.tool("letter.doc", "new.doc")
        self.assertEqual((status, said), (0, ""))
        self.assertEqual(printed, "0 to 1: 1Table: 2 bytes\n21: free, added: 512 bytes\n"
                         "2 bytes in 2 sectors of 11264 bytes changed; 512 bytes added\n")

    def test_what_is_no_compound_file_is_refused(self):
        self.write("text", b"text")
        self.assertEqual(self.tool("letter.doc", "text")[0], 1)
        self.assertEqual(self.tool("letter.doc", "none.doc")[0], 3)
        self.assertEqual(self.tool("letter.doc")[0], 2)


class Scrambled(Tool):
    name = "scrambled-containers"

    @needs_program
    def test_saves_keep_their_sectors(self):
        status, printed, said = self.tool("--saves", "20", "--program", PROGRAM, "--keep", self.path("kept"))
        self.assertEqual((status, said), (0, ""), printed)
        self.assertRegex(printed, r"\d+ saves, 0 wrong\n$")

    @needs_program
    def test_a_program_that_saves_otherwise_is_seen(self):
        self.write("other", b"""#!/usr/bin/env python3
import os, subprocess, sys
status = subprocess.run([os.environ["DOCBIN"], *sys.argv[1:]]).returncode
if sys.argv[1] == "edit" and status == 0:
    with open(sys.argv[4], "r+b") as file:
        file.seek(30)
        file.write(bytes([9, 0, 6, 0, 1]))
sys.exit(status)
""")
        os.chmod(self.path("other"), 0o755)
        status, printed, _ = self.tool("--saves", "5", "--program", self.path("other"), "--keep", self.path("kept"))
        self.assertEqual(status, 1)
        self.assertIn("the file is not the old one with what the save adds", printed)
