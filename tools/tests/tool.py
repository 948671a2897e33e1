"""What the tests of tools share: a folder of their own, the examples, the tools, and the program where it is built."""
import os
import shutil
import subprocess
import tempfile
import unittest

TOP = os.path.dirname(os.path.dirname(os.path.dirname(os.path.realpath(__file__))))
PROGRAM = os.environ.get("DOCBIN", f"{TOP}/crates/docbin/out/docbin")
VIEWER = os.environ.get("DOCVIEW", f"{TOP}/crates/docview/out/docview")
needs_program = unittest.skipUnless(os.access(PROGRAM, os.X_OK), "the program is not built")
needs_viewer = unittest.skipUnless(os.access(VIEWER, os.X_OK), "docview is not built")


class Tool(unittest.TestCase):
    """A test in a new folder, which has the examples."""

    name = ""

    def setUp(self):
        self.folder = tempfile.mkdtemp(prefix="docbin-tools-")
        self.addCleanup(shutil.rmtree, self.folder, ignore_errors=True)
        for it in ("hello.doc", "letter.doc", "letter.json", "blank.doc", "start.doc"):
            shutil.copyfile(f"{TOP}/examples/{it}", self.path(it))

    def path(self, name):
        return os.path.join(self.folder, name)

    def read(self, name):
        with open(self.path(name), "rb") as file:
            return file.read()

    def write(self, name, data):
        with open(self.path(name), "wb") as file:
            file.write(data)

    def run_words(self, words, **how):
        how = {"cwd": self.folder, "stdin": subprocess.DEVNULL, "env": {**os.environ, "DOCBIN": PROGRAM, "DOCVIEW": VIEWER}, **how}
        ran = subprocess.run(words, stdout=subprocess.PIPE, stderr=subprocess.PIPE, timeout=300, check=False, **how)
        return ran.returncode, ran.stdout.decode(errors="replace"), ran.stderr.decode(errors="replace")

    def tool(self, *words, **how):
        """The status of the tool, what it prints, and what it says on standard error."""
        return self.run_words([f"{TOP}/tools/{self.name}", *words], **how)

    def docbin(self, *words):
        return self.run_words([PROGRAM, *words])
