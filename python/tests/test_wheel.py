"""Tests of the wheel: its tag, and that pip installs the package into a fresh environment, with nothing fetched."""
import os
import re
import shutil
import subprocess
import sys
import tempfile
import unittest
import zipfile

TOP = os.path.dirname(os.path.dirname(os.path.dirname(os.path.realpath(__file__))))


class Wheel(unittest.TestCase):
    def setUp(self):
        self.folder = tempfile.mkdtemp(prefix="docbin-wheel-")
        self.addCleanup(shutil.rmtree, self.folder, ignore_errors=True)
        shutil.copytree(f"{TOP}/python", f"{self.folder}/python", ignore=shutil.ignore_patterns("*.so", "__pycache__"))

    def wheel(self):
        code = "import sys; sys.path.insert(0, '.'); import build_wheel; print(build_wheel.build_wheel('.'))"
        ran = subprocess.run([sys.executable, "-c", code], cwd=f"{self.folder}/python", stdout=subprocess.PIPE, check=True)
        return ran.stdout.decode().strip()

    def test_a_wheel_with_a_library_is_of_its_platform(self):
        self.assertTrue(self.wheel().endswith("-py3-none-any.whl"))
        with open(f"{self.folder}/python/docbin/libdocbin.so", "wb") as file:
            file.write(b"\x7fELF")
        name = self.wheel()
        self.assertRegex(name, r"-py3-none-(linux|macosx|win)\w+\.whl$")
        with zipfile.ZipFile(f"{self.folder}/python/{name}") as archive:
            self.assertIn("docbin/libdocbin.so", archive.namelist())
            self.assertIn(b"Root-Is-Purelib: false\n", archive.read(next(it for it in archive.namelist() if it.endswith("/WHEEL"))))

    def test_pip_installs_it_into_a_fresh_environment(self):
        if subprocess.run([sys.executable, "-m", "venv", f"{self.folder}/fresh"], stdout=subprocess.DEVNULL, stderr=subprocess.DEVNULL, check=False).returncode:
            self.skipTest("no environment can be made")
        python, env = f"{self.folder}/fresh/bin/python", {name: it for name, it in os.environ.items() if not name.startswith(("PYTHON", "PIP"))}
        ran = subprocess.run([python, "-m", "pip", "--disable-pip-version-check", "install", "--no-index", "-q", f"{self.folder}/python"],
                             env=env, stdout=subprocess.PIPE, stderr=subprocess.STDOUT, check=False)
        self.assertEqual(ran.returncode, 0, ran.stdout.decode())
        code = "import docbin; print(docbin.__version__, docbin.__file__)"
        printed = subprocess.run([python, "-c", code], cwd=self.folder, env=env, stdout=subprocess.PIPE, check=True).stdout.decode()
        self.assertIn("/fresh/", printed)


if __name__ == "__main__":
    unittest.main()
