"""Tests of tools/facts."""
import os
import shutil

from tool import TOP, Tool


class Facts(Tool):
    def setUp(self):
        super().setUp()
        os.makedirs(self.path("repository/docs"))
        os.mkdir(self.path("repository/tools"))
        os.makedirs(self.path("repository/crates/some/src"))
        for it in ("facts", "repository.py"):
            shutil.copy(f"{TOP}/tools/{it}", self.path(f"repository/tools/{it}"))
        self.write("repository/crates/some/src/lib.rt", b"pub fn answer() -> u32\n    ensures value { result \xe2\x89\xa1 42 }\n{\n    42\n}\n")
        self.page("`answer` (`value`) takes `--long` of `tools/answer --long`, at most 7,143,936 bytes, by rule 12.\n")
        self.write("repository/docs/RUN.md", b"# Run\n\n## Statuses\n\n| status | comes |\n|---|---|\n| 0 | always |\n| 13 | never |\n")

    def page(self, text):
        self.write("repository/README.md", text.encode())

    def facts(self, *words):
        return self.run_words([self.path("repository/tools/facts"), *words])

    def test_facts_are_listed_by_kind(self):
        status, printed, _ = self.facts()
        self.assertEqual(status, 0)
        for line in ("function\tanswer\tREADME.md", "clause\tvalue\tREADME.md", "option\t--long\tREADME.md", "number\t7,143,936\tREADME.md",
                     "rule named\t12\tREADME.md", "file\ttools/answer\tREADME.md", "status\tRUN 13\tdocs/RUN.md"):
            self.assertIn(line, printed.split("\n"))

    def test_what_is_gone_is_named(self):
        self.write("before", self.facts()[1].encode())
        self.assertEqual(self.facts("--gone", self.path("before"))[:2], (0, ""))
        self.page("`answer` (`value`) takes `--long` of `tools/answer --long`, by rule 12.\n")
        status, printed, said = self.facts("--gone", self.path("before"))
        self.assertEqual((status, printed), (1, "number\t7,143,936\tREADME.md\n"))
        self.assertIn("1 gone", said)

    def test_words_and_wide_lines_are_counted(self):
        self.page("one two\n" + "x" * 121 + "\n| " + "x" * 121 + " |\n")
        self.assertIn("      6 words     1 wide lines  README.md\n", self.facts("--counts")[1])
