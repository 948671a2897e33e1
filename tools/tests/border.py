"""Tests of tools/border over three small crates."""
import os

from tool import Tool

FILES = {
    "crates.txt": "# numbers\nlow:\nmiddle: low\nhigh: middle low\n",
    "crates/low/src/laws.rt": "ghost use Rattle.low.specs.Laws.{SameIsSame};\n\n/// It is itself.\npub fn same_is_same()\n    ensures { SameIsSame }\n{}\n",
    "crates/low/specs/Lib.antt": "pub mod Laws\n",
    "crates/low/specs/Laws.antt": "-- it is itself\nabbrev pub SameIsSame : Type 0\nSameIsSame = (n : ℕ) → n ≡ n\n",
    "crates/low/proofs/Lib.antt": "pub mod Facts\nmod Others\n",
    "crates/low/proofs/Facts.antt": "-- Equal numbers.\npub same : (n : ℕ) → n ≡ n\nsame n = refl\n\npub own : (n : ℕ) → n ≡ n\nown n = same n\n",
    "crates/low/proofs/Others.antt": "use Rattle.low.proofs.Facts.{same}\n\npub other : (n : ℕ) → n ≡ n\nother n = same n\n",
    "crates/middle/src/lib.rt": "//! What stands on it.\n",
    "crates/middle/proofs/Lib.antt": "pub mod Words\n",
    "crates/middle/proofs/Words.antt": "-- Words.\npub use Rattle.low.proofs.Facts.{same}\n\npub told : (m : ℕ) → m ≡ m\ntold m = same m\n",
    "crates/high/src/lib.rt": "//! What stands on both.\n",
    "crates/high/proofs/Lib.antt": "pub mod Uses\n",
    "crates/high/proofs/Uses.antt": (
        "use Rattle.middle.proofs.Words.{same as itself, told}  -- words\nuse Rattle.high.proofs.Own.{mine}\nuse Rattle.low.proofs.Others.{other}\n\n"
        "used : (m : ℕ) → m ≡ m\nused m = itself (told (other m))\n"
    ),
}


class Border(Tool):
    name = "border"

    def setUp(self):
        super().setUp()
        for path, text in FILES.items():
            self.put(path, text)

    def put(self, path, text):
        os.makedirs(os.path.dirname(self.path(f"house/{path}")), exist_ok=True)
        self.write(f"house/{path}", text.encode())

    def text(self, path):
        return self.read(f"house/{path}").decode()

    def said(self, *words):
        return self.tool("--top", self.path("house"), *words)

    def test_what_is_past_a_border(self):
        status, printed, said = self.said("--check")
        self.assertEqual((status, printed), (1, ""))
        self.assertIn("crates/high/proofs/Uses.antt:1: told of middle.proofs.Words is past the border of middle\n", said)
        self.assertIn("crates/middle/proofs/Words.antt:2: same of low.proofs.Facts is past the border of low\n", said)

    def test_what_is_cited_is_handed_on(self):
        self.assertEqual(self.said("--write")[::2], (0, ""))
        self.assertEqual(self.said("--check"), (0, "", ""))
        head = "-- What other crates may cite of these proofs.\n\n"
        others = "pub use Rattle.low.proofs.Others.{other}\n"
        self.assertEqual(self.text("crates/low/proofs/Public.antt"), f"{head}-- Equal numbers.\npub use Rattle.low.proofs.Facts.{{same}}\n{others}")
        self.assertEqual(self.text("crates/low/proofs/Lib.antt"), "pub mod Public\nmod Facts\nmod Others\n")
        self.assertIn("\npub use Rattle.low.proofs.Public.{same}\n\npub told", self.text("crates/middle/proofs/Words.antt"))
        self.assertEqual(self.text("crates/high/proofs/Lib.antt"), "mod Uses\n")
        uses = "use Rattle.low.proofs.Public.{same as itself, other}\nuse Rattle.middle.proofs.Public.{told}\nuse Rattle.high.proofs.Own.{mine}\n\nused"
        self.assertTrue(self.text("crates/high/proofs/Uses.antt").startswith(uses))

    def test_what_nobody_cites_any_more_goes(self):
        self.said("--write")
        self.put("crates/high/proofs/Uses.antt", "use Rattle.low.proofs.Public.{same}\n\nused : (m : ℕ) → m ≡ m\nused m = same m\n")
        self.assertIn("crates/middle/proofs/Public.antt is not as tools/border --write makes it", self.said("--check")[2])
        self.said("--write")
        self.assertEqual(self.said("--check"), (0, "", ""))
        self.assertFalse(os.path.exists(self.path("house/crates/middle/proofs/Public.antt")))
        self.assertEqual(self.said()[1], "low: 1 names, cited by 2 crates\n")

    def test_what_cannot_be_handed_on(self):
        for text, why in (
            ("use Rattle.low.proofs.Facts.{nothing}\n", "nothing of low.proofs.Facts is nothing that can be handed on"),
            ("use Rattle.high.proofs.Uses.{used}\n", "is proved in high, which the line of middle in crates.txt lacks"),
        ):
            self.put("crates/middle/proofs/Words.antt", text)
            status, _, said = self.said("--write")
            self.assertEqual(status, 1)
            self.assertIn(why, said)
        self.assertEqual(self.text("crates/low/proofs/Lib.antt"), FILES["crates/low/proofs/Lib.antt"])

    def test_counts(self):
        self.assertEqual(self.said("--counts")[1].split("\n")[:2], ["public definitions of lemma files: 4, of which other crates cite 3, 4 times in 2 files", "citations past a border: 4"])
        self.assertIn("laws: 1, of which 0 state what other crates take up", self.said("--counts")[1])
