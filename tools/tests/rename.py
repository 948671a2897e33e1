"""Tests of tools/rename over two small crates."""
import os

from tool import TOP, Tool

FILES = {
    "crates.txt": "# numbers\nlow: std_of_kit\n# what stands on them\nhigh: low\n",
    "crates/low/src/lib.rt": "//! Numbers.\n#![tactic(auto)]\n\nmod beside;\nmod counts;\nmod kinds;\n\npub use beside::Beside;\npub use counts::{MOST, counted, is_right};\n",
    "crates/low/src/beside.rt": (
        "// What stands there.\nghost use Rattle.low.specs.Beside.{nothing};\n\n/// What stands beside.\npub struct Beside {\n    pub named: u8,\n}\n\nimpl Beside {\n"
        "    /// None, as `nothing`.\n    pub fn none() -> Beside\n        ensures { result ≡ nothing }\n    {\n        Beside { named: 0 }\n    }\n}\n"
    ),
    "crates/low/src/counts.rt": (
        "// Counts.\npub const MOST: u8 = 7;\n\n/// How many.\npub fn counted(named: u8) -> u8\n    ensures { result ≡ named }\n{\n    named\n}\n\n"
        "/// Whether it is.\npub fn is_right(count: u8) -> bool {\n    count <= MOST\n}\n"
    ),
    "crates/low/specs/Lib.antt": "pub mod Beside\n",
    "crates/low/specs/Beside.antt": "use Rattle.low.specs.declared.beside.Beside.{Beside}\n\n-- nothing\nabbrev pub nothing : Beside\nnothing = record { named = 0 }\n",
    "crates/low/proofs/Lib.antt": "pub mod Facts\n",
    "crates/low/proofs/Facts.antt": "use Rattle.std.proofs.Common.{ℕ, ◌≡◌, refl}\n\n-- it is itself\npub same : (n : ℕ) → n ≡ n\nsame n = refl\n",
    "crates/high/src/lib.rt": "//! What stands on them.\n#![tactic(auto)]\n\nmod task;\n",
    "crates/high/src/task.rt": (
        "// Work.\nuse low::{Beside, MOST, counted, is_right};\n\n/// The most.\nconst TWICE: u8 = 2;\n\n/// A word of this file alone.\n#[tactic(auto, using(low::proofs::Facts::same))]\nfn named(beside: &Beside) -> u8 {\n"
        "    let counted_twice = counted(beside.named);\n    if counted_twice > MOST || !is_right(TWICE) {\n        return 0;\n    }\n    named(beside)\n}\n"
    ),
    "crates/high/proofs/Lib.antt": "pub mod Words\n",
    "crates/high/proofs/Words.antt": "use Rattle.std.proofs.Common.{ℕ, ◌≡◌, refl}\n\nagain : (m : ℕ) → m ≡ m\nagain m = refl\n\npub told : (m : ℕ) → m ≡ m\ntold m = (λ k. again k) m\n",
    "crates/high/proofs/task/named/Answers.antt": (
        "use Rattle.high.proofs.task.named.Goals as goal\n\npub returns-then : goal.returns-then\nreturns-then c = c.counted-counted_twice.ensures (c.if-counted_twice-gt-MOST.true) c.args.beside.named\n"
    ),
    "crates/high/bodies/zero_for_all.edit": "file: src/task.rt\nold:     let counted_twice = counted(beside.named);\nnew:     let counted_twice = counted(MOST);\n",
    "crates/low/src/kinds.rt": (
        "// Kinds, and what is found of them.\n\n/// A kind.\npub enum Kind {\n    Settings,\n    Other,\n}\n\n/// One that is reached.\npub fn reached(count: u8) -> Option<u8>\n    ensures told { result ≡ Some count }\n{\n    print(\": reached\\n\");\n    Some(count)\n}\n\n"
        "/// Two steps.\npub fn steps(count: u8) -> Option<u8> {\n    let reached = reached(count)?;\n    let told = told(reached);\n    Some(told)\n}\n\nfn told(count: u8) -> u8 {\n    count\n}\n"
    ),
    "crates/low/proofs/kinds/steps/Answers.antt": (
        "use Rattle.low.specs.declared.kinds.Kind.TheVariants.{Settings, Other}\nuse Rattle.low.proofs.kinds.steps.Goals as goal\n\n"
        "pub told-told-requires : goal.told-told-requires\ntold-told-requires c = is Settings c.in_ok-reached.reached.items c.in_ok-reached.ensures (c.reached.result) (c.told-told.ensures)\n\npub returns-clause-told : goal.returns-clause-told\nreturns-clause-told c = c.in_ok-reached.ensures.told\n\npub steps-requires : goal.steps-requires\nsteps-requires c = record { told = c.told-told.result; reached = c.reached.ensures }\n"
    ),
    "crates/high/proofs/task/named/Invariants.antt": "use Rattle.high.proofs.task.named.Goals as goal\n\npub then-le-MOST-clause : goal.then-le-MOST-clause\nthen-le-MOST-clause c = c.if-gt-MOST.true\n",
    "docs/GUIDE.md": "# Guide\n\nIt prints `FILE: reached`, and has `MOST`.\n",
    "docs/CLAIMS.md": "# Claims\n\n## low\n\n`counted` and `Beside::none` of low; `named` stays, [low](../crates/low/src/beside.rt).\n",
}
MAP = """[crates]
low = base
[modules]
low::beside = anchors
low.specs.Beside = Anchors
[types]
low::beside::Beside = Anchors
[functions]
low::counts::counted = count
high::task::named = task
low::kinds::reached = reach
low::kinds::told = tell
[constants]
low::counts::MOST = MAX
[definitions]
low.specs.Beside.nothing = no_anchors
[words]
is_right = is_valid
low: Settings = Properties
low: MOST = LEAST
[modules]
low.proofs.Facts = Truths
[homes]
low.proofs.Facts.same = high.proofs.Words.again
low::counts::TWICE = high::task::TWICE
[texts]
// What stands there. => // What is anchored there.
"""


class Rename(Tool):
    name = "rename"

    def setUp(self):
        super().setUp()
        for path, text in FILES.items():
            self.put(f"house/{path}", text)

    def put(self, path, text):
        os.makedirs(os.path.dirname(self.path(path)), exist_ok=True)
        self.write(path, text.encode())

    def said(self, names, *words):
        self.put("names.map", names)
        return self.tool("--top", self.path("house"), "--map", self.path("names.map"), *words)

    def has(self, path, *parts):
        text = self.read(f"house/{path}").decode()
        for part in parts:
            self.assertIn(part, text)
        return text

    def test_names_are_changed_where_they_are_seen(self):
        status, printed, said = self.said(MAP, "--write")
        self.assertEqual((status, said), (0, ""), printed)
        self.has("crates.txt", "base: std_of_kit", "high: base")
        self.has("crates/base/src/lib.rt", "mod anchors;", "pub use anchors::Anchors;", "pub use counts::{MAX, TWICE, count, is_valid};")
        self.has("crates/base/src/anchors.rt", "// What is anchored there.", "pub struct Anchors {\n    pub named: u8", "`no_anchors`", "result ≡ no_anchors", "base.specs.Anchors.{no_anchors}")
        self.has("crates/base/specs/Anchors.antt", "use Rattle.base.specs.declared.anchors.Anchors.{Anchors}", "no_anchors = record { named = 0 }")
        text = self.has("crates/high/src/task.rt", "using(base::proofs::Truths::same)", "fn task(beside: &Anchors)", "let counted_twice = count(beside.named);", "counted_twice > MAX", "task(beside)\n", "use base::{Anchors, MAX, TWICE, count, is_valid};")
        self.assertNotIn("const TWICE", text)
        answers = self.has("crates/high/proofs/task/task/Answers.antt", "Rattle.high.proofs.task.task.Goals", "c.count-counted_twice.ensures", "if-counted_twice-gt-MAX", "beside.named")
        self.assertNotIn("MOST", answers)
        self.has("crates/high/bodies/zero_for_all.edit", "old:     let counted_twice = count(beside.named);\nnew:     let counted_twice = count(MAX);\n")
        self.has("docs/CLAIMS.md", "## base", "`count` and `Anchors::none` of base; `named` stays, [base](../crates/base/src/anchors.rt)")

    def test_a_lemma_has_one_home(self):
        self.said(MAP, "--write")
        text = self.has("crates/high/proofs/Words.antt", "use Rattle.base.proofs.Truths.{same}", "told m = (λ k. same k) m")
        self.assertNotIn("again", text)
        self.assertNotIn("refl", text)
        self.has("crates/base/src/counts.rt", "pub const TWICE: u8 = 2;")

    def test_steps_are_called_after_what_has_a_new_name(self):
        """A variable keeps its name where a function of that name gets another, and a constant has its own before that by a word."""
        self.said(MAP, "--write")
        text = self.has("crates/base/proofs/kinds/steps/Answers.antt", "tell-told-requires : goal.tell-told-requires\ntell-told-requires c", "is Properties c.in_ok-reached.reached.items c.in_ok-reached.ensures (c.reach.result)\n    (c.tell-told.ensures)")
        self.assertIn("TheVariants.{Properties, Other}", text)
        self.assertIn("record { told = c.tell-told.result; reached = c.reach.ensures }", text)
        self.assertIn("pub returns-clause-told : goal.returns-clause-told\nreturns-clause-told c = c.in_ok-reached.ensures.told\n", text)
        self.has("crates/base/src/kinds.rt", "    Properties,\n", "ensures told {", "let reached = reach(count)?;", "let told = tell(reached);", '": reached\\n"')
        self.has("crates/high/proofs/task/task/Invariants.antt", "pub then-le-MAX-clause : goal.then-le-MAX-clause\nthen-le-MAX-clause c = c.if-gt-MAX.true")

    def test_what_is_printed_stays(self):
        self.said(MAP, "--write")
        self.has("docs/GUIDE.md", "`FILE: reached`", "`MAX`")

    def test_a_lemma_goes_to_the_kit(self):
        self.put("house/crates/high/proofs/Public.antt", "-- For others.\npub use Rattle.high.proofs.Words.{again, told}\n")
        self.put("house/crates/low/proofs/More.antt", "use Rattle.high.proofs.Public.{again as twice, told}\n\nmore : (n : ℕ) → n ≡ n\nmore n = twice (told n)\n")
        status, printed, said = self.said("[homes]\nstd.proofs.Common.self_is = high.proofs.Words.again\n", "--write")
        self.assertEqual((status, said), (0, ""), printed)
        self.assertNotIn("again", self.has("crates/high/proofs/Words.antt", "use Rattle.std.proofs.Common.{ℕ, ◌≡◌, self_is}", "told m = (λ k. self_is k) m"))
        self.has("crates/high/proofs/Public.antt", "pub use Rattle.high.proofs.Words.{told}\n")
        self.has("crates/low/proofs/More.antt", "use Rattle.high.proofs.Public.{told}\nuse Rattle.std.proofs.Common.{self_is as twice}\n")

    def test_a_lemma_that_needs_another_one_stays(self):
        status, _, said = self.said("[homes]\nlow.proofs.Others.told = high.proofs.Words.told\n", "--write")
        self.assertEqual(status, 1)
        self.assertIn("told needs again, which stays in crates/high/proofs/Words.antt", said)

    def test_a_function_has_one_home_with_its_proofs(self):
        clause = "    ensures { result ≡ all_of values.now }"
        text = f"ghost use Rattle.std.specs.Prelude.{{◌≡◌, all, values}};\nghost use Rattle.low.specs.Beside.{{nothing}};\n\n/// The sum of all.\nfn NAME(values: &[u8]) -> u8\n{clause}\n{{\n    0\n}}\n"
        self.put("house/crates/high/src/sums.rt", text.replace("NAME", "sum_of"))
        self.put("house/crates/high/proofs/sums/sum_of/Answers.antt", "use Rattle.high.proofs.sums.sum_of.Goals as goal\n\npub returns : goal.returns\nreturns c = refl\n")
        status, printed, said = self.said("[homes]\nlow::counts::sum = high::sums::sum_of\n", "--write")
        self.assertEqual((status, said), (0, ""), printed)
        self.has("crates/low/src/counts.rt", "ghost use Rattle.std.specs.Prelude.{◌≡◌, values};", f"pub fn sum(values: &[u8]) -> u8\n{clause}\n")
        self.has("crates/low/proofs/counts/sum/Answers.antt", "use Rattle.low.proofs.counts.sum.Goals as goal")
        self.assertFalse(os.path.exists(self.path("house/crates/high/proofs/sums")))

    def test_what_stands_twice_is_counted(self):
        self.put("house/crates/high/src/more.rt", "// More.\nconst MOST: u8 = 7;\n")
        printed = self.tool("--top", self.path("house"), "--counts", "--names")[1]
        self.assertIn("constants of one name, type and value: 1 of 2 in two crates or more, 1 copies\n    high::more::MOST low::counts::MOST\n", printed)
        self.assertIn("statements of lemmas: 1 of 1 in two crates or more, 1 copies\n    high.proofs.Words.again high.proofs.Words.told low.proofs.Facts.same\n", printed)

    def test_a_crate_goes_into_another_one(self):
        self.put("house/crates/top/src/lib.rt", "//! The top.\n\nuse high::twice;\nuse low::{MOST, counted};\n")
        self.put("house/crates.txt", FILES["crates.txt"] + "top: high low\n")
        self.put("house/crates/low/README.md", "# low\n\nNumbers.\n\n## Choices\n\n- One.\n")
        self.put("house/crates/high/README.md", "# high\n\nWhat stands on low.\n\n## Choices\n\n- Two.\n")
        self.put("house/docs/CLAIMS.md", "# Claims\n\n## low\n\n- A claim, [low](../crates/low/src/beside.rt).\n\n## high\n\n- Another.\n")
        self.put("house/crates/high/src/lib.rt", "//! What stands on them.\n\nmod task;\n\npub use task::twice;\n")
        status, printed, said = self.said("[merges]\nlow = high\n", "--write")
        self.assertEqual((status, said), (0, ""), printed)
        self.assertEqual(self.read("house/crates.txt").decode(), "# what stands on them\nhigh: std_of_kit\ntop: high\n")
        self.has("crates/high/src/lib.rt", "mod beside;\nmod counts;\nmod kinds;\nmod task;\n", "pub use beside::Beside;\npub use counts::{MOST, counted, is_right};\npub use task::twice;\n")
        self.has("crates/high/src/task.rt", "use crate::{Beside, MOST, counted, is_right};", "using(crate::proofs::Facts::same)")
        self.has("crates/high/proofs/Lib.antt", "pub mod Words\npub mod Facts\n")
        self.has("crates/high/specs/Beside.antt", "use Rattle.high.specs.declared.beside.Beside.{Beside}")
        self.has("crates/top/src/lib.rt", "use high::{MOST, counted, twice};\n")
        self.assertEqual(self.read("house/docs/CLAIMS.md").decode(), "# Claims\n\n## high\n\n- A claim, [high](../crates/high/src/beside.rt).\n- Another.\n")
        self.assertEqual(self.read("house/crates/high/README.md").decode(), "# high\n\nWhat stands on high.\n\nNumbers.\n\n## Choices\n\n- Two.\n- One.\n")
        self.assertFalse(os.path.exists(self.path("house/crates/low")))

    def test_a_module_that_both_crates_have(self):
        self.put("house/crates/high/src/counts.rt", "// Counts too.\n")
        status, _, said = self.said("[merges]\nlow = high\n", "--write")
        self.assertEqual(status, 1)
        self.assertIn("crates/low/src/counts.rt is in high too: give one of them another name first", said)

    def test_a_second_run_finds_nothing(self):
        self.said(MAP, "--write")
        before = self.read("house/crates/high/src/task.rt")
        status, printed, _ = self.said(MAP.replace("low = base\n", ""), "--write")
        self.assertEqual(status, 0, printed)
        self.assertIn("low::counts::counted = count: not there", printed)
        self.assertEqual(self.read("house/crates/high/src/task.rt"), before)

    def test_clashes(self):
        for names, why in (
            ("[functions]\nlow::counts::counted = is_right\n", "is_right is there"),
            ("[functions]\nhigh::task::named = counted\n", "task.rt has it already"),
            ("[functions]\nlow::counts::counted = counted_twice\n", "has a value of this name where it is used"),
            ("[definitions]\nlow.specs.Beside.nothing = data\n", "kept for the language"),
            ("[functions]\nlow::counts::counted = count\n[stay]\nlow = counted\n", "the name has to stay"),
            ("[crates]\nlow = high\n", "a crate has this name"),
        ):
            status, _, said = self.said(names, "--check", "--write")
            self.assertEqual(status, 1, names)
            self.assertIn(why, said)
        self.assertEqual(self.read("house/crates/low/src/counts.rt").decode(), FILES["crates/low/src/counts.rt"])

    def test_the_map_of_the_repository_fits(self):
        """Over crates that have none of its names."""
        with open(f"{TOP}/tools/rename.map", encoding="utf8") as file:
            status, printed, said = self.said(file.read(), "--check")
        self.assertEqual((status, said), (0, ""), printed)
        self.assertIn("tools/rename: 0 names", printed)
