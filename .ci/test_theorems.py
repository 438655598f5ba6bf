#!/usr/bin/env python3
"""Shows theorems.py passing a good crate and failing where the theorems are not all there."""

import pathlib
import tempfile
import unittest

import promises
import theorems
from tree import LOG, kept, proved

SPECS = "crates/laws/specs"
DEMANDS = """use Rattle.std.specs.Prelude.{ℕ}

-- What is promised.
pub record Theorems : Type 0 where
  pub one : ℕ
"""
ALL = """-- theorems : Theorems
use Rattle.laws.specs.Demands.{Other, Theorems}

pub theorems : Theorems
theorems =
    record {
      one = 1;
    }
"""
RUN = """module _ (s : Sheet) where
  -- What is promised of a run.
  pub record Demand3 (stages : List Stage)
      : Type 0 where
    pub strings : SameStrings s.rules
    -- Of each stage.
    pub shape : (t : Stage) → Memᴰ t stages
        → Shaped t

  abbrev pub other : ℕ
  other = 0
"""
KEPT = """pub record Kept (bs : List ℕ) : Type 0 where
  pub before after : Sheet
pub record KeptRust : Type 0 where
  pub kept : Kept
pub record BoughtRust : Type 0 where
  pub everywhere : o.number ≡ 0 → Kept
pub record BoughtTextbook : Type 0 where
  pub everywhere : o.number ≡ 0 → Kept
pub record EveryCall (bs : List ℕ) : Type 0 where
  pub row : Row bs
  pub other_units : Lent bs → (s : Sheet) → read bs ≡ sheet s → (s.kind ≡ parser → ⊥) → same bs ≡ bs

pub record Lent (bs : List ℕ) : Type 0 where
  pub long : 4 ≤ length bs
"""
HANDED = """pub record Handed : Type 0 where
  pub means : EveryCall
pub record HandedOver : Type 0 where
  pub handed : Handed
"""
ENDS = """
abbrev pub Ends : Sheet → Type 0
Ends s = (valid s ≡ true) × Ended s

pub record Theorems : Type 0 where
  pub one : ℕ
  pub runs : (s : Sheet) → Ends s → Demand3 s
"""
CASES = """  pub a_run : (s : Sheet) × (stages : List Stage) × Ends s × (t : Stage)
      × Memᴰ t stages
  pub bytes : (bs : List ℕ) × Lent bs × (s : Sheet) × (read bs ≡ sheet s) × (s.kind ≡ parser → ⊥)
      × ((outcome limits c bs result trail work).number ≡ 0)
"""


class Crate(unittest.TestCase):
    """The crate `laws` with two modules, good at first; each test spoils one thing."""

    def setUp(self):
        folder = tempfile.TemporaryDirectory(prefix="theorems-")
        self.addCleanup(folder.cleanup)
        self.root = pathlib.Path(folder.name)
        self.write("Lib.antt", "pub mod Demands\npub mod Proved\n")
        self.write("Demands.antt", DEMANDS)
        self.write("Proved.antt", "-- The proof.\npub mod All\n")
        self.write("Proved/All.antt", ALL)
        self.write("Demands/Run.antt", RUN)
        self.write("Demands/Kept.antt", KEPT)
        self.log(proved("laws"))
        self.promise("crates/laws/specs/Demands/Theorems.antt", DEMANDS)
        self.promise("crates/pass/specs/Handed.antt", HANDED)
        self.store()

    def promise(self, name, text):
        file = self.root / name
        file.parent.mkdir(parents=True, exist_ok=True)
        file.write_text(text, encoding="utf-8")

    def store(self):
        (self.root / ".ci").mkdir(exist_ok=True)
        (self.root / theorems.LIST).write_text("# A list.\n\n" + "\n".join(promises.listed(self.root)) + "\n", encoding="utf-8")

    def change(self, name, old, new):
        file = self.root / name
        text = file.read_text(encoding="utf-8")
        self.assertIn(old, text)
        file.write_text(text.replace(old, new), encoding="utf-8")

    def write(self, name, text):
        file = self.root / SPECS / name
        file.parent.mkdir(parents=True, exist_ok=True)
        file.write_text(text, encoding="utf-8")

    def log(self, text):
        file = self.root / LOG
        file.parent.mkdir(parents=True, exist_ok=True)
        file.write_text(text, encoding="utf-8")

    def refused(self, *expected):
        found = list(theorems.breaches(self.root))
        self.assertEqual(len(found), len(expected), found)
        for line, part in zip(found, expected):
            self.assertIn(part, line)

    def test_good(self):
        self.refused()

    def test_record_below_demands(self):
        self.write("Demands.antt", "pub mod All\n")
        self.write("Demands/All.antt", DEMANDS)
        self.write("Proved/All.antt", ALL.replace("Demands.{", "Demands.All.{"))
        self.refused()

    def test_proof_not_there(self):
        (self.root / SPECS / "Proved/All.antt").unlink()
        self.refused("no module that is reached")

    def test_proof_not_reached(self):
        self.write("Proved.antt", "-- pub mod All\n")
        self.refused("no module that is reached")

    def test_no_body(self):
        self.write("Proved/All.antt", ALL[: ALL.index("theorems =")])
        self.refused("no module that is reached")

    def test_empty_body(self):
        self.write("Proved/All.antt", ALL[: ALL.index("\n    record")] + "\n")
        self.refused("no module that is reached")

    def test_in_a_comment(self):
        self.write("Proved/All.antt", ALL.replace("pub theorems", "{-\npub theorems") + "-}\n")
        self.refused("no module that is reached")

    def test_from_a_premise(self):
        inner = "module _ (t : Theorems) where\n  pub theorems : Theorems\n  theorems = t\n"
        self.write("Proved/All.antt", ALL[: ALL.index("pub theorems")] + inner)
        self.refused("no module that is reached")

    def test_of_a_function(self):
        self.write("Proved/All.antt", ALL.replace(": Theorems\n", ": Theorems → Theorems\n"))
        self.refused("no module that is reached")

    def test_another_record(self):
        self.write("Proved.antt", "pub mod All\npub mod Demands\n")
        self.write("Proved/Demands.antt", DEMANDS)
        self.write("Proved/All.antt", ALL.replace("specs.Demands", "specs.Proved.Demands"))
        self.refused("is declared in", "is not the record")

    def test_a_record_of_its_own(self):
        self.write("Proved/All.antt", ALL + "\nabbrev Theorems : Type 0\nTheorems = Unit\n")
        self.refused("is not the record")

    def test_another_name(self):
        self.write("Proved/All.antt", ALL.replace("Other, Theorems", "Other as Theorems"))
        self.refused("is not the record")

    def test_no_record(self):
        self.write("Demands.antt", DEMANDS.replace("record Theorems", "record Others"))
        self.refused("is declared in no module", "is not the record")

    def test_record_without_fields(self):
        self.write("Demands.antt", DEMANDS[: DEMANDS.index("  pub one")])
        self.refused("is declared in no module", "is not the record")

    def test_not_proved(self):
        self.log(proved("laws", "logic=not-proved"))
        self.refused("laws is not proved")

    def test_proved_by_an_earlier_run(self):
        self.log(kept("laws"))
        self.refused()

    def test_no_verdict(self):
        self.log(kept("law"))
        self.refused("no verdict")
        (self.root / LOG).unlink()
        self.refused("no verdict")

    def test_list(self):
        self.assertEqual(
            promises.listed(self.root)[:5],
            [
                "Theorems, crates/laws/specs/Demands/Theorems.antt",
                "  one : ℕ",
                "Demand3, crates/laws/specs/Demands/Run.antt",
                "  strings : SameStrings s.rules",
                "  shape : Memᴰ t stages → Shaped t",
            ],
        )
        self.assertIn("  before : Sheet", promises.listed(self.root))
        self.assertIn("  after : Sheet", promises.listed(self.root))

    def test_a_field_that_has_gone(self):
        self.change("crates/laws/specs/Demands/Run.antt", "    pub strings : SameStrings s.rules\n", "")
        self.refused("-   strings : SameStrings s.rules", "--write")

    def test_a_field_that_is_new(self):
        self.change("crates/pass/specs/Handed.antt", "  pub means", "  pub is : answer\n  pub means")
        self.refused("+   is : answer", "--write")
        self.store()
        self.refused()

    def test_a_field_that_says_something_else(self):
        for old, new in (("Shaped t", "Unit"), ("Memᴰ t stages\n", "t ≡ t\n"), ("SameStrings s.rules", "SameStrings []")):
            with self.subTest(new):
                self.change("crates/laws/specs/Demands/Run.antt", old, new)
                found = list(theorems.breaches(self.root))
                self.change("crates/laws/specs/Demands/Run.antt", new, old)
                self.assertEqual([line[0] for line in found if line[0] in "+-"], ["-", "+"], found)

    def test_a_record_that_has_gone(self):
        self.change("crates/laws/specs/Demands/Kept.antt", "record Kept ", "record Held ")
        self.refused("-   before : Sheet", "-   after : Sheet", "--write")

    def test_suppositions(self):
        for old, new, expected in (
            ("Ends s = (valid", "Ends s = ⊥ × (valid", "Theorems.runs supposes what cannot be: Ends s"),
            ("(valid s ≡ true)", "(true ≡ false)", "Theorems.runs supposes what cannot be: Ends s"),
            ("(s : Sheet) → Ends s", "(s : Sheet) → ⊥ → Ends s", "Theorems.runs supposes what cannot be: ⊥"),
            ("× Ended s", "× Never s\n\nabbrev pub Never : Sheet → Type 0\nNever s = length s < 0", "cannot be: Ends s"),
        ):
            with self.subTest(new):
                self.promise("crates/laws/specs/Demands/Theorems.antt", ENDS.replace(old, new))
                self.write("Demands.antt", "pub mod Theorems\npub mod Run\npub mod Kept\n")
                self.write("Proved/All.antt", ALL.replace("Demands.{", "Demands.Theorems.{"))
                self.store()
                self.refused(expected)

    def test_suppositions_that_can_be(self):
        self.promise("crates/laws/specs/Demands/Theorems.antt", ENDS)
        self.write("Demands.antt", "pub mod Theorems\npub mod Run\npub mod Kept\n")
        self.write("Proved/All.antt", ALL.replace("Demands.{", "Demands.Theorems.{"))
        self.store()
        self.refused()

    def test_a_record_that_cannot_be(self):
        self.change("crates/laws/specs/Demands/Kept.antt", "4 ≤ length bs", "⊥")
        self.write("Demands.antt", DEMANDS + "pub mod Kept\n")
        self.refused("EveryCall.other_units supposes what cannot be: Lent bs")

    def add_cases(self, cases):
        self.promise("crates/laws/specs/Demands/Theorems.antt", ENDS)
        self.write("Demands.antt", "pub mod Theorems\npub mod Run\npub mod Kept\npub mod Met\n")
        self.write("Demands/Met.antt", f"pub record Met : Type 0 where\n{cases}")
        proof = ALL.replace("Demands.{", "Demands.Theorems.{") + "\npub met : Met\nmet = record { all = cases }\n"
        self.write("Proved/All.antt", proof)
        self.store()

    def test_cases(self):
        self.add_cases(CASES)
        self.refused()

    def test_a_supposition_without_a_case(self):
        self.add_cases(CASES.replace(" × Ends s", ""))
        self.refused("Theorems.runs supposes what Met has no case of: Ends s")

    def test_cases_not_proved(self):
        self.add_cases(CASES)
        self.change(f"{SPECS}/Proved/All.antt", "met = record", "other = record")
        self.refused("met : Met is proved in no module that is reached")


if __name__ == "__main__":
    unittest.main()
