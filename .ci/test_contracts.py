#!/usr/bin/env python3
"""Shows contracts.py passing a good tree and failing on each kind of breach."""

import unittest

from tree import LINE, LOG, Tree, kept, proved


class Contracts(Tree):
    def test_good(self):
        status, out = self.check()
        self.assertEqual(out, "contracts: 4 functions and 4 files looked at, nothing wrong\n")
        self.assertEqual(status, 0)

    def test_pub_fn_without_ensures(self):
        self.edit("crates/tree/src/lib.rt", "    ensures { result ≡ x + x }\n", "")
        self.assert_breach("crates/tree/src/lib.rt:8: fn twice is open to callers and has no ensures")

    def test_pub_fn_of_a_module_without_ensures(self):
        self.edit("crates/tree/src/inner.rt", "    ensures { result ≡ x + y }\n", "")
        self.assert_breach("crates/tree/src/inner.rt:1: fn sum is open to callers and has no ensures")

    def test_method_without_ensures(self):
        self.edit("crates/tree/src/lib.rt", "ensures { result.n ≡ suc self.n }", "")
        self.assert_breach("crates/tree/src/lib.rt:24: fn next is open to callers and has no ensures")

    def test_export_without_ensures(self):
        self.edit("crates/tree/src/inner.rt", "pub fn", 'extern "C" fn bare(x: u8) {}\npub fn')
        self.assert_breach("crates/tree/src/inner.rt:1: fn bare is open to callers and has no ensures")

    def test_ensures_that_says_nothing(self):
        for clause in (
            "result ≡ result",
            "(result ≡ x + x) × (f  x.n ≡ (f x.n))",
            "⌜ result ≡ x + x ⌝ ∗ ⌜ ◌≡◌ {A = ℕ} (g x) (g x) ⌝",
            "x < 4 → Answer.None ≡ Answer.None",
            "⊤ₛ",
        ):
            with self.subTest(clause):
                self.edit("crates/tree/src/lib.rt", "{ result ≡ x + x }", f"{{ {clause} }}")
                status, out = self.check()
                self.edit("crates/tree/src/lib.rt", f"{{ {clause} }}", "{ result ≡ x + x }")
                self.assertEqual(status, 1, out)
                self.assertIn("crates/tree/src/lib.rt:8: fn twice has an ensures that says nothing: ", out)

    def test_ensures_with_two_like_sides(self):
        for clause in (
            "result.n ≡ result.m",
            'f result "a" ≡ f result "b"',
            "(x ≡ result) × (result ≡ x)",
            "Answer.None ≡ Answer.Some result",
        ):
            with self.subTest(clause):
                self.edit("crates/tree/src/lib.rt", "{ result ≡ x + x }", f"{{ {clause} }}")
                status, out = self.check()
                self.edit("crates/tree/src/lib.rt", f"{{ {clause} }}", "{ result ≡ x + x }")
                self.assertEqual(status, 0, out)

    def test_ensures_of_what_is_handed_in_alone(self):
        self.edit("crates/tree/src/lib.rt", "result ≡ x + x", "x < 4")
        self.assert_breach("crates/tree/src/lib.rt:8: fn twice has an ensures that speaks neither of the result nor of a buffer at exit")

    def test_lent_buffer_that_nothing_is_said_of(self):
        for lent in ("out: &mut [u8]", "mut out: &mut [[u64; 2]; 4]", "out: &'a mut [u8]"):
            with self.subTest(lent):
                self.edit("crates/tree/src/lib.rt", "twice(x: u32)", f"twice(x: u32, {lent})")
                self.assert_breach("crates/tree/src/lib.rt:8: fn twice is lent out, and no ensures speaks of it at exit")
                self.edit("crates/tree/src/lib.rt", f"twice(x: u32, {lent})", "twice(x: u32)")

    def test_lent_buffer_in_a_module(self):
        self.edit("crates/tree/src/inner.rt", "sum(x: u32, y: u32)", "sum(x: u32, y: u32, out: &mut [u8])")
        self.assertEqual(self.check()[0], 0, self.check()[1])
        self.edit("crates/tree/src/lib.rt", "mod inner;", "pub mod inner;")
        self.assert_breach("crates/tree/src/inner.rt:1: fn sum is lent out, and no ensures speaks of it at exit")

    def test_lent_buffer_in_a_module_of_an_open_module(self):
        self.edit("crates/tree/src/inner.rt", "result ≡ x + y", "x ≤ y + y")
        self.write("crates/tree/src/outer.rt", "pub mod inner;\n")
        self.edit("crates/tree/src/lib.rt", "mod inner;", "mod inner;\npub mod outer;")
        self.assert_breach("crates/tree/src/inner.rt:1: fn sum has an ensures that speaks neither of the result nor of a buffer at exit")

    def test_lent_buffer_with_its_length_at_exit(self):
        self.edit("crates/tree/src/lib.rt", "twice(x: u32)", "twice(x: u32, out: &mut [u8])")
        clause = "    ensures long { length out.new ≡ length out.old }\n"
        self.edit("crates/tree/src/lib.rt", "{\n    inner::sum", clause + "{\n    inner::sum")
        self.assertEqual(self.check()[0], 0, self.check()[1])

    def test_pub_fn_in_a_folder_named_target(self):
        self.write("crates/tree/src/target/deep.rt", "pub fn bare() {}\n")
        self.assert_breach("crates/tree/src/target/deep.rt:1: fn bare is open to callers and has no ensures")

    def test_library_that_uses_the_kit(self):
        for kind in ("tree", "tree staticlib"):
            self.write("crates.txt", f"# crates\n{kind}: regex  # reads\nshow: tree regex\n")
            self.assert_breach("crates.txt:2: library tree uses regex, which may assume")

    def test_library_that_names_what_may_assume(self):
        for text, word in (
            ("use std::io::Write;\n", "std"),
            ("fn f() -> u32 { core::rt::x() }\n", "core"),
            ("fn f(rt: HostRuntime) {}\n", "HostRuntime"),
            ("fn f<R: AllocGlobal>(rt: R) {}\n", "AllocGlobal"),
        ):
            with self.subTest(text):
                self.write("crates/tree/src/more.rt", text)
                self.assert_breach(f"crates/tree/src/more.rt:1: a library names {word}, which may assume")

    def test_library_that_cites_the_kit(self):
        self.write("crates/tree/src/more.rt", "// std::io\nghost use Rattle.std.specs.Prelude.{length};\nfn f(core: u32) {}\n")
        self.assertEqual(self.check()[0], 0, self.check()[1])

    def test_axiom(self):
        self.write("crates/tree/specs/More.antt", "\naxiom pub more : ℕ\n")
        self.assert_breach("crates/tree/specs/More.antt:2: an axiom")

    def test_axiom_outside_crates(self):
        self.write("docs/Idea.antt", "axiom more : ℕ\n")
        self.assert_breach("docs/Idea.antt:1: an axiom")

    def test_holes(self):
        self.write("crates/tree/proofs/twice/Answers.antt", "t = f (?)\nu = f ?rest -- ?\n")
        self.assert_breach(
            "crates/tree/proofs/twice/Answers.antt:1: a hole, ?",
            "crates/tree/proofs/twice/Answers.antt:2: a hole, ?rest",
        )

    def test_hole_with_a_candidate(self):
        self.write("crates/tree/proofs/twice/Answers.antt", "s = f { ! }\nt = {! search rules !}\n")
        self.assert_breach("crates/tree/proofs/twice/Answers.antt:2: a hole, !")

    def test_axiom_in_a_folder_named_like_what_is_built(self):
        for folder in ("specs/target", "specs/out", "proofs/crates/tree/out"):
            with self.subTest(folder):
                self.write(f"crates/tree/{folder}/More.antt", "axiom more : ℕ\n")
                self.assert_breach(f"crates/tree/{folder}/More.antt:1: an axiom")
                (self.root / f"crates/tree/{folder}/More.antt").unlink()

    def test_axioms_of_a_static_library(self):
        line = LINE.replace("sum", "axioms=1 target=x86_64-unknown-linux-gnu sum")
        self.say(proved("tree", line))
        self.assert_breach(f"{LOG}:3: library tree rests on axioms: {line}")

    def test_no_axioms_counted(self):
        self.say(proved("tree", LINE.replace("sum", "axioms=0 sum")))
        self.assertEqual(self.check()[0], 0)

    def test_foreign_functions(self):
        line = LINE.replace("sum", "foreign=tree::write sum")
        self.say(proved("tree", line))
        self.assert_breach(f"{LOG}:3: library tree declares foreign functions: {line}")

    def test_words_of_trust(self):
        for word in ("pinned=no", "cache=trusted", "incremental=trusted", "crate-checked=trusted", "batches=trusted"):
            with self.subTest(word):
                self.say(proved("tree", f"{LINE} {word}"))
                self.assert_breach(f"{LOG}:3: library tree rests on what is not of this run and the kit: {LINE} {word}")

    def test_proved_by_an_earlier_run(self):
        self.say(kept("show"), kept("tree"))
        self.assertEqual(self.check()[0], 0, self.check()[1])

    def test_not_proved(self):
        self.say(proved("tree", "logic=not-proved"))
        self.assert_breach(f"{LOG}:3: library tree is not proved: logic=not-proved")

    def test_no_verdict(self):
        what = f"crates/tree/src/lib.rt:1: {LOG} has no verdict on it: run .ci/run first"
        for said in (
            proved("tree2"),
            kept("tree2"),
            proved("tree").replace("rt: tree proved", "rt: tree NOT PROVED"),
            "== tree: its tests\n" + LINE + "\nrt: tree proved\n",
            "== tree\nrt: tree proved\n",
        ):
            with self.subTest(said):
                self.say(said)
                self.assert_breach(what)
        (self.root / LOG).unlink()
        self.assert_breach(what)

    def test_no_library(self):
        (self.root / "crates/tree/src/lib.rt").unlink()
        self.assertEqual(self.check()[0], 1)


if __name__ == "__main__":
    unittest.main()
