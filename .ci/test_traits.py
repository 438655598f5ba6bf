#!/usr/bin/env python3
"""Shows contracts.py holding traits, their impls and types with ghost fields to what functions are held to."""

import unittest

from tree import Tree

TRAIT = """pub trait Visitor<T: Fn(u8) -> u8> {
    ghost State: { Type 0 };

    ghost Kept: { Self → Self → Type 0 } = { λ _ _. ⊤ };

    fn leaf(&mut self, at: usize)
        requires { at < 4 }
        ensures { Self.Kept self.old self.new };
}

pub struct Skip<'a> {
    s: &'a [u8],
}

impl Visitor for Skip<'_> {
    ghost State = { ℕ };

    fn leaf(&mut self, at: usize) {}
}
"""
MADE = """pub enum Answer { No, Yes }

impl From<Answer> for u32 {
    ghost from_gives = { λ answer number. number ≡ number_of answer };

    fn from(answer: Answer) -> u32 { 1 }
}

impl Add for Answer {
    type Output = Answer;

    ghost can_add = { λ a b. a ≡ b };

    ghost add_gives = { λ a b r. r ≡ sum a b };

    fn add(self, b: Answer) -> Answer { b }
}
"""
SHEET = """#[derive(Clone, Copy)]
pub struct Sheet<'a, F: Fn(u8) -> u8> {
    pub bytes: &'a [u8],
    ghost room: { Room bytes.now 4 },
}

pub fn at(s: &Sheet) -> u8
    ensures { result ≡ first s.now }
{
    s.bytes[0]
}
"""


class Traits(Tree):
    def with_file(self, text, *lines):
        """A file beside the others, and lines of the root file that hand it on."""
        self.write("crates/tree/src/more.rt", text)
        self.edit("crates/tree/src/lib.rt", "mod inner;", "\n".join(["mod inner;", "pub mod more;", *lines]))

    def assert_good(self, seen):
        status, out = self.check()
        self.assertEqual(out, f"contracts: {seen} functions and 5 files looked at, nothing wrong\n")
        self.assertEqual(status, 0)

    def assert_edits(self, *edits):
        """Each edit of the file is a breach, which the check tells at a line of it, and nothing else is wrong."""
        text = (self.root / "crates/tree/src/more.rt").read_text(encoding="utf-8")
        for old, new, *lines in edits:
            with self.subTest(new):
                self.edit("crates/tree/src/more.rt", old, new)
                self.assert_breach(*(f"crates/tree/src/more.rt:{line}" for line in lines))
                self.write("crates/tree/src/more.rt", text)

    def test_trait(self):
        self.with_file(TRAIT)
        self.assert_good(6)
        clause = "\n        ensures { Self.Kept self.old self.new };"
        self.assert_edits(
            (clause, ";", "6: fn leaf is open to callers and has no ensures"),
            ("Self.Kept self.old self.new", "Unit", "6: fn leaf has an ensures that says nothing: Unit", "6: fn leaf is lent self, and no ensures speaks of it at exit"),
            ("self.new }", "self.old }", "6: fn leaf has an ensures that speaks neither of the result nor of a buffer at exit",
             "6: fn leaf is lent self, and no ensures speaks of it at exit"),
        )
        self.edit("crates/tree/src/more.rt", clause, ";")
        self.edit("crates/tree/src/more.rt", "pub trait", "trait")
        self.assert_good(5)

    def test_trait_at_the_boundary(self):
        for line in ("pub use more::Visitor;", "use more::Visitor;\npub fn walk<V: Visitor>(v: V) -> u8\n    ensures { result ≡ 1 }\n{ 1 }"):
            with self.subTest(line):
                self.with_file(TRAIT, line)
                self.assert_breach("crates/tree/src/more.rt:6: fn leaf is at the outer boundary and has a requires")
                self.edit("crates/tree/src/lib.rt", "\npub mod more;\n" + line, "")

    def test_impl_at_the_boundary(self):
        self.with_file(TRAIT, "pub use more::Skip;")
        self.assert_breach("crates/tree/src/more.rt:18: fn leaf is at the outer boundary and has a requires")

    def test_impl_of_a_trait_of_another_crate(self):
        self.write("crates/low/src/lib.rt", "pub mod visit;\n")
        self.write("crates/low/src/visit.rt", TRAIT[: TRAIT.index("pub struct")])
        self.write("crates.txt", "low:\ntree: low\nshow: tree regex\n")
        log = (self.root / "target/log/ci").read_text(encoding="utf-8")
        self.write("target/log/ci", log.replace("== tree", "== low").replace("tree proved", "low proved") + log)
        self.with_file("use low::visit::Visitor;\n" + TRAIT[TRAIT.index("pub struct") :])
        self.assertEqual(self.check()[0], 0, self.check()[1])
        self.edit("crates/tree/src/more.rt", "use low::visit::Visitor;", "use std::ops::Visitor;")
        self.assert_breach(
            "crates/tree/src/more.rt:9: fn leaf is open to callers and has no ensures",
            "crates/tree/src/more.rt:1: a library names std, which may assume",
        )

    def test_impl_of_a_trait_of_the_kit(self):
        self.with_file(MADE)
        self.assert_good(6)
        told = "    ghost from_gives = { λ answer number. number ≡ number_of answer };\n"
        at = "{}: fn from has a member that"
        self.assert_edits(
            (told, "", "5: fn from is open to callers and has no ensures"),
            (told, "    ghost from_gives = { λ _ _. ⊤ };\n", at.format(6) + " says nothing: ⊤"),
            (told, "    ghost from_gives: { u32 → Type 0 } = { λ (a : Answer) (n : ℕ). n ≡ n };\n", at.format(6) + " says nothing: n ≡ n"),
            (told, "    ghost from_gives = { λ answer number. number_of answer ≡ 4 };\n", at.format(6) + " does not speak of the result"),
            (told, "    ghost from_gives = { λ answer. λ number. number_of answer ≡ 4 };\n", at.format(6) + " does not speak of the result"),
            (told, "    ghost use Rattle.tree.specs.Spec.{from_gives};\n", "6: fn from is open to callers and has no ensures"),
            ("add_gives", "add_gave", "16: fn add is open to callers and has no ensures"),
        )
        self.edit("crates/tree/src/more.rt", "{ λ answer number. number ≡ number_of answer }", "{ numbered }")
        self.assert_good(6)

    def test_member_that_asks_at_the_boundary(self):
        self.with_file(MADE, "pub use more::Answer;")
        self.assert_breach("crates/tree/src/more.rt:16: fn add is at the outer boundary and has a requires")
        self.edit("crates/tree/src/more.rt", "    ghost can_add = { λ a b. a ≡ b };\n", "")
        self.assert_good(6)

    def test_ghost_field_at_the_boundary(self):
        self.with_file(SHEET)
        self.assert_good(5)
        field = "crates/tree/src/more.rt:4: type Sheet is at the outer boundary and has a ghost field, room"
        for line in ("pub use more::at;", "pub use more::Sheet;", "pub use more::*;"):
            with self.subTest(line):
                self.edit("crates/tree/src/lib.rt", "pub mod more;", "pub mod more;\n" + line)
                self.assert_breach(field)
                self.edit("crates/tree/src/lib.rt", "\n" + line, "")

    def test_closure(self):
        head = "pub fn any<F: Fn(usize) -> bool>(n: usize, test: F) -> bool\n    requires { (i : ℕ) → i < n → F.pre test i }\n"
        self.with_file(head + "    ensures { IsAny (F.post test) n result }\n{\n    test(n)\n}\n")
        self.assert_good(5)
        self.assert_edits(("result }", "n }", "1: fn any has an ensures that speaks neither of the result nor of a buffer at exit"))
        self.edit("crates/tree/src/lib.rt", "pub mod more;", "pub mod more;\npub use more::any;")
        self.assert_breach("crates/tree/src/more.rt:1: fn any is at the outer boundary and has a requires")


if __name__ == "__main__":
    unittest.main()
