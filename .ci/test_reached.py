#!/usr/bin/env python3
"""Shows contracts.py failing on each `requires` at the outer boundary, by whatever way callers reach it."""

import unittest

from tree import Tree, proved


DEEP = """pub struct Sum { pub n: u32 }

impl Sum {
    pub fn more(self, y: u32) -> Sum
        requires { y < 4 }
        ensures { result.n ≡ self.n + y }
    {
        Sum { n: self.n + y }
    }
}

pub fn half(x: u32) -> u32
    requires { x % 2 ≡ 0 }
    ensures { result + result ≡ x }
{
    x / 2
}
"""
HALF = "crates/low/src/deep.rt:12: fn half is at the outer boundary and has a requires"
MORE = "crates/low/src/deep.rt:4: fn more is at the outer boundary and has a requires"


class Reached(Tree):
    def root_with(self, *lines):
        self.edit("crates/tree/src/lib.rt", "mod inner;", "\n".join(["mod inner;", *lines]))

    def restore(self, *lines):
        self.edit("crates/tree/src/lib.rt", "\n".join(["mod inner;", *lines]), "mod inner;")

    def add_low(self):
        """A library below, whose open module has a function and a method with a `requires`."""
        self.write("crates/low/src/lib.rt", "pub mod deep;\npub mod names;\n")
        self.write("crates/low/src/deep.rt", DEEP)
        self.write("crates/low/src/names.rt", "pub use crate::deep::half as part;\npub use crate::deep::*;\n")
        self.write("crates.txt", "low:\ntree: low\nshow: tree regex\n")
        self.say(proved("low"), proved("tree"))

    def test_requires_in_the_root_file(self):
        old = "    ensures { result ≡ x + x }\n"
        self.edit("crates/tree/src/lib.rt", old, "    requires small { x < 9 }\n" + old)
        self.assert_breach(
            "crates/tree/src/lib.rt:8: fn twice is at the outer boundary and has a requires"
        )

    def test_requires_behind_the_ensures(self):
        self.edit("crates/tree/src/lib.rt", "{\n    [b'}'", "    requires { x < 9 }\n{\n    [b'}'")
        self.assert_breach(
            "crates/tree/src/lib.rt:15: fn tree_at is at the outer boundary and has a requires"
        )

    def test_requires_of_an_export_in_a_module(self):
        self.edit("crates/tree/src/inner.rt", "pub fn", 'pub extern "C" fn')
        self.assert_breach(
            "crates/tree/src/inner.rt:1: fn sum is at the outer boundary and has a requires"
        )

    def test_requires_of_a_function_handed_on(self):
        self.edit("crates/tree/src/lib.rt", "mod inner;", "mod inner;\npub use inner::sum;")
        self.assert_breach(
            "crates/tree/src/inner.rt:1: fn sum is at the outer boundary and has a requires"
        )

    def test_requires_handed_on_in_other_ways(self):
        for line in (
            "pub use inner::sum as add;",
            "pub use inner::*;",
            "pub use crate::{inner::{sum as add}, other};",
            "pub use crate::{other, inner::{self as all, *}};",
        ):
            with self.subTest(line):
                self.edit("crates/tree/src/lib.rt", "mod inner;", f"mod inner;\n{line}")
                self.assert_breach("crates/tree/src/inner.rt:1: fn sum is at the outer boundary and has a requires")
                self.edit("crates/tree/src/lib.rt", f"mod inner;\n{line}", "mod inner;")

    def test_requires_handed_on_twice(self):
        for first, second in (
            ("pub use crate::inner::sum as add;", "pub use between::add as plus;"),
            ("pub use crate::inner::*;", "pub use between::*;"),
            ("pub use crate::inner::sum as add;", "pub use between::*;"),
        ):
            with self.subTest(f"{first} {second}"):
                self.write("crates/tree/src/between.rt", first + "\n")
                self.edit("crates/tree/src/lib.rt", "mod inner;", f"mod inner;\nmod between;\n{second}")
                self.assert_breach("crates/tree/src/inner.rt:1: fn sum is at the outer boundary and has a requires")
                self.edit("crates/tree/src/lib.rt", f"mod inner;\nmod between;\n{second}", "mod inner;")

    def test_requires_of_a_generic_type_s_method(self):
        for head in ("impl<T> Sum<T>", "impl<const N: usize> crate::sum::Sum<[u8; N]>", "impl<T> Adds<T> for Sum<T>"):
            with self.subTest(head):
                method = "pub fn add(self) -> T\n    requires { y < 4 }\n    ensures { result ≡ self.n }\n{ self.n }\n"
                self.write("crates/tree/src/sum.rt", f"pub struct Sum<T> {{ n: T }}\n\n{head} {{\n{method}}}\n")
                self.edit("crates/tree/src/lib.rt", "mod inner;", "mod inner;\nmod sum;\npub use sum::Sum;")
                self.assert_breach("crates/tree/src/sum.rt:4: fn add is at the outer boundary and has a requires")
                self.edit("crates/tree/src/lib.rt", "\nmod sum;\npub use sum::Sum;", "")

    def test_requires_of_a_method_handed_on(self):
        method = "pub fn add(self, y: u32) -> Sum\n    requires { y < 4 }\n    ensures { result.n ≡ y }\n{ self }\n"
        self.write("crates/tree/src/sum.rt", f"struct Sum {{ n: u32 }}\n\nimpl Sum {{\n{method}}}\n")
        self.edit("crates/tree/src/lib.rt", "mod inner;", "mod inner;\nmod sum;")
        self.assertEqual(self.check()[0], 0)
        self.edit("crates/tree/src/lib.rt", "mod sum;", "mod sum;\npub use sum::{Other, Sum};")
        self.assert_breach(
            "crates/tree/src/sum.rt:4: fn add is at the outer boundary and has a requires"
        )

    def test_open_module_of_another_crate(self):
        self.add_low()
        self.root_with("use low::deep::half;", "use low::deep::Sum;")
        self.assertEqual(self.check()[0], 0, self.check()[1])

    def test_requires_of_another_crate_handed_on(self):
        self.add_low()
        for lines in (
            ("pub use low::deep::half;",),
            ("pub use low::deep::half as part;",),
            ("pub use low::{deep::{half as part}};",),
            ("use low::deep::half as part;", "pub use self::part;"),
            ("pub use low::names::part;",),
        ):
            with self.subTest(lines):
                self.root_with(*lines)
                self.assert_breach(HALF)
                self.restore(*lines)

    def test_module_named_like_a_crate(self):
        self.add_low()
        self.write("crates/tree/src/low.rt", "pub mod deep;\n")
        self.root_with("mod low;", "pub use low::deep::half;")
        self.assert_breach(HALF)

    def test_all_of_another_crate_s_module_handed_on(self):
        self.add_low()
        for line in ("pub use low::deep::*;", "pub use low::{deep::*};", "pub use low::names::*;"):
            with self.subTest(line):
                self.root_with(line)
                self.assert_breach(MORE, HALF)
                self.restore(line)

    def test_requires_of_another_crate_handed_on_twice(self):
        self.add_low()
        for first, second in (
            ("pub use low::deep::half as part;", "pub use between::part as piece;"),
            ("pub use low::deep::half as part;", "pub use between::*;"),
            ("pub use low::deep::*;", "pub use between::half;"),
        ):
            with self.subTest(f"{first} {second}"):
                self.write("crates/tree/src/between.rt", first + "\n")
                self.root_with("mod between;", second)
                self.assert_breach(HALF)
                self.restore("mod between;", second)

    def test_requires_of_a_method_on_a_result(self):
        self.add_low()
        made = "fn made(x: u32) -> {}\n    ensures {{ result ≡ sums x }}\n{{ other(x) }}"
        for lines in (
            ("pub " + made.format("low::deep::Sum"),),
            ("use low::deep::Sum;", "pub " + made.format("Sum")),
            ("use low::deep::Sum as Total;", "pub " + made.format("[Total; 4]")),
            ("use low::deep::Sum;", "struct Pair { pub sum: Sum, n: u32 }", "pub " + made.format("Pair")),
            ("use low::deep::Sum;", "enum Answer { Refused(u32), Given(Sum) }", "pub " + made.format("Answer")),
            ("use low::deep::Sum;", "type Total = Sum;", "pub " + made.format("Total")),
            ("use low::deep::Sum;", "pub const START: Sum = Sum { n: 0 };"),
            ("use low::deep::Sum;", 'extern "C" fn put(s: &mut Sum)\n    ensures { s.new ≡ 0 }\n{ }'),
        ):
            with self.subTest(lines):
                self.root_with(*lines)
                self.assert_breach(MORE)
                self.restore(*lines)

    def test_requires_of_a_method_on_a_method_s_result(self):
        self.add_low()
        method = "pub fn sum(self) -> Sum\n    ensures { result.n ≡ self.n }\n{ self.sum }"
        self.write("crates/tree/src/pair.rt", f"use low::deep::Sum;\npub struct Pair {{ n: u32 }}\n\nimpl Pair {{\n{method}\n}}\n")
        self.root_with("mod pair;")
        self.assertEqual(self.check()[0], 0, self.check()[1])
        self.edit("crates/tree/src/lib.rt", "mod pair;", "mod pair;\npub use pair::Pair;")
        self.assert_breach(MORE)


if __name__ == "__main__":
    unittest.main()
