#!/usr/bin/env python3
"""Shows which clauses say nothing by their form, and which say something."""

import unittest

from clauses import says_nothing, speaks_of_exit, speaks_of_last, speaks_of_outcome

NOTHING = (
    "Unit",
    "Unit {0}",
    "(result ≡ x) × Unit",
    "IsTrue true",
    "⌜ 0 ≤ result ⌝",
    "⌜ result ≡ x ⌝ ∗ ⌜ result ≡ result ⌝",
    "⌜ result ≡ x ⌝ ∗ ⊤ₛ",
    "⊤ₛ",
    # equations
    "result ≡ result",
    "result ≡ result + 0",
    "0 + result ≡ result",
    "result + x ≡ x + result",
    "result * 1 ≡ (1 * result)",
    "result - 0 ≡ result",
    "result.n ≡ 0 + result.n",
    "(g result).n ≡ (g result).n",
    "let half = x / 2 in half ≡ half",
    "suc result ≡ result + 1",
    "suc (suc result) ≡ 1 + (result + 1)",
    "(result ≡ x + x) × (f  x.n ≡ (f x.n))",
    "⌜ result ≡ x ⌝ ∗ ⌜ ◌≡◌ {A = ℕ} (g x) (g x) ⌝",
    "Each (λ y. y ≡ y) result",
    # variants
    "IfOk result (λ _. Unit)",
    "(result ≡ Ok x) × IfErr result (λ e. 0 ≤ e)",
    "IfNone result ⊤",
    "MatchResult result (λ _. Unit) (λ e. IsTrue true)",
    "MatchOption (f result) Unit (λ v. (v ≡ x) × Unit)",
    "IfOk result (λ n. n ≡ n)",
    # order
    "0 ≤ result",
    "(result ≡ x) × (0 ≤ result)",
    "◌≤◌ 0 result",
    "result ≤ result",
    "result ≤ result + x",
    "result ≤ suc result",
    "result < result + 1",
    "x < suc (x + result)",
    "0 < suc result",
    # what follows from nothing, from itself, or from what cannot be
    "x < 4 → Answer.None ≡ Answer.None",
    "x < 4 → Unit",
    "⊥ → result ≡ x",
    "(x < 4 → ⊥ → result ≡ x)",
    "(⊥ × (x < 4)) → result ≡ x",
    "x < 0 → result ≡ x",
    "result < result → result ≡ x",
    "1 ≡ 0 → result ≡ x",
    "true ≡ false → result ≡ x",
    "4 ≤ 3 → result ≡ x",
    "suc x ≤ x → result ≡ x",
    "IsTrue false → result ≡ x",
    "T false → result ≡ x",
    "result ≡ x → result ≡ x",
    "(a : ℕ) → result ≡ a → (result ≡ a)",
    "(result ≡ x) ↔ (result ≡ x)",
    "(result ≡ x) ⊎ Unit",
    "(result ≡ x) ⊎ (result ≡ x → ⊥)",
)
SOMETHING = (
    "IfOk result (λ n. n ≡ x)",
    "IsOkAnd result (λ _. Unit)",
    "MatchResult result (λ _. Unit) (λ e. e ≡ x)",
    "MatchOption result (x ≡ 0) (λ v. IsPlace v x)",
    "IfOk result F",
    "result ≡ x",
    "result ≡ 0",
    "result.n ≡ result.m",
    'f result "a" ≡ f result "b"',
    "(g result).n ≡ (g x).n",
    "IsTrue result",
    "let half = x / 2 in result ≡ half",
    "(x ≡ result) × (result ≡ x)",
    "Answer.None ≡ Answer.Some result",
    "result ≡ x + 0",
    "result ≤ x + 1",
    "(a ≤ result) × (b ≤ result) × (result ≤ 2 ^ 32)",
    "1 ≤ result",
    "result + x ≤ result",
    "result - 1 ≡ result",
    "(result ≡ x → ⊥) → result ≡ y",
    "result ≡ x → ⊥",
    "x < 4 → result ≡ x",
    "(result ≡ x) ⊎ (result ≡ y)",
    "(result ≡ x) ↔ (result ≡ y)",
    "((a b : ℕ) → a ≤ low → k < b → Reordered result a b)",
    "ElementWalked skipping (words s.now) end depth at tt result tt",
)


class Clauses(unittest.TestCase):
    def test_nothing(self):
        for clause in NOTHING:
            with self.subTest(clause):
                self.assertIsNotNone(says_nothing(clause))

    def test_something(self):
        for clause in SOMETHING:
            with self.subTest(clause):
                self.assertIsNone(says_nothing(clause))

    def test_outcome(self):
        for clause in ("result ≡ x", "F result.n", "F (g result)", "s.new ≡ []", "F s.new.items", "⌜ F s.exit ⌝", "(a : ℕ) → F a result"):
            with self.subTest(clause):
                self.assertTrue(speaks_of_outcome(clause))

    def test_no_outcome(self):
        for clause in (
            "x < 4",
            "F _",
            "AreBytes s.now",
            "AreBytes s.old",
            "F s.entry",
            "results ≡ x",
            "t.result ≡ x",
            "-- result",
            "(g s).new ≡ x",
            "(result : ℕ) → F result",
            "All (λ result. result < 4) s.now",
        ):
            with self.subTest(clause):
                self.assertFalse(speaks_of_outcome(clause))

    def test_last(self):
        for clause in ("λ x y. y ≡ f x", "λ x. λ r. F r.n", "λ (x : ℕ) (r : ℕ). r ≡ x", "F", "λ x r. IfOk r (λ n. n ≡ x)"):
            self.assertTrue(speaks_of_last(clause), clause)
        for clause in ("λ x y. x ≡ f x", "λ x. λ r. F x", "λ (x : ℕ) (r : ℕ). x ≡ 1", "", "λ x r. (r : ℕ) → F r", "λ x r. F x.r", "λ x r. F rr"):
            self.assertFalse(speaks_of_last(clause), clause)

    def test_exit(self):
        for clause in ("F s.new", "F t.old s.new.items", "⌜ F s.exit ⌝"):
            self.assertTrue(speaks_of_exit(clause, "s"), clause)
        for clause in ("F s.now t.new", "F s.old", "F t.s.new", "F s.newer", "F s new"):
            self.assertFalse(speaks_of_exit(clause, "s"), clause)


if __name__ == "__main__":
    unittest.main()
