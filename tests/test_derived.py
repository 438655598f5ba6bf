#!/usr/bin/env python3
"""Shows how derived.py finds the strings, and what it asks of an edit that one of them shows."""

import pathlib
import tempfile
import unittest

import derived
import edits
import wrong

STATED = """pub record StringsTold : Type 0 where
  pub any_twice : Yes (often 3) (A ∷ A ∷ [])
  pub call_is_no_token : No token_or_call (token_symbol 5 ∷ [])
  pub endless_nothing : (w : Word) → No endless w
  pub end_empty : Empty (often_end 0)
"""
EDIT = """# all tokens are one symbol
refused: laws/Derivation/From
shown: string any_twice
tree: d_left d_eps
file: specs/Shape.antt
old: a
new: b
"""


class Strings(unittest.TestCase):
    def setUp(self):
        folder = tempfile.TemporaryDirectory()
        self.addCleanup(folder.cleanup)
        self.root = pathlib.Path(folder.name)
        self.write('crates/laws/specs/Demands/Strings.antt', STATED)
        self.write('wrong/language/one_token.edit', EDIT)

    def write(self, name, text):
        path = self.root / name
        path.parent.mkdir(parents=True, exist_ok=True)
        path.write_text(text, encoding='utf-8')

    def test_found_by_their_names(self):
        found = derived.strings(self.root / 'crates')
        self.assertEqual(found, {'string any_twice': (True, '(often 3)', '(A ∷ A ∷ [])'),
                                 'string call_is_no_token': (False, 'token_or_call', '(token_symbol 5 ∷ [])'),
                                 'string end_empty': (True, '(often_end 0)', '')})

    def test_none_where_there_are_no_laws(self):
        self.assertEqual(derived.strings(self.root), {})

    def test_contrary_of_a_string_that_is_derived(self):
        text = derived.contrary((True, '(often 3)', '(A ∷ A ∷ [])'), '', ['often', 'A'])
        self.assertIn('\na0 : No (often 3) (A ∷ A ∷ [])\n', text)
        self.assertIn('Demands.Strings.{often, A}\n', text)

    def test_contrary_of_a_string_that_is_not(self):
        text = derived.contrary((False, 'token_or_call', '(B ∷ [])'), 'd_left d_eps', ['token_or_call'])
        self.assertIn('\na0 : Yes token_or_call (B ∷ [])\n', text)
        self.assertIn('tree = d_left d_eps }', text)
        self.assertNotIn('Could', text)

    def test_contrary_of_a_grammar_that_can_be_empty(self):
        text = derived.contrary((True, '(often_end 0)', ''), '', ['often_end', 'Empty'])
        self.assertIn('\nfull (end_symbol ∷ w) m = absurd (false≢true m)\n', text)
        self.assertIn('\na0 : Empty (often_end 0) → ⊥\n', text)

    def test_an_edit_names_one(self):
        edit = edits.read(self.root / 'wrong')[0]
        named = wrong.Named([], self.root / 'crates')
        self.assertEqual(edit.tree, 'd_left d_eps')
        self.assertIn(edit.shown, named.of(edit))

    def test_what_is_said_of_the_contrary(self):
        self.assertTrue(derived.SAID.search('./specs/Checks.antt:9:56: error: expected `)` here'))
        self.assertFalse(derived.SAID.search('./specs/Checks.antt:9:56: note: large solution'))
        self.assertFalse(derived.SAID.search('./specs/Checks.antt:3:1: warning: an import that nothing uses'))


if __name__ == '__main__':
    unittest.main()
