#!/usr/bin/env python3
"""Shows check_answers.py telling how far it is, which words of a sheet are names, carried numbers and precedences, and what is asked of the sheets of
tests/reading."""

import io
import pathlib
import tempfile
import unittest
import unittest.mock

import check_answers
from answers import laws
from answers.claims import READ, claim
from answers.readings import readings

# %preserve 7; a rule with an option, a label, an action, a call, a kind 5 and a block in it, whose words are numbered by what they are:
# precedences from 450, names from 500, carried numbers from 900, all else below.
SHEET = [1, 500, 0, 1,                                # a rule
         2, 900, 0, 1, 5, 501, 3,                     # its alternative, with an option
         4, 901, 4, 5, 502, 1, 503, 6, 504,           # a token with label and option
         7, 902, 1, 0, 0, 0, 8, 2, 0, 505, 2, 506,    # an action with two references, without a label
         9, 903, 3, 0, 0, 0, 507, 10, 450,            # a call
         11, 904, 5, 0, 0, 0,                         # a kind 5
         12, 905, 6, 0, 0, 0, 1,                      # a block
         13, 906, 0, 0, 1, 14, 907, 2, 0, 0, 0, 15, 1, 1, 508,   # its alternative, with a predicate
         7,                                           # preserved
         2, 71, 1, 20, 20, 20, 20, 20]                # the trailer

LEAST = [(900, laws.CARRIED), (500, laws.NAME), (450, laws.PRECEDENCE)]


class Sorts(unittest.TestCase):
    def test_each_word(self):
        sorts = laws.Sorts(SHEET).sorts
        self.assertEqual(len(sorts), len(SHEET))
        for word, sort in zip(SHEET, sorts):
            if word == 0 and sort == laws.LABEL:
                continue
            found = next((own for least, own in LEAST if word >= least), laws.KEPT)
            self.assertEqual(laws.NAME if sort == laws.LABEL else sort, found, word)

    def test_no_label_is_not_renamed(self):
        self.assertEqual([word for word in laws.changed(SHEET, name=lambda word: word + 100) if word == 100], [])

    def test_names_and_carried_numbers_apart(self):
        names, carried = laws.changed(SHEET, name=lambda word: 1), laws.changed(SHEET, carried=lambda word: 0)
        self.assertEqual([word for word in names if 500 <= word < 900], [])
        self.assertEqual([word for word in names if word >= 900], [word for word in SHEET if word >= 900])
        self.assertEqual([word for word in carried if word >= 900], [])
        self.assertEqual([word for word in carried if 500 <= word < 900], [word for word in SHEET if 500 <= word < 900])

    def test_precedences_alone(self):
        made = laws.changed(SHEET, precedence=lambda word: 0)
        self.assertEqual([(old, new) for old, new in zip(SHEET, made) if old != new], [(450, 0)])

    def test_a_renaming_exchanges_the_order(self):
        self.assertTrue(laws.renamed(1) > laws.renamed(2) > 0)


def flat(text):
    return ' '.join(text.split())


class Compared(unittest.TestCase):
    """What is asked of a run: the equation's two sides."""

    def test_own_result(self):
        again = laws.Answered('again: x', [1, 2], 0, 0, [1, 2], [])
        self.assertIn('≡ answer 0 0 (1 ∷ 2 ∷ []) ([])', flat(claim(0, again)))

    def left_out(self, sort, own):
        """The words of a sort are not in the equation, and their places are."""
        one = laws.AlikeBut(sort, f'{sort}: x', SHEET, 1, 2, list(SHEET), [])
        text = flat(claim(0, one))
        places = [str(at) for at, word in enumerate(SHEET) if word in own]
        self.assertIn(f"blanked ({' ∷ '.join(places)} ∷ [])", text)
        self.assertNotIn(str(own[0]), text.partition('≡')[2])

    def test_carried_numbers_are_left_out_of_both_sides(self):
        self.left_out('carried', range(900, 908))

    def test_precedences_are_left_out_of_both_sides(self):
        self.left_out('precedence', [450])


class Progress(unittest.TestCase):
    def told(self, beat):
        file = io.StringIO()
        with unittest.mock.patch.object(check_answers, 'BEAT', beat):
            progress = check_answers.Progress(5, file)
            for batch in (['a', 'b'], ['c'], ['d', 'e']):
                progress.add(batch)
        return file.getvalue()

    def test_all_that_is_computed_so_far(self):
        lines = [f'answers: {count} of 5 computed (0 s)\n' for count in (2, 3, 5)]
        self.assertEqual(self.told(0), ''.join(lines))

    def test_nothing_until_the_time_has_come(self):
        self.assertEqual(self.told(60), '')


class Readings(unittest.TestCase):
    def asked(self, words, expected):
        with tempfile.TemporaryDirectory() as folder:
            path = pathlib.Path(folder) / 'one.words'
            path.write_text(words, encoding='utf-8')
            path.with_suffix('.expected').write_text(expected, encoding='utf-8')
            return list(readings(pathlib.Path(folder)))

    def test_numbers_of_nodes(self):
        one, = self.asked('trailer 2 0 0 0 0 0 0\n', 'sheet 0 0 0 0\n')
        self.assertEqual(one.name, 'reading: one')
        self.assertIn('counted (bytes (2 ∷ 0 ∷ 0 ∷ 0 ∷ 0 ∷ 0 ∷ 0 ∷ 0 ∷\n      []))\n  ≡ 0 ∷ 0 ∷ 0 ∷ 0 ∷', claim(0, one))

    def test_a_refusal(self):
        one, = self.asked('trailer 4 0 0 0 0 0 0\n', 'refused 3\n')
        self.assertEqual(one.told, [3])
        self.assertIn('≡ false', claim(0, one, differs=True))

    def test_long_ones_are_left_out(self):
        self.assertEqual(self.asked(f'repeat {READ} i\n0\nend\ntrailer 2 0 0 0 0 0 0\n', 'refused 4\n'), [])


if __name__ == '__main__':
    unittest.main()
