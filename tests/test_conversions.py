#!/usr/bin/env python3
"""Shows what answers/conversions.py asks: the words of both forms, the lengths at which a refusal begins, and what stands at exit."""

import unittest

from answers.claims import claim
from answers.conversions import CALL, LEAST, SUM, SUM_COUNTERS, Sheet, conversions

NAMED = {one.name.removeprefix('convert: '): one for one in conversions()}


def flat(text):
    return ' '.join(text.split())


class Forms(unittest.TestCase):
    def test_a_call_has_one_word_more_today(self):
        total = Sheet(SUM, [], SUM_COUNTERS)
        self.assertEqual((4 * len(total.old()), 4 * len(total.new())), (276, 288))
        self.assertEqual((total.old()[-7], total.new()[-7]), (61, 64))
        self.assertEqual(len(total.new()) - len(total.old()), SUM.count(CALL))

    def test_words_that_are_no_call_s_stay(self):
        self.assertEqual(Sheet([7, 8], [1], [0] * 5).old(), Sheet([7, 8], [1], [0] * 5).new())


class Asked(unittest.TestCase):
    def test_names_stand_once(self):
        self.assertEqual(len(NAMED), len(conversions()))

    def test_every_number(self):
        self.assertEqual({one.number for one in NAMED.values()}, {0, 1, 2, 3, 4, 5, 6, 9})

    def test_lengths_where_9_begins(self):
        longest, first = NAMED['32764 bytes with one call'], NAMED['32768 bytes with one call']
        self.assertEqual((len(longest.sheet), 4 * len(longest.new), longest.number), (32764, 32768, 0))
        self.assertEqual((len(first.sheet), first.number), (32768, 9))

    def test_sheets_that_are_refused_before_9_are_as_long(self):
        for name, number in (('equal ids', 5), ('an id at its counter', 6)):
            one = NAMED[f'32768 bytes with one call and {name}']
            self.assertEqual((len(one.sheet), one.number), (32768, number))

    def test_a_buffer_a_byte_short(self):
        lengths = [NAMED[f'32 bytes, {what} one byte short'].lengths for what in ('result', 'work')]
        self.assertEqual(lengths, [[LEAST[0] - 1, LEAST[1]], [LEAST[0], LEAST[1] - 1]])


class Exit(unittest.TestCase):
    def test_refusals_1_and_2_touch_nothing(self):
        self.assertIn('result = replicate 32767 7; work = replicate 65536 9', claim(0, NAMED['32 bytes, result one byte short']))

    def test_other_refusals_leave_zeros(self):
        self.assertIn('number = 9; result_length = 0; result = replicate 32770 0; work = replicate 65537 0',
                      claim(0, NAMED['32768 bytes with one call']))

    def test_zeros_stand_behind_a_sheet(self):
        self.assertIn('∷ 64 ∷ 0 ∷ 13 ∷ 25 ∷ 0 ∷ 0 ∷ 0 ∷ []) ++ replicate 32480 0; work = replicate 65536 0', flat(claim(0, NAMED['sum'])))


if __name__ == '__main__':
    unittest.main()
