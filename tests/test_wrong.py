#!/usr/bin/env python3
"""Shows wrong.py failing edits that do not fit, that answer as before, and that are accepted."""

import pathlib
import tempfile
import unittest

import edits
import wrong

TEXT = """# the test is turned round
refused: upper/Laws/L
shown: sheet 1
file: specs/A.antt
old: f x = not x
new: f x = x
"""


class Tree(unittest.TestCase):
    """A repository of two crates, with one edit of the lower."""

    def setUp(self):
        folder = tempfile.TemporaryDirectory()
        self.addCleanup(folder.cleanup)
        self.root = pathlib.Path(folder.name)
        self.write('crates.txt', '# crates\nlower:\nupper: lower  # above\napart staticlib:\n')
        self.write('crates/lower/specs/A.antt', 'f : Bool → Bool\nf x = not x\ng x = x\n')
        self.write('crates/upper/specs/Laws/L.antt', 'f_law : f true ≡ false\n')
        self.write('wrong/lower/turned.edit', TEXT)

    def write(self, name, text):
        path = self.root / name
        path.parent.mkdir(parents=True, exist_ok=True)
        path.write_text(text, encoding='utf-8')

    def edit(self, old='', new=''):
        self.write('wrong/lower/turned.edit', TEXT.replace(old, new))
        return edits.read(self.root / 'wrong')[0]

    def misfits(self, old='', new=''):
        crates = edits.Crates(self.root / 'crates')
        return self.edit(old, new).misfits(crates, lambda edit: ['sheet 1'])


class Fitting(Tree):
    def test_good(self):
        self.assertEqual(self.misfits(), [])

    def test_waits_to_be_asked_for(self):
        self.assertEqual(self.edit('file: ', 'when: asked\nfile: ').when, edits.ASKED)
        self.assertEqual(self.misfits('file: ', 'when: asked\nfile: '), [])
        self.assertEqual(self.misfits('file: ', 'when: never\nfile: '), ['lower/turned: when: never, which is not asked'])

    def test_answers_of_one_name_in_two_readings(self):
        self.assertEqual(wrong.short('ends.txt: sheet 1'), 'sheet 1')
        self.assertEqual(wrong.short('textbook/ends.txt: sheet 1'), 'textbook/ends.txt: sheet 1')
        self.assertEqual(wrong.short('reading: sheet-1'), 'reading: sheet-1')

    def test_of_either_sort(self):
        definition = self.edit()
        code = self.edit('specs/A.antt', 'src/lib.rt')
        self.assertEqual([wrong.of_sort([definition, code], only) for only in (wrong.DEFINITIONS, wrong.PROGRAMS, None)],
                         [[definition], [code], [definition, code]])

    def test_old_text_not_there(self):
        self.assertEqual(self.misfits('not x', 'not y'), ['lower/turned: specs/A.antt: this stands 0 times: f x = not y'])

    def test_old_text_twice(self):
        self.assertEqual(self.misfits('f x = not x', 'x = '), ['lower/turned: specs/A.antt: this stands 2 times: x = '])

    def test_pairs_one_after_the_other(self):
        self.assertEqual(self.misfits('new: f x = x', 'new: f x = x x\nold: = x x\nnew:'), [])
        edit = self.edit('new: f x = x', 'new: f x = x x\nold: = x x\nnew:')
        texts, _ = edit.made(self.root / 'crates/lower')
        self.assertEqual(list(texts.values()), ['f : Bool → Bool\nf x \ng x = x\n'])

    def test_text_of_two_lines(self):
        edit = self.edit('old: f x = not x\nnew: f x = x', 'old: f x = not x\nold: g x = x\nnew: f x = x\nnew: g x = not x')
        texts, misfits = edit.made(self.root / 'crates/lower')
        self.assertEqual((list(texts.values()), misfits), (['f : Bool → Bool\nf x = x\ng x = not x\n'], []))

    def test_no_file(self):
        self.assertEqual(self.misfits('A.antt', 'B.antt'), ['lower/turned: there is no specs/B.antt'])

    def test_all_misfits_at_once(self):
        self.assertEqual(len(self.misfits('sheet 1\nfile: specs/A.antt', 'sheet 2\nfile: specs/B.antt')), 2)

    def test_refused_where_it_is_not_used(self):
        found = self.misfits('refused: upper/Laws/L', 'refused: apart')
        self.assertEqual(found, ['lower/turned: refused: apart, which is not lower and does not use it'])

    def test_module_where_it_is_refused(self):
        self.assertEqual(self.edit().module, 'Laws/L')
        said = 'where a crate above lower, and it alone, has a module'
        self.assertEqual(self.misfits('upper/Laws/L', 'upper'), [f'lower/turned: refused: upper, {said}'])
        self.assertEqual(self.misfits('upper/Laws/L', 'lower/A'), [f'lower/turned: refused: lower, {said}'])
        self.assertEqual(self.misfits('Laws/L', 'Laws/M'), ['lower/turned: refused: upper has no specs/Laws/M.antt'])

    def test_shown_by_nothing(self):
        self.assertEqual(self.misfits('shown: sheet 1\n'), ['lower/turned: shown: there is no stored name'])

    def test_nothing_said(self):
        self.assertEqual(len(self.misfits('# the test is turned round\n')), 1)

    def copied(self, text=None, name='turned'):
        """The path of a copy of the edit in the crate's must-fail, with this text if one is given."""
        copy = f'crates/lower/must-fail/{name}.edit'
        self.write(copy, text or (self.root / 'wrong/lower/turned.edit').read_text(encoding='utf-8'))
        return self.root / copy

    def test_must_fail_holds_copies_only(self):
        crates, edit = edits.Crates(self.root / 'crates'), self.edit('refused: upper/Laws/L', 'refused: lower')
        copy = self.copied()
        self.assertEqual(list(wrong.strangers(crates, [edit])), [])
        self.assertEqual(crates.copies(edit), [copy])
        copy.unlink()
        self.assertEqual(len(list(wrong.strangers(crates, [edit]))), 1, 'a definition that nothing tries')
        self.copied(TEXT)
        self.assertEqual(len(list(wrong.strangers(crates, [edit]))), 2)
        self.copied(name='again').unlink()
        self.copied()
        self.copied(name='again')
        self.assertEqual(len(list(wrong.strangers(crates, [edit]))), 1, 'a copy under another name')

    def test_must_fail_of_a_crate_without_edits_here(self):
        self.write('crates/apart/must-fail/own.edit', TEXT)
        self.assertEqual(len(list(wrong.strangers(edits.Crates(self.root / 'crates'), [self.edit()]))), 1)

    def test_crates_that_a_program_names(self):
        crates = edits.Crates(self.root / 'crates')
        self.assertEqual(crates.needed([self.edit()], ''), ['lower'])
        self.assertEqual(crates.needed([self.edit()], 'use apart::A;\nupper::f();'), ['lower', 'upper', 'apart'])
        self.assertEqual(crates.needed([], 'fn upper() { kapart::f() }'), [])

    def test_must_fail_of_an_edit_refused_above(self):
        crates, edit = edits.Crates(self.root / 'crates'), self.edit()
        self.copied()
        self.assertEqual(len(list(wrong.strangers(crates, [edit]))), 1)


class Units(Tree):
    def test_those_together_that_are_refused_at_the_same_place(self):
        self.write('wrong/lower/again.edit', TEXT)
        self.write('wrong/lower/below.edit', TEXT.replace('Laws/L', 'Laws/M'))
        self.write('wrong/lower/code.edit', TEXT.replace('upper/Laws/L', 'lower').replace('specs/A.antt', 'src/a.rt'))
        trial = wrong.Trial(edits.read(self.root / 'wrong'), None, wrong.Named([]), [], None)
        self.assertEqual([[edit.name for edit in unit] for unit in trial.units()], [['code'], ['again', 'turned'], ['below']])

    def test_those_apart_that_another_program_shows(self):
        code = TEXT.replace('upper/Laws/L', 'lower').replace('specs/A.antt', 'src/a.rt')
        for number, shown in enumerate(('case-01', 'plan-made-plain', 'pass-7', 'pass-made-plain')):
            self.write(f'wrong/lower/code{number}.edit', code.replace('sheet 1', shown))
        trial = wrong.Trial(edits.read(self.root / 'wrong'), None, wrong.Named([]), [], None)
        found = [[edit.name for edit in unit] for unit in trial.units()]
        self.assertEqual(found, [['code0', 'code1'], ['code2', 'code3'], ['turned']])
        letters = [trial.named.sheet(name)[:1] for name in ('case-01', 'plan-made-plain', 'pass-made-plain')]
        self.assertEqual(letters, [b'r', b'p', b'\x01'])


    def test_those_that_one_program_shows(self):
        code = TEXT.replace('upper/Laws/L', 'lower').replace('specs/A.antt', 'src/a.rt')
        for number in range(wrong.MANY + 1):
            self.write(f'wrong/lower/code{number}.edit', code)
        self.write('wrong/lower/whole.edit', code.replace('sheet 1', 'pass-7'))
        trial = wrong.Trial(edits.read(self.root / 'wrong'), None, wrong.Named([]), [], None)
        found = [[edit.name for edit in batch] for batch in trial.batches()]
        self.assertEqual([len(batch) for batch in found], [5, 4, 1])
        self.assertEqual(sorted(sum(found, [])), [*(f'code{number}' for number in range(wrong.MANY + 1)), 'whole'])


class Telling(Tree):
    def test_wrong_and_refused(self):
        line, good = wrong.told(self.edit(), True, 'f_law in crates/upper/specs/L.antt', None)
        self.assertTrue(good)
        self.assertTrue(line.endswith('answers sheet 1 otherwise, refused at f_law in crates/upper/specs/L.antt'), line)

    def test_refused_but_answers_as_before(self):
        line, good = wrong.told(self.edit(), False, 'f_law in crates/upper/specs/L.antt', None)
        self.assertFalse(good)
        self.assertIn('NOT WRONG', line)

    def test_wrong_but_accepted(self):
        line, good = wrong.told(self.edit(), True, None, 'the prover accepts it')
        self.assertFalse(good)
        self.assertIn('NOT REFUSED', line)

    def test_known_by_the_stored_answer_alone(self):
        edit = self.edit('refused: upper/Laws/L', 'refused: answers')
        self.assertEqual(self.misfits('refused: upper/Laws/L', 'refused: answers'), [])
        self.assertTrue(wrong.told(edit, True, None, None)[1])
        self.assertFalse(wrong.told(edit, False, None, None)[1])

    def test_code_is_not_known_by_an_answer_alone(self):
        self.write('crates/lower/src/a.rt', 'f x = not x')
        found = self.misfits('upper/Laws/L\nshown: sheet 1\nfile: specs/A.antt', 'answers\nshown: sheet 1\nfile: src/a.rt')
        self.assertEqual(len(found), 1, found)

    def test_equal_is_not_taken_for_wrong(self):
        self.assertTrue(wrong.told(self.edit(), False, 'f_law in L.antt', None, equal=True)[1])
        self.assertFalse(wrong.told(self.edit(), True, 'f_law in L.antt', None, equal=True)[1])


class Promised(unittest.TestCase):
    """The programs that must fail to meet the statements (SPECIFICATION 1.11)."""

    NAMES = (
        'pass/hands_each_sheet_back',
        'run/first_plan_alone',
        'plan/declines_before_a_substitution',
        'plan/7_before_a_substitution',
        'run/invented_steps',
        'pass/always_refuses',
        'pass/always_one_sheet',
    )

    def test_none_waits_to_be_asked_for(self):
        found = {str(edit): edit for edit in edits.read(wrong.HERE / 'wrong')}
        for name in self.NAMES:
            with self.subTest(name):
                self.assertIn(name, found)
                self.assertTrue(found[name].is_code())
                self.assertEqual(found[name].when, '')


if __name__ == '__main__':
    unittest.main()
