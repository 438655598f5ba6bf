#!/usr/bin/env python3
"""Shows the benches of wrong.py finding what is refused where, what a program prints, and putting back what an edit changed."""

import pathlib
import unittest
import unittest.mock

import benches
import edits
import kit
import rooms
import wrong
from answers.definitions import copy_part, needed
from test_wrong import TEXT, Tree


class Stub(benches.Definitions, benches.Programs):
    """A room in which the prover says what a test has it say."""

    def __init__(self, status, said, place='.'):
        self.place, self.names, self.answer = pathlib.Path(place), ['upper'], (status, said)

    def check(self, crate):
        return self.answer


class Refusing(unittest.TestCase):
    def test_refused(self):
        said = './specs/L.antt:3:9: error: `f_law`: no\n./specs/L.antt:5:9: error: `g_law`: no\nlogic=not-proved\n'
        self.assertEqual(Stub(1, said).refusal('upper'), ('f_law in crates/upper/specs/L.antt', None))

    def test_refused_in_a_proof(self):
        said = './proofs/f/Answers.antt:3:9: error: `returns`: no\nfn upper::f: not proved\nlogic=not-proved\n'
        self.assertEqual(Stub(1, said).refusal('upper'), ('returns in crates/upper/proofs/f/Answers.antt', None))

    def test_function_without_a_proof_file(self):
        said = 'fn upper::f: proved\nfn upper::g: not proved\nlogic=not-proved\n'
        self.assertEqual(Stub(1, said).refusal('upper'), ('upper::g in crates/upper/src', None))

    def test_accepted(self):
        self.assertIsNone(Stub(0, 'logic=proved functions=1\n').refusal('upper')[0])

    def test_not_refused_by_the_prover(self):
        for status, said in ((1, 'error: no such file\n'), (2, 'logic=not-proved\n'), (3, 'rattle: no verdict\n')):
            self.assertIsNone(Stub(status, said).refusal('upper')[0])

    def test_refused_above_with_an_answer_beside(self):
        law = './specs/L.antt:3:9: error: `f_law`: no\n'
        same = './specs/Checks.antt:9:1: error: `a0`: the two sides differ\n'
        end = 'crate upper: modules loaded=1 checked=2\nlogic=not-proved\n'
        where = 'f_law in crates/upper/specs/L.antt'
        self.assertEqual(Stub(1, law + end).differs_and_refusal('upper'), (True, where, None))
        self.assertEqual(Stub(1, same + law + end).differs_and_refusal('upper'), (False, where, None))
        self.assertEqual(Stub(1, same + end).differs_and_refusal('upper'), (False, None, 'the prover accepts it'))
        good = end.replace('not-proved', 'proved')
        self.assertEqual(Stub(0, good).differs_and_refusal('upper'), (True, None, 'the prover accepts it'))

    def test_refused_in_a_crate_between(self):
        said = '/r/crates/middle/specs/L.antt:3:9: error: `f_law`: no\nlogic=not-proved\n'
        found = Stub(1, said).differs_and_refusal('upper')
        self.assertEqual(found, (None, 'f_law in crates/middle/specs/L.antt', None))

    def test_answer_that_cannot_be_computed(self):
        for line in ('error: `a0`: stopped at the step limit', 'error: `to`: no such name'):
            with self.assertRaises(SystemExit):
                Stub(1, f'./specs/Checks.antt:9:1: {line}\ncrate upper: modules\u0020\n').differs_and_refusal('upper')

    def test_unedited_crate_not_accepted(self):
        with self.assertRaises(SystemExit):
            Stub(1, 'logic=not-proved\n').accepts('upper')


class Printing(Tree):
    """What a program prints of the edit's sheet, without the edit and with it."""

    def setUp(self):
        super().setUp()
        for name in ('lower', 'upper', 'apart'):
            self.write(f'crates/{name}/src/lib.rt', 'use lower::a::f;\n')
        self.write('crates/lower/src/a.rt', 'mod lower;\nfn f() -> u32 {\n    1\n}\n')
        self.write('wrong/lower/code.edit', TEXT.replace('specs/A.antt', 'src/a.rt').replace('f x = not x', '    1').replace('f x = x', '    2'))
        self.code = next(edit for edit in edits.read(self.root / 'wrong') if edit.is_code())
        kit_home = unittest.mock.patch.object(kit, 'home', lambda: pathlib.Path('/kit'))
        kit_home.start()
        self.addCleanup(kit_home.stop)

    def room(self, found):
        room = Stub(0, '', self.root / 'room')
        room.crates, room.names, room.digest, room.edited = edits.Crates(self.root / 'crates'), ['lower', 'upper', 'apart'], 'lower::f() + upper::g()', {}
        for name in room.names:
            rooms.Room.copy(room, name)
        room.attempt = lambda program, cases, given: self.asked.append((program, cases, given)) or found
        self.asked = []
        return room

    def differs(self, before, after):
        return self.room({'1-before': before, '1-after': after}).differing([self.code], lambda name: b'17')[self.code]

    def test_prints_otherwise(self):
        self.assertTrue(self.differs(' 17\n', ' 18\n'))
        self.assertFalse(self.differs(' 17\n', ' 17\n'))
        for how in ('run=fault proved=no', 'run=no-answer proved=no', '\n', ''):
            self.assertTrue(self.differs(' 17\n', how), how)

    def test_unedited_program_that_does_not_tell(self):
        for before in ('run=fault proved=no', '\n', ' 17', '17\n'):
            with self.subTest(before), self.assertRaises(SystemExit):
                self.differs(before, ' 17\n')

    def test_program_of_all_variants(self):
        self.differs(' 17\n', ' 18\n')
        [(program, cases, given)] = self.asked
        texts = {path.name: path.read_text() for path in (program / 'src').iterdir()}
        self.assertEqual(texts['v0.rt'], 'lower::f() + upper::g()')
        self.assertEqual(texts['v1.rt'], 'lower_1::f() + upper_1::g()')
        self.assertIn('mod v0;\nmod v1;\n', texts['main.rt'])
        self.assertIn('        0 => v0::digest(asked),\n        1 => v1::digest(asked),\n', texts['main.rt'])
        self.assertEqual((cases / '1-before').read_bytes(), b'\3\0\0\0\00017')
        self.assertEqual((cases / '1-after').read_bytes(), b'\3\0\0\0\00117')
        batch, room = cases.parent, self.root / 'room'
        self.assertEqual(given, [word for own in (
            f'lower:core,std={room}/crates/lower/src/lib.rt',
            f'upper:core,std,lower={room}/crates/upper/src/lib.rt',
            f'apart:core,std={room}/crates/apart/src/lib.rt',
            f'lower_1:core,std={batch}/crates/lower_1/src/lib.rt',
            f'upper_1:core,std,lower_1={batch}/crates/upper_1/src/lib.rt') for word in ('--lib', own)])
        self.assertEqual((batch / 'crates/upper_1/src/lib.rt').read_text(), 'use lower_1::a::f;\n')
        self.assertEqual((batch / 'crates/lower_1/src/lib.rt').read_text(), 'use lower::a::f;\n')
        self.assertIn('    2\n', (batch / 'crates/lower_1/src/a.rt').read_text())
        self.assertIn('    1\n', (room / 'crates/lower/src/a.rt').read_text())

    def test_renamed(self):
        names = {'a': 'a_1', 'bc': 'bc_1'}
        text = 'use a::b::a::c;\nx::a::f(bc::g(), abc::h(), a.a, Rattle.a.specs, self::a::f());'
        self.assertEqual(benches.renamed(text, names), text.replace('use a::', 'use a_1::').replace('(bc::', '(bc_1::'))
        self.assertEqual(benches.renamed(text, {}), text)

    def attempt(self, out, err):
        room, done = Stub(0, '', self.root), unittest.mock.Mock(stdout=out, stderr=err)
        with unittest.mock.patch.object(benches.subprocess, 'run', lambda *words, **how: done), unittest.mock.patch.object(kit, 'of_kit_sources', list):
            return benches.Programs.attempt(room, self.root, self.root, [])

    def test_what_a_try_says(self):
        cases = 'case=a run=ended status=0 runners=2 proved=no\ncase=b run=ended status=0 runners=1 proved=no\ncase=c run=fault proved=no\n'
        cases += 'case=d run=ended status=1 runners=2 proved=no\ncase=e run=ended status=0 runners=2 proved=no\ncases=5 proved=no\n'
        found = self.attempt('== a\n 17\n== b\n== c\n 18\n== d\n 19\n', cases)
        self.assertEqual(found, {'a': ' 17\n', 'b': '', 'c': 'run=fault proved=no', 'd': 'run=ended status=1 runners=2 proved=no', 'e': ''})

    def test_program_that_does_not_run(self):
        with self.assertRaises(SystemExit):
            self.attempt('', 'error: no such function\n')


class Parts(Tree):
    """A module of a crate of laws, asked with what it uses alone."""

    def setUp(self):
        super().setUp()
        self.write('crates/upper/src/lib.rt', '')
        self.write('crates/upper/specs/Lib.antt', 'pub mod Laws\npub mod Other\n')
        self.write('crates/upper/specs/Laws.antt', '-- laws\npub mod L\npub mod M\npub mod N\n')
        self.write('crates/upper/specs/Laws/L.antt', 'use Rattle.upper.specs.Laws.M.{m}\nuse Rattle.lower.specs.A.{f}\nuse Rattle.std.specs.Prelude.{ℕ}\n')
        self.write('crates/upper/specs/Laws/M.antt', 'use Rattle.upper.specs.Other as Other\n')
        self.write('crates/upper/specs/Laws/N.antt', '')
        self.write('crates/upper/specs/Other.antt', '')

    def test_needed(self):
        self.assertEqual(needed(self.root / 'crates/upper', 'Laws.L'), {'Laws', 'Laws.L', 'Laws.M', 'Other'})
        self.assertEqual(needed(self.root / 'crates/upper', 'Laws.N'), {'Laws', 'Laws.N'})

    def test_copied(self):
        self.write('crates/upper/out/rlib/upper.rlib/L.antt', '')
        copy_part(self.root / 'crates/upper', self.root / 'copy', 'Laws.N')
        found = {path.name: path.read_text() for path in (self.root / 'copy').rglob('*.antt')}
        self.assertEqual(found, {'Lib.antt': 'pub mod Laws\n', 'Laws.antt': '-- laws\npub mod N\n', 'N.antt': ''})

    def tried(self, law, guest=''):
        """What is found of the edit where the prover has these errors once it is made, and none before."""
        end, room = 'crate upper: modules loaded=1 checked=2\nlogic=', Stub(0, '', self.root / 'room')
        room.crates, room.defined, room.edited = edits.Crates(self.root / 'crates'), ['lower'], {}
        room.answers = type('Answers', (), {'head': ''})
        room.copy('lower')
        room.copy('upper')
        self.write('room/checked/upper/v/a.oantt', '')
        room.kept = {'upper': rooms.Kept(room.checked('upper'), self.root / 'room/kept/upper')}
        said = law + guest
        room.check = lambda crate: (1, f'{said}{end}not-proved\n') if room.edited and said else (0, f'{end}proved\n')
        asked = {'sheet 1': type('Asked', (), {'terms': lambda self: ('x', 'y', 'same')})()}
        [(_, *found)] = room.tried([self.edit()], asked)
        return found

    def test_refused_at_the_module_named(self):
        found = self.tried('./specs/Laws/L.antt:3:9: error: `f_law`: no\n')
        self.assertEqual(found, [True, 'f_law in crates/upper/specs/Laws/L.antt', None])
        self.assertTrue(wrong.told(self.edit(), *found)[1])

    def test_refused_at_another_module(self):
        found = self.tried('./specs/Laws/M.antt:3:9: error: `m`: no\n./specs/Laws/L.antt:3:9: error: `f_law`: no\n')
        self.assertEqual(found[:2], [True, None])
        self.assertIn('it is refused at m in crates/upper/specs/Laws/M.antt, not in upper/Laws/L', found[2])
        self.assertFalse(wrong.told(self.edit(), *found)[1])

    def test_accepted_with_the_edit(self):
        found = self.tried('')
        self.assertEqual(found, [True, None, 'the prover accepts it'])
        self.assertFalse(wrong.told(self.edit(), *found)[1])

    def test_answers_as_before(self):
        law = './specs/Laws/L.antt:3:9: error: `f_law`: no\n'
        found = self.tried(law, './specs/Checks.antt:9:1: error: `a0`: the two sides differ\n')
        self.assertFalse(wrong.told(self.edit(), *found)[1])

    def test_part_not_accepted_without_the_edit(self):
        room = Stub(1, 'logic=not-proved\n', self.root / 'room')
        room.crates, room.answers = edits.Crates(self.root / 'crates'), type('Answers', (), {'head': ''})
        with self.assertRaises(SystemExit):
            room.tried([self.edit()], {})


class Warm(Tree):
    """Edits of a crate of code, over the folder in which it was accepted."""

    def refused(self, accepted, linked=()):
        """What is found of the edit, and what was asked; the unedited crate is accepted as often as is said."""
        room, asked = Stub(0, '', self.root), []
        room.edited = {}
        self.write('checked/lower/v/a.oantt', '')

        def check(crate):
            asked.append(bool(room.edited))
            good = not room.edited and asked.count(False) <= accepted
            return (0, 'logic=proved\n') if good else (1, 'fn lower::f: not proved\nlogic=not-proved\n')

        room.check = check
        edit = self.edit()
        return benches.Programs.refusals(room, [edit], [edit] if linked else []), asked

    def test_accepted_first_and_at_the_end(self):
        [(_, *found)], asked = self.refused(2)
        self.assertEqual(found, ['lower::f in crates/lower/src', None])
        self.assertEqual(asked, [False, True, False])

    def test_not_accepted_first_or_at_the_end(self):
        for accepted in (0, 1):
            self.setUp()
            with self.assertRaises(SystemExit):
                self.refused(accepted)

    def test_refused_by_the_gate(self):
        [(_, *found)], asked = self.refused(0, linked=True)
        self.assertEqual((found, asked), (['lower/must-fail, by rt ci', None], []))


class Keeping(Tree):
    def test_put_back(self):
        for name, text in (('a.oantt', 'one'), ('b.oantt', 'two')):
            self.write(f'0/checked/upper/v/{name}', text)
        folder = self.root / '0/checked/upper'
        kept = rooms.Kept(folder, self.root / '0/kept/upper')
        for _ in range(2):
            (folder / 'v/a.oantt').unlink()
            self.write('0/checked/upper/v/a.oantt', 'other')
            self.write('0/checked/upper/v/c.oantt', 'new')
            (folder / 'v/b.oantt').unlink()
            kept.restore()
            found = {path.name: path.read_text() for path in (folder / 'v').iterdir()}
            self.assertEqual(found, {'a.oantt': 'one', 'b.oantt': 'two'})

    def test_what_is_written_into_is_copied(self):
        self.write('0/checked/upper/v/last-used', 'one')
        kept = rooms.Kept(self.root / '0/checked/upper', self.root / '0/kept/upper')
        self.write('0/checked/upper/v/last-used', 'another')
        kept.restore()
        self.assertEqual((self.root / '0/checked/upper/v/last-used').read_text(), 'one')

    def test_undone(self):
        room, edit = Stub(0, '', self.root), self.edit()
        before = (self.root / 'crates/lower/specs/A.antt').read_text()
        room.make(edit)
        self.assertNotEqual((self.root / 'crates/lower/specs/A.antt').read_text(), before)
        room.undo()
        self.assertEqual((self.root / 'crates/lower/specs/A.antt').read_text(), before)


if __name__ == '__main__':
    unittest.main()
