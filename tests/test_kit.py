#!/usr/bin/env python3
"""Shows kit.py giving the prover each crate with those that it uses, and telling whether files are laid out."""

import contextlib
import io
import os
import unittest
import unittest.mock

import kit
from test_wrong import Tree


class Calling(Tree):
    """The words by which the prover is called, with a kit of which little is there."""

    def setUp(self):
        super().setUp()
        self.write('crates/upper/src/lib.rt', '')
        for name, uses in (('std', 'dep core\ndep std_io\n'), ('std_io', 'dep core\n'), ('core', '')):
            self.write(f'kit/rlibs/{name}.rlib/format', f'crate {name}\n{uses}needs core 7\n')
        self.program('bin/rt', f'echo "{self.root}/kit/START-HERE.md"')
        kit.home.cache_clear()
        self.addCleanup(kit.home.cache_clear)
        path = unittest.mock.patch.dict('os.environ', PATH=f'{self.root}/bin:{os.environ["PATH"]}')
        path.start()
        self.addCleanup(path.stop)
        self.used = {'lower': [], 'middle': ['lower'], 'upper': ['lower', 'middle']}

    def given(self, words, flag):
        return [after.replace(f'{self.root}/', '') for word, after in zip(words, words[1:]) if word == flag]

    def test_crates_below(self):
        self.assertEqual(kit.below(self.used, 'upper'), ['lower', 'middle'])
        self.assertEqual(kit.uses('# a: b\nlower:\nupper_c staticlib: lower upper # c\n'), {'lower': [], 'upper_c': ['lower', 'upper']})

    def test_libraries_as_they_are_built(self):
        words = kit.of_libraries(self.root, self.used, 'middle')
        self.assertEqual(self.given(words, '--extern'), ['lower=crates/lower/out/rlib/lower.rlib'])
        self.assertEqual(self.given(words, '-L'), ['dependency=crates/lower/out/rlib'])

    def test_each_crate_is_given_those_that_it_uses(self):
        words = kit.of_sources(self.root, self.used, ['lower', 'middle'])
        self.assertEqual(self.given(words, '--lib'), ['lower:core,std=crates/lower/src/lib.rt', 'middle:core,std,lower=crates/middle/src/lib.rt'])

    def test_crate(self):
        words = kit.words(self.root, 'upper', ['--given'])
        self.assertEqual(words[:5], ['--crate-name', 'upper', 'src/lib.rt', '--extern', f'std={self.root}/kit/rlibs/std.rlib'])
        self.assertEqual(self.given(words, '--logic-built'), ['kit/logic_built'])
        self.assertEqual(words[-2:], ['--links', 'upper='])

    def test_std_as_source(self):
        words = kit.of_kit_sources()
        self.assertEqual(self.given(words, '--lib'), ['std:core,std_io=kit/rattle/std/src/lib.rt', 'core:=kit/rattle/core/src/lib.rt',
                                                      'std_io:core=kit/rattle/std_io/src/lib.rt'])

    def test_layout(self):
        for body, status in (('[ "${3##*/}" = A.antt ] && [ $# = 5 ]', 0), ('exit 1', 1)):
            self.program('kit/bin/rattle', f'[ "$1 $2" = "fmt --check" ] && {body}')
            self.write('crates/lower/out/a.rt', 'left by a build')
            with contextlib.redirect_stdout(io.StringIO()) as said:
                self.assertEqual(kit.layout(self.root), status)
            self.assertEqual(said.getvalue(), f'layout: {"3 files looked at" if status == 0 else "not as rt fmt lays them out"}\n')
        with contextlib.redirect_stdout(io.StringIO()):
            self.assertEqual(kit.layout(self.root / 'nowhere'), 1)

    def program(self, name, text):
        self.write(name, f'#!/bin/sh\n{text}\n')
        (self.root / name).chmod(0o755)


if __name__ == '__main__':
    unittest.main()
