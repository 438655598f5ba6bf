"""Edits that make a definition or a program wrong.

    # what is wrong
    refused: CRATE      where the prover must refuse it: the edited crate; or CRATE/MODULE, the module of specs at which a
                        crate of laws above it is refused first; `answers` where no law speaks of it, and the stored
                        answer alone does
    shown: NAME         what is answered otherwise: a stored answer of the harness, or for code a sheet of tests/reading, which
                        is `reading: NAME` for a definition; or `string NAME`, a field of `StringsTold`, for what a grammar
                        derives (derived.py)
    tree: TERM          where that string is not derived, the tree by which the edited definitions derive it
    when: asked         where the gate need not try it: another edit is much like it
    file: FILE          of the crate; then pairs of
    old: TEXT           which stands there once; a text of more lines has an `old:` for each
    new: TEXT           as many lines

An edit stands in a folder named like its crate. Those of one line are the form that `rt must-fail` takes: a copy of them may stand
in the crate's must-fail.
"""
import re

import kit

ALONE = 'answers'
ASKED = 'asked'


class Edit:
    def __init__(self, path):
        self.path, self.crate, self.name = path, path.parent.name, path.stem
        self.what = self.refused = self.module = self.shown = self.tree = self.when = ''
        self.pairs, file, before = [], '', None
        for line in path.read_text(encoding='utf-8').splitlines():
            key, _, rest = line.partition(' ')
            if key == '#':
                self.what = self.what or rest
            elif key == 'refused:':
                self.refused, _, self.module = rest.partition('/')
            elif key == 'shown:':
                self.shown = rest
            elif key == 'tree:':
                self.tree = rest
            elif key == 'when:':
                self.when = rest
            elif key == 'file:':
                file = rest
            elif key in ('old:', 'new:'):
                self.take(file, key, rest, key == before)
            before = key

    def take(self, file, key, text, goes_on):
        """A line of the text in front of or behind an edit."""
        if key == 'old:' and not goes_on:
            self.pairs.append([file, text, ''])
            return
        at = 1 if key == 'old:' else 2
        pair = self.pairs[-1] if self.pairs else ['', '', '']
        pair[at] = f'{pair[at]}\n{text}' if goes_on else text

    def __str__(self):
        return f'{self.crate}/{self.name}'

    def is_code(self):
        return all(file.startswith('src/') for file, _, _ in self.pairs)

    def is_refused_above(self):
        return self.refused not in (self.crate, ALONE)

    def made(self, crate):
        """The texts of the files that the edit changes, of a crate's folder; and what does not fit."""
        texts, misfits = {}, []
        for file, old, new in self.pairs:
            path = crate / file
            if path not in texts and not path.is_file():
                misfits.append(f'{self}: there is no {file}')
                continue
            text = texts.get(path) or path.read_text(encoding='utf-8')
            if not old or text.count(old) != 1:
                misfits.append(f'{self}: {file}: this stands {text.count(old) if old else 0} times: {old}')
            texts[path] = text.replace(old, new, 1)
        return texts, misfits

    def misfits(self, crates, known):
        """What keeps the edit from being tried; `known` tells which names `shown:` may have."""
        found = []
        if not self.what or not self.pairs:
            found.append(f'{self}: it does not say what is wrong, or has no old: and new:')
        if self.crate not in crates.reached(self.refused) and (self.refused != ALONE or self.is_code()):
            found.append(f'{self}: refused: {self.refused or "nowhere"}, which is not {self.crate} and does not use it')
        elif bool(self.module) != self.is_refused_above():
            found.append(f'{self}: refused: {self.refused}, where a crate above {self.crate}, and it alone, has a module')
        elif self.module and not (crates.folder / self.refused / 'specs' / f'{self.module}.antt').is_file():
            found.append(f'{self}: refused: {self.refused} has no specs/{self.module}.antt')
        if self.when not in ('', ASKED):
            found.append(f'{self}: when: {self.when}, which is not {ASKED}')
        if self.shown not in known(self):
            found.append(f'{self}: shown: there is no stored {self.shown or "name"}')
        return found + self.made(crates.folder / self.crate)[1]


def read(folder):
    """All edits below a folder, those of code first, since they take longer."""
    found = [Edit(path) for path in sorted(folder.glob('*/*.edit'))]
    return sorted(found, key=lambda edit: not edit.is_code())


class Crates:
    """The crates of a repository and what each uses, as its crates.txt has them."""

    def __init__(self, folder):
        self.folder = folder
        self.uses = kit.uses((folder.parent / 'crates.txt').read_text(encoding='utf-8'))

    def reached(self, name):
        """A crate and all of the repository that it uses, itself last."""
        return [*kit.below(self.uses, name), name] if name in self.uses else []

    def needed(self, some, program):
        """The crates that edits change and those that a program's text names, with all that these use."""
        named = [name for name in self.uses if re.search(rf'\b{name}::', program)]
        tops = [*(edit.crate for edit in some), *named]
        return list(dict.fromkeys(name for top in tops for name in self.reached(top)))

    def must_fail(self):
        """The edits that `rt ci` tries by itself, as paths."""
        return sorted(path for name in self.uses for path in (self.folder / name / 'must-fail').glob('*'))

    def copies(self, edit):
        """Those of them that are an edit of tests/wrong, to the last byte."""
        path = self.folder / edit.crate / 'must-fail' / edit.path.name
        return [path] if path.is_file() and path.read_bytes() == edit.path.read_bytes() else []
