#!/usr/bin/env python3
"""Shows that wrong definitions and wrong programs are wrong, and that the prover refuses them.

    wrong.py [options] [NAME...]

Each edit of tests/wrong (its form is in edits.py) is tried on copies of the crates. An edited definition is computed on
the stored answer, the call of `outcome` or the sheet of tests/reading that the edit names, as check_answers.py does, or
shown wrong by a string that a grammar derives or does not (derived.py); edited code is run, unproved, on the sheet that it
names, by the program in tests/wrong/main.txt, which prints the digest in driver.txt, or that in pass.txt or convert.txt where the
sheet is named for the whole pass or for the conversion. What comes out must differ from what the unedited one gives, and the prover
must refuse the edit: edited code in its crate, an edited definition at the module of laws that the edit names, which is checked with
what it uses alone. An edit that is accepted, that is refused at another module, or that answers as before, fails.

The edits of tests/equal are definitions written otherwise, with the same answers. The prover refuses them too, so each
must be found to answer as before: a refusal alone shows nothing wrong.

Edits that wait to be asked for (`when: asked`) are tried where they are named, and all of them with --all.

The edits in crates/CRATE/must-fail are copies of some of these. `rt ci` sees that they are refused, so here they are
only shown to be wrong.

Edited code is checked over the libraries below its crate as `rt ci` or `rt check` built them in the repository that --built names.
"""
import argparse
import queue
import shutil
import sys
import tempfile
from concurrent.futures import ThreadPoolExecutor
from pathlib import Path

import check_answers
import edits
import words
from benches import Definitions, Programs
from derived import STRING, Derivations, strings

HERE = Path(__file__).resolve().parent
DEFINITIONS, PROGRAMS = 'definitions', 'programs'
# The digest and its letter, by what a sheet's name begins with.
ASKED = {'plan': ('driver', b'p'), 'pass': ('pass', b''), 'convert': ('convert', b'')}
MANY = 8   # edits that one program shows


class Named:
    """What `shown:` may name: for definitions stored answers, calls of `outcome`, runs that are compared, short sheets of
    tests/reading and strings; for code sheets of tests/reading."""

    def __init__(self, answers, crates=None):
        self.strings = strings(crates) if crates else {}
        self.answers = {short(asked.name): asked for asked in check_answers.all_asked(answers)}
        self.sheets = {path.stem: path for path in (HERE / 'reading').glob('*.words')}

    def of(self, edit):
        return self.sheets if edit.is_code() else self.strings if edit.shown.startswith(STRING) else self.answers

    def sheet(self, name):
        """What the digest is asked for: a letter, for plans where the sheet is named for them, and the sheet."""
        return self.asked(name)[1] + words.sheet(self.sheets[name].read_text(encoding='utf-8'))

    def program(self, edit):
        """The digest that shows an edit of code: that of the whole pass is over more crates."""
        return self.asked(edit.shown)[0] if edit.is_code() else ''

    def asked(self, name):
        return ASKED.get(name.partition('-')[0], ('driver', b'r'))


def short(name):
    """An answer is named without its file, unless that stands in a folder of its own, as those by the textbook do; a call, a run
    that is compared and a sheet of tests/reading with the word in front."""
    file, _, rest = name.partition(': ')
    return rest if file.endswith('.txt') and '/' not in file else name


class Lane:
    """What one of the tries that run side by side works in: rooms of its own, made where they are asked for."""

    def __init__(self, place, trial):
        self.place, self.trial = place, trial
        self.definitions, self.derivations, self.programs = None, None, {}

    def program(self, name):
        """The room of a digest."""
        if name not in self.programs:
            code = [edit for edit in self.trial.asked if self.trial.named.program(edit) == name]
            digest = (HERE / f'wrong/{name}.txt').read_text(encoding='utf-8')
            self.programs[name] = Programs(self.place / name, self.trial.crates, code, self.trial.built, digest)
        return self.programs[name]

    def differing(self, batch):
        """Whether each of some edits of code changes what is printed of its sheet."""
        return self.program(self.trial.named.program(batch[0])).differing(batch, self.trial.named.sheet)

    def tried(self, unit):
        trial, program = self.trial, self.trial.named.program(unit[0])
        if program:
            found = self.program(program).refusals(unit, trial.linked)
            return [(edit, trial.differs[edit], *where) for edit, *where in found]
        if unit[0].shown.startswith(STRING):
            self.derivations = self.derivations or Derivations(self.place / 'derivations', trial.crates)
            return self.derivations.tried(unit, trial.named.strings)
        defined = [edit for edit in trial.asked if not (edit.is_code() or edit.shown.startswith(STRING))]
        self.definitions = self.definitions or Definitions(self.place / 'definitions', trial.crates, defined)
        return [(edit, differs, trial.by_gate(edit) or where, why)
                for edit, differs, where, why in self.definitions.tried(unit, trial.named.answers)]

    def end(self):
        if self.definitions:
            self.definitions.accepted()


class Trial:
    """Edits tried in lanes: those of code together that one program shows, then all together that are refused at the same place."""

    def __init__(self, asked, crates, named, linked, built):
        self.asked, self.crates, self.named, self.linked, self.built = asked, crates, named, linked, built
        self.differs, self.free = {}, queue.Queue()

    def by_gate(self, edit):
        return f'{edit.crate}/must-fail, by rt ci' if edit in self.linked else None

    def batches(self):
        """The edits of code, in lists that one program shows."""
        found = {}
        for edit in self.asked:
            found.setdefault(self.named.program(edit), []).append(edit)
        for program, edits in found.items():
            parts = -(-len(edits) // MANY) if program else 0
            yield from (edits[at::parts] for at in range(parts))

    def units(self):
        """Edits of code by their crate and digest, since they take longer, then definitions; the large units first."""
        found = {}
        for edit in self.asked:
            key = self.named.program(edit), edit.crate, edit.refused, edit.module, edit.shown.startswith(STRING)
            found.setdefault(key, []).append(edit)
        return sorted(found.values(), key=lambda unit: (unit[0].is_code(), len(unit)), reverse=True)

    def of(self, task, *given):
        """What a lane that is free finds by one of its tasks."""
        lane = self.free.get()
        try:
            return task(lane, *given)
        finally:
            self.free.put(lane)

    def run(self, place, at_once):
        """All edits with what was found of them; each lane ends with its crates accepted."""
        lanes = [Lane(place / str(number), self) for number in range(at_once)]
        for lane in lanes:
            self.free.put(lane)
        with ThreadPoolExecutor(at_once) as pool:
            for found in pool.map(lambda batch: self.of(Lane.differing, batch), self.batches()):
                self.differs.update(found)
            for found in pool.map(lambda unit: self.of(Lane.tried, unit), self.units()):
                yield from found
            for _ in pool.map(Lane.end, lanes):
                pass


def told(edit, differs, where, why, equal=False):
    """A line on an edit that was tried, and whether it is as it must be."""
    answer = f'answers {edit.shown} {"otherwise" if differs else "as before"}'
    if equal:
        good = not differs
        return f'{"not taken for wrong" if good else "NOT EQUAL"}: {edit.what}: {answer}', good
    if differs and edit.refused == edits.ALONE:
        return f'wrong: {edit.what}: {answer}, refused by that alone', True
    if differs and where:
        return f'wrong: {edit.what}: {answer}, refused at {where}', True
    if not differs:
        return f'NOT WRONG: {edit}: {edit.what}: {answer}, {f"refused at {where}" if where else why}', False
    return f'NOT REFUSED: {edit}: {edit.what}: {answer}; {why}', False


def strangers(crates, every):
    """What stands in a crate's must-fail and is no copy of an edit that this crate must refuse; and which definition must be
    refused by its own crate and has no copy there."""
    good = [edit for edit in every if edit.refused == edit.crate]
    copies = [path for edit in good for path in crates.copies(edit)]
    for path in crates.must_fail():
        if path not in copies:
            yield f'{path.relative_to(crates.folder)}: it is no copy of an edit of tests/wrong that this crate refuses'
    for edit in good:
        if not edit.is_code() and not crates.copies(edit):
            yield f'{edit}: refused: {edit.crate}, which `rt ci` has no copy of to try; name a module of laws'


def arguments():
    parser = argparse.ArgumentParser(description=__doc__, formatter_class=argparse.RawDescriptionHelpFormatter)
    parser.add_argument('names', nargs='*', help='edits, as CRATE/NAME; where none is given, all but those that wait to be asked for')
    parser.add_argument('--all', action='store_true', help='those too')
    parser.add_argument('--only', choices=(DEFINITIONS, PROGRAMS), help='of these, the edits of definitions or those of code')
    parser.add_argument('--lanes', default=2, type=int, help='how many are tried side by side')
    parser.add_argument('--crates', default=HERE.parent / 'crates', type=Path, help='the folder of crates')
    parser.add_argument('--answers', default=HERE.parent / 'harness/answers', type=Path, help='the stored answers')
    parser.add_argument('--built', default=HERE.parent, type=Path, help='the repository in which the crates are built')
    parser.add_argument('--room', type=Path, help='the scratch folder; a new one, which goes again, if none is named')
    parser.add_argument('--fits', action='store_true', help='see only whether the edits fit the crates')
    return parser.parse_args()


def of_sort(some, only):
    """The edits of definitions or those of code, or all of them."""
    return [edit for edit in some if not only or edit.is_code() == (only == PROGRAMS)]


def fitting(given, crates, named):
    """The edits to try, and those that are equal; the script ends where some do not fit."""
    wrong, equal = edits.read(HERE / 'wrong'), edits.read(HERE / 'equal')
    misfits = list(strangers(crates, wrong))
    if given.names:
        wrong, equal = ([edit for edit in some if str(edit) in given.names] for some in (wrong, equal))
    misfits += [line for edit in wrong + equal for line in edit.misfits(crates, named.of)]
    if misfits:
        raise SystemExit('\n'.join(misfits) + f'\n{len(misfits)} misfits')
    if not (given.names or given.all or given.fits):
        wrong = [edit for edit in wrong if edit.when != edits.ASKED]
    return of_sort(wrong, given.only), of_sort(equal, given.only)


def main():
    given = arguments()
    crates = edits.Crates(given.crates.resolve())
    named = Named([given.answers], crates.folder)
    wrong, equal = fitting(given, crates, named)
    if given.fits or not wrong + equal:
        print(f'{len(wrong)} edits fit, and {len(equal)} equal ones')
        return 0 if given.fits else 1
    linked, failed = [edit for edit in wrong if crates.copies(edit)], 0
    with tempfile.TemporaryDirectory(prefix='wrong-') as made:
        room = (given.room or Path(made)).resolve()
        shutil.rmtree(room, ignore_errors=True)
        for edit, *found in Trial(wrong + equal, crates, named, linked, given.built.resolve()).run(room, given.lanes):
            line, good = told(edit, *found, equal=edit in equal)
            print(line, flush=True)
            failed += not good
    print(f'{len(wrong + equal) - failed} passed, {failed} failed')
    return 1 if failed else 0


if __name__ == '__main__':
    sys.exit(main())
