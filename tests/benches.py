"""Where wrong definitions and wrong programs are tried: what each answers, and where it is refused."""
import re
import shutil
import subprocess
from pathlib import Path

import check_answers
import kit
from answers.claims import claim
from answers.definitions import copy_definitions, copy_part
from answers.room import STOPS
from rooms import CHECKS, ERROR, Room, refused

DRIVER, MAIN = 'driver', Path(__file__).with_name('wrong') / 'main.txt'
SECONDS = 20   # of a try; what ends takes far less
# How a try of a case ends, and how it does if it ends as it should.
CASE, ENDED = re.compile(r'^case=(\S+) (run=.*)', re.M), re.compile(r'run=ended status=0 runners=\d')


class Answers(check_answers.Room):
    """What computes edited definitions: they are given as sources, over what was checked of them before."""

    def given(self, name):
        return kit.of_sources(self.place, self.used, self.used[name])

    def rattle(self, verb, name, *more):
        return super().rattle(verb, name, '--incremental', self.place / 'checked' / name, *more)


class Definitions(Room):
    """Definitions without their laws and tables, and the crates of laws above them. The crates below a crate of laws are
    checked in its own runs, over its own folder: most of a run is loading."""

    def __init__(self, place, crates, asked):
        self.defined = sorted({edit.crate for edit in asked})
        self.tops = sorted({edit.refused for edit in asked if edit.is_refused_above()})
        # check_answers makes its own crate of checks; the crates of laws are put beside it
        self.answers = Answers(place, crates.folder)
        needed = [name for top in [*self.tops, *self.answers.used['answers']] for name in crates.reached(top)]
        super().__init__(place, crates, list(dict.fromkeys(needed)))
        for top in self.tops:
            self.guest(top)
        self.kept = {top: self.warm(top) for top in self.tops}

    def copy(self, name):
        # the laws of a crate that has a folder of them are used by those above
        if name in self.defined and not (self.crates.folder / name / 'specs/Laws').is_dir():
            copy_definitions(self.crates.folder / name, self.place / 'crates' / name)
        else:
            super().copy(name)

    def accepted(self):
        """That each crate of laws is accepted, whole and without an edit."""
        for top in self.tops:
            self.accepts(top)

    def guest(self, crate, *asked):
        """Puts a module beside a crate's own: what a computation needs, and for each answer that the definition gives
        something else than is stored. One check then serves for both, since most of it is loading."""
        texts = [claim(index, one, differs=True) for index, one in enumerate(asked)]
        (self.place / 'crates' / crate / CHECKS).write_text(self.answers.head + ''.join(texts), encoding='utf-8')
        library = self.place / 'crates' / crate / 'specs/Lib.antt'
        lines = library.read_text(encoding='utf-8')
        if 'pub mod Checks\n' not in lines:
            library.write_text(lines + 'pub mod Checks\n', encoding='utf-8')

    def tried(self, edits, asked):
        """Of edits that name the same module: each with whether its answer differs, where it is refused, why if nowhere.
        The module and what it uses are accepted without an edit first."""
        crate, module = edits[0].refused, edits[0].module
        if not module:
            return [(edit, self.differs(edit, asked[edit.shown]), None, None) for edit in edits]
        copy_part(self.crates.folder / crate, self.place / 'crates' / crate, module.replace('/', '.'))
        self.guest(crate)
        self.accepts(crate)
        found = [(edit, *self.of(edit, asked[edit.shown])) for edit in edits]
        self.copy(crate)
        self.guest(crate)
        return found

    def of(self, edit, asked):
        self.guest(edit.refused, asked)
        self.make(edit)
        differs, where, why = self.differs_and_refusal(edit.refused)
        self.undo()
        self.kept[edit.refused].restore()
        if differs is None:
            differs = self.differs(edit, asked)
        if where and not where.endswith(f' in crates/{edit.refused}/specs/{edit.module}.antt'):
            return differs, None, f'it is refused at {where}, not in {edit.refused}/{edit.module}'
        return differs, where, why

    def differs(self, edit, *asked):
        """Whether the edited definitions are shown, by computing, to give something else than is stored of each."""
        self.make(edit)
        same, large = self.answers.run(asked, differs=True)
        self.undo()
        if large or self.answers.failed:
            raise SystemExit(f'{self.place} cannot compute {edit}: {self.answers.failed or large}')
        return not same

    def differs_and_refusal(self, crate):
        """Whether what stands in the guest is so, where the crate is refused, and why if nowhere. Where the guest is not
        reached, nothing is known of it."""
        status, said = self.check(crate)
        if not re.search(rf'^crate {crate}: modules ', said, re.M):
            return (None, *refused(crate, status, said))
        open_equations = [found for found in ERROR.finditer(said) if found[2] == CHECKS]
        if any(found[3] != 'a0' or any(stop in found[4] for stop in STOPS) for found in open_equations):
            raise SystemExit(f'{self.place} cannot compute: {open_equations[0][0]}')
        return (not open_equations, *refused(crate, status, said))


class Programs(Room):
    """Crates of code, and a program over them that prints a digest of what they tell of a sheet. A crate is checked over those
    below it as they were built; the program is tried over all of them as sources."""

    def __init__(self, place, crates, asked, built, digest):
        super().__init__(place, crates, crates.needed(asked, digest))
        self.built, self.digest = built, digest

    def given(self, crate):
        return kit.of_libraries(self.built, self.crates.uses, crate)

    # ---- what the prover says

    def refusals(self, edits, linked):
        """Of edits of one crate: each with where it is refused, and why if nowhere. The crate is accepted without an edit
        first and at the end."""
        crate, found = edits[0].crate, []
        kept = None if all(edit in linked for edit in edits) else self.warm(crate)
        for edit in edits:
            where = (f'{crate}/must-fail, by rt ci', None) if edit in linked else self.edited_refusal(edit, kept)
            found.append((edit, *where))
        if kept:
            self.accepts(crate)
        return found

    def edited_refusal(self, edit, kept):
        self.make(edit)
        where = self.refusal(edit.crate)
        self.undo()
        kept.restore()
        return where

    # ---- what the program prints

    def differing(self, edits, sheets):
        """Whether each of some edits changes what the program prints of its sheet, or how that ends. Most of a try is making
        the program, so that one has all: the crates as they are, and for each edit copies of its crate and of those above."""
        batch = self.place / 'batch'
        shutil.rmtree(batch, ignore_errors=True)
        given, modules = kit.libraries(self.place, self.crates.uses, self.names), [self.digest]
        for number, edit in enumerate(edits, 1):
            names = {name: f'{name}_{number}' for name in self.names if edit.crate in self.crates.reached(name)}
            given += self.copies(batch, edit, names)
            modules.append(renamed(self.digest, names))
        self.write_program(batch / 'crates' / DRIVER / 'src', modules)
        cases = batch / 'cases'
        cases.mkdir()
        for number, edit in enumerate(edits, 1):
            (cases / f'{number}-before').write_bytes(framed(0, sheets(edit.shown)))
            (cases / f'{number}-after').write_bytes(framed(number, sheets(edit.shown)))
        found = self.attempt(batch / 'crates' / DRIVER, cases, given)
        for number, edit in enumerate(edits, 1):
            before = found.get(f'{number}-before', '')
            if not re.fullmatch(r' \d+\n', before):
                raise SystemExit(f'the program without an edit does not tell of {edit.shown} in {self.place}: {before}')
        return {edit: found.get(f'{number}-after') != found[f'{number}-before'] for number, edit in enumerate(edits, 1)}

    def copies(self, batch, edit, names):
        """Makes copies under other names of an edited crate and of those above it; the words that give them."""
        self.make(edit)
        for name, other in names.items():
            own = {crate: to for crate, to in names.items() if crate != name}
            source = self.place / 'crates' / name / 'src'
            for path in source.rglob('*.rt'):
                copy = batch / 'crates' / other / 'src' / path.relative_to(source)
                copy.parent.mkdir(parents=True, exist_ok=True)
                copy.write_text(renamed(path.read_text(encoding='utf-8'), own), encoding='utf-8')
        self.undo()
        used = {other: [names.get(own, own) for own in self.crates.uses[name]] for name, other in names.items()}
        return kit.libraries(batch, used, used)

    def write_program(self, folder, modules):
        folder.mkdir(parents=True)
        for number, text in enumerate(modules):
            (folder / f'v{number}.rt').write_text(text, encoding='utf-8')
        numbers = range(len(modules))
        text = MAIN.read_text(encoding='utf-8').replace('MODULES', '\n'.join(f'mod v{number};' for number in numbers))
        text = text.replace('ARMS', '\n'.join(f'        {number} => v{number}::digest(asked),' for number in numbers))
        (folder / 'main.rt').write_text(text, encoding='utf-8')

    def attempt(self, program, cases, given):
        """What a try of the program prints of each case, by its name; or how it ends, if not as it should. The interpreter may
        have too few steps, and then what is compiled tells alone; else they agree."""
        words = [*kit.trying(seconds=SECONDS), '--cases', cases, '--crate-name', DRIVER, 'src/main.rt', *given, *kit.of_kit_sources()]
        done = subprocess.run(words, cwd=program, capture_output=True, text=True, errors='replace', stdin=subprocess.DEVNULL)
        ends, parts = dict(CASE.findall(done.stderr)), re.split(r'^== (\S+)\n', done.stdout, flags=re.M)[1:]
        if not ends:
            raise SystemExit(f'the program does not run in {self.place}:\n{(done.stdout + done.stderr)[-1500:]}')
        texts = dict(zip(parts[::2], parts[1::2]))
        return {name: texts.get(name, '') if ENDED.match(how) else how for name, how in ends.items()}


def renamed(text, names):
    """A text of code in which paths begin with other crates' names."""
    if not names:
        return text
    return re.sub(rf'(?<![\w:.])({"|".join(names)})(?=::)', lambda found: names[found[1]], text)


def framed(variant, asked):
    """What is asked of a variant, as the program takes it."""
    return (len(asked) + 1).to_bytes(4, 'little') + bytes([variant]) + asked
