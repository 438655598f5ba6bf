"""Scratch repositories in which the checker computes."""
import re
import shutil
import subprocess
import sys
from pathlib import Path

import kit
from answers.claims import claim
from answers.definitions import copy_definitions, crates_of, imports, opened

HEAD = Path(__file__).with_name('head.txt')
# what the head takes from the crates
NAMES = '''OptionDecl ElementHead Leaf Element leaf block AlternativeOf Block Rule body_depth Sheet got bad label_of leaf_at
    bytes encode sheet_of rules_end read refused sheet body_ids same Corners rust textbook grammar_of left_corner_cycles
    clause_number decided declined overfull standard plan_cycle Node Origin Entry provenance origins inner_depth Answer
    refusal answer answer_reading answer_to Outcome outcome first_form Converted conversion'''.split()
# what the checker says where it ends for its own limits
STOPS = ('stopped at the step limit', 'outgrew the memory limit', 'antt ran out of')
CHECKED = 'answers'   # the crate of the checks


class Room:
    """A scratch repository whose crate `answers` holds the checks of one batch."""

    def __init__(self, place, crates):
        self.place, self.failed = place, ''
        self.checks = place / f'crates/{CHECKED}/specs/Checks.antt'
        (place / f'crates/{CHECKED}/src').mkdir(parents=True, exist_ok=True)
        self.checks.parent.mkdir(parents=True, exist_ok=True)
        names = crates_of(crates, 'reference')
        for name in names:
            copy_definitions(crates / name, place / 'crates' / name)
        self.used = {name: names[:at] for at, name in enumerate([*names, CHECKED])}
        (place / f'crates/{CHECKED}/src/lib.rt').write_text('// Checks only, in specs/.\n')
        (place / f'crates/{CHECKED}/specs/Lib.antt').write_text('pub mod Checks\n')
        head = HEAD.read_text().replace('IMPORTS', imports(place / 'crates', names, NAMES))
        self.head = head.replace('OPENED', opened(place / 'crates', names))

    def given(self, name):
        """The words by which a crate is given those below it: as they are built here."""
        return kit.of_libraries(self.place, self.used, name)

    def rattle(self, verb, name, *more):
        """A check or a build of a crate."""
        words = kit.words(self.place, name, self.given(name))
        return subprocess.run([kit.rattle(), verb, *words, *more], cwd=self.place / 'crates' / name, capture_output=True, text=True)

    def prepare(self):
        """The crates below the checks, accepted."""
        for name in kit.below(self.used, CHECKED):
            library = kit.built(self.place, name)
            library.parent.mkdir(parents=True, exist_ok=True)
            done = self.rattle('build', name, '-o', library)
            if done.returncode:
                sys.exit(f'the definitions are not accepted:\n{(done.stdout + done.stderr)[-3000:]}')

    def beside(self, place):
        """A second room with the same crates, accepted as here."""
        shutil.rmtree(place, ignore_errors=True)
        shutil.copytree(self.place, place)
        other = Room.__new__(Room)
        other.place, other.head, other.failed, other.used = place, self.head, '', self.used
        other.checks = place / self.checks.relative_to(self.place)
        return other

    def run(self, batch, differs=False):
        """The names in a batch whose equations are not closed, and those that were too large. Where the answers have
        to differ the equations say so."""
        text, at = self.head, []
        for index, asked in enumerate(batch):
            at.append(text.count('\n') + 1)
            text += claim(index, asked, differs)
        self.checks.write_text(text)
        done = self.rattle('check', CHECKED)
        said = done.stdout + done.stderr
        wrong, large = {}, {}
        for line, message in re.findall(r'Checks\.antt:(\d+):\d+: error: (.*)', said):
            before = [asked.name for asked, start in zip(batch, at) if start <= int(line)]
            if not before:
                self.failed = f'the checks cannot be read:\n{message}'
                return {}, {}
            (large if any(stop in message for stop in STOPS) else wrong)[before[-1]] = message[:200]
        if done.returncode and not wrong and not large:
            self.failed = f'the checker failed:\n{said[-3000:]}'
        return wrong, large
