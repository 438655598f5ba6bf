"""Scratch folders in which edits are tried.

A crate is checked over a folder of what was checked before, its incremental folder. Such a folder is warm once the unedited crate
was accepted over it; it is put back as it was after each edit. A refusal is a refusal; an acceptance is no verdict.
"""
import os
import re
import shutil
import subprocess

import kit

CHECKS = 'specs/Checks.antt'
# What the prover says at a place of the crate that is checked, or of one that it is given as source.
ERROR = re.compile(r'^(?:\S*/crates/(\w+)/|\./)?((?:src|specs|proofs)/\S+?\.antt):\d+:\d+: error: `([^`]+)`(.*)', re.M)
FUNCTION = re.compile(r'^fn (\S+): (?:not proved|no proof)', re.M)


class Room:
    """Copies of crates, which are given to each other as sources."""

    def __init__(self, place, crates, names):
        self.place, self.crates, self.names = place, crates, names
        self.edited = {}
        (place / 'crates').mkdir(parents=True, exist_ok=True)
        for name in names:
            self.copy(name)

    def copy(self, name):
        copy = self.place / 'crates' / name
        shutil.rmtree(copy, ignore_errors=True)
        shutil.copytree(self.crates.folder / name, copy, ignore=shutil.ignore_patterns('must-fail', 'out'))

    def given(self, crate):
        """The words by which a check is given the crates below one."""
        return kit.of_sources(self.place, self.crates.uses, self.crates.reached(crate)[:-1])

    def checked(self, crate):
        """A crate's incremental folder."""
        return self.place / 'checked' / crate

    def check(self, crate):
        """The status of a check of the crate, and what it says."""
        words = kit.words(self.place, crate, self.given(crate))
        return self.run(kit.rattle(), 'check', *words, '--incremental', self.checked(crate), folder=self.place / 'crates' / crate)

    def run(self, *words, folder):
        done = subprocess.run(words, cwd=folder, capture_output=True, text=True, errors='replace', stdin=subprocess.DEVNULL)
        return done.returncode, done.stdout + done.stderr

    def make(self, edit):
        texts, _ = edit.made(self.place / 'crates' / edit.crate)
        self.edited = {path: path.read_bytes() for path in texts}
        for path, text in texts.items():
            path.write_text(text, encoding='utf-8')

    def undo(self):
        for path, text in self.edited.items():
            path.write_bytes(text)
        self.edited = {}

    # ---- what the prover says

    def refusal(self, crate):
        """Where a crate is refused first; or nothing, and why."""
        return refused(crate, *self.check(crate))

    def accepts(self, crate):
        """That the unedited crate is accepted; else the script ends."""
        status, said = self.check(crate)
        if status != 0 or not re.search(r'^logic=proved', said, re.M):
            raise SystemExit(f'{crate} without an edit is not accepted in {self.place}:\n{said[-1500:]}')

    def warm(self, crate):
        """Has the unedited crate accepted, and keeps its incremental folder as it is then."""
        self.accepts(crate)
        return Kept(self.checked(crate), self.place / 'kept' / crate)


def share(source, target):
    """A checked module under a second name, since a check puts another in its place and writes into none; or a copy."""
    if str(source).endswith('.oantt'):
        try:
            return os.link(source, target)
        except OSError:
            pass
    return shutil.copy2(source, target)


def refused(crate, status, said):
    """Where the prover says that a crate is refused first, the guest aside; or nothing, and why."""
    errors = [found for found in ERROR.finditer(said) if found[2] != CHECKS]
    if status == 0 or (not errors and ERROR.search(said)):
        return None, 'the prover accepts it'
    if status != 1 or not re.search(r'^logic=not-proved', said, re.M):
        return None, f'it does not reach the prover of {crate}:\n{said[-1500:]}'
    if errors:
        return f'{errors[0][3]} in crates/{errors[0][1] or crate}/{errors[0][2]}', None
    function = FUNCTION.search(said)
    return (f'{function[1]} in crates/{crate}/src', None) if function else (None, said[-1500:])


class Kept:
    """A folder of checked modules as it was when the unedited crate was accepted."""

    def __init__(self, folder, copy):
        self.folder, self.copy = folder, copy
        shutil.rmtree(copy, ignore_errors=True)
        shutil.copytree(folder, copy, copy_function=share)
        self.files = listed(folder)

    def restore(self):
        there = listed(self.folder)
        for path in there.keys() - self.files.keys():
            (self.folder / path).unlink()
        for path, stamp in self.files.items():
            if there.get(path) != stamp:
                (self.folder / path).parent.mkdir(parents=True, exist_ok=True)
                (self.folder / path).unlink(missing_ok=True)
                share(self.copy / path, self.folder / path)


def listed(folder):
    """The files of a folder, with their times and sizes."""
    files = [path for path in folder.rglob('*') if path.is_file()]
    return {path.relative_to(folder): (path.stat().st_ino, path.stat().st_mtime_ns, path.stat().st_size) for path in files}
