#!/usr/bin/env python3
"""Holds two folders of archives to each other by what they answer: every function of all, on every stored sheet, to the last
byte that is handed over. For archives that two kits have made of the same sources.

Compiled with gcc. The last line is 'N passed, 0 failed' where they answer alike on N sheets.

usage: alike.py FOLDER FOLDER
"""

import pathlib
import re
import sys
import tempfile

import compiled
import words
from answers import stored


class Sheet:
    """A sheet with a name, in the form of a stored answer."""

    def __init__(self, name, sheet):
        self.name, self.sheet = name, sheet


def gathered(root=compiled.ROOT):
    """The sheets of the stored answers and those of tests/reading."""
    reading = sorted((root / "tests" / "reading").glob("*.words"))
    return stored.gather([root / "harness" / "answers"]) + [Sheet(file.stem, words.sheet(file.read_text(encoding="utf-8"))) for file in reading]


def answers(folder, sheets, room):
    """What the archives of a folder say of each sheet, as lines."""
    made = room / f"answers-{abs(hash(folder))}"
    archives = [folder / f"lib{name}.a" for name in compiled.NAMES]
    source = compiled.ROOT / "tests" / "c" / "answers.c"
    said = compiled.run("gcc", "-std=c11", "-O1", "-I", compiled.ROOT / "include", source, *archives, "-o", made)
    if said.returncode != 0:
        raise SystemExit(f"alike: {folder}: {said.stderr.decode()}")
    said = compiled.run(made, given=compiled.in_line(sheets))
    if said.returncode != 0:
        raise SystemExit(f"alike: {folder}: the program ended with status {said.returncode}")
    return re.split(r"^sheet \d+\n", said.stdout.decode(), flags=re.M)[1:]


def parted(sheets, one, other):
    """What is told otherwise of each sheet, or nothing."""
    for sheet, left, right in zip(sheets, one, other, strict=True):
        lines = [pair for pair in zip(left.splitlines(), right.splitlines()) if pair[0] != pair[1]]
        yield None if left == right else f"alike: {sheet.name}: {lines[0][0]!r} and {lines[0][1]!r}" if lines else f"alike: {sheet.name}: more calls"


def main():
    if len(sys.argv) != 3:
        print("usage: alike.py FOLDER FOLDER")
        return 2
    sheets = gathered()
    with tempfile.TemporaryDirectory() as room:
        one, other = (answers(pathlib.Path(folder).resolve(), sheets, pathlib.Path(room)) for folder in sys.argv[1:])
    found = list(parted(sheets, one, other))
    for complaint in filter(None, found):
        print(complaint)
    print(f"{found.count(None)} passed, {len(found) - found.count(None)} failed")
    return 0 if found and not any(found) else 1


if __name__ == "__main__":
    sys.exit(main())
