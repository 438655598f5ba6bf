#!/usr/bin/env python3
"""Runs the pass under valgrind, where that is at hand: a byte read or written beside what is lent is an error. What is lent is
full of junk, so that nothing is told of bytes that nobody wrote. Without valgrind the same program runs by itself.

The archive is libpass.a, as for header.py. The last line is 'N passed, 0 failed' where nothing failed.

usage: memory.py
"""

import pathlib
import shutil
import sys
import tempfile

import compiled
from answers import stored

FOUND = 9   # the status by which valgrind tells that it found something


def built(room, name, *words):
    """The program of tests/c/heap.c."""
    made = room / name
    source = compiled.ROOT / "tests" / "c" / "heap.c"
    said = compiled.run("gcc", "-std=c11", *compiled.WARNINGS, *words, "-I", compiled.ROOT / "include", source, compiled.ARCHIVES / "libpass.a", "-o", made)
    if said.returncode != 0:
        raise SystemExit(said.stderr.decode())
    return made


def checks(room, watch):
    records = stored.gather([compiled.ROOT / "harness" / "answers"])
    sheets = compiled.in_line(records)
    said = compiled.run(*watch, built(room, "heap"), given=sheets)
    yield f"nothing is found on {len(records)} sheets {said.stderr.decode()[-800:]}", said.returncode == 0
    yield "the numbers of each answer", said.stdout == b"".join(compiled.packed(record)[:20] for record in records)
    if watch:
        said = compiled.run(*watch, built(room, "fault", "-DFAULT=1"), given=sheets)
        yield "a work area that is a byte too short is found", said.returncode == FOUND


def main():
    watch = ["valgrind", "--quiet", f"--error-exitcode={FOUND}"] if shutil.which("valgrind") else []
    if not watch:
        print("memory: no valgrind here, so nothing watches")
    with tempfile.TemporaryDirectory() as room:
        return compiled.told("memory", checks(pathlib.Path(room), watch))


if __name__ == "__main__":
    sys.exit(main())
