#!/usr/bin/env python3
"""Runs a reader on every sheet of tests/reading and compares the line that it prints: `refused` and the number, or `sheet` and the
numbers of rules, alternatives, elements and preserved ids, nested nodes counted (SPECIFICATION 3.9).

A sheet's name begins with what it is about:
  length                                          SPECIFICATION 4.1
  kind, first-distance, second-distance           4.3
  name, label, quantifier, depth, rules, list, .. 4.4
  twice                                           4.5
  counter                                         4.6
  order                                           4.20
  end-of-input                                    2.11, 2.12
  nullable, corners, cycles                       6
  inlining                                        7.5
  plan                                            7 to 10
  pass                                            3, 4.7 to 4.9, 5, 11, 12
  convert                                         the conversion of old sheets
  case                                            15, by its number there

usage: reading.py PROGRAM   (`first`, over the proved reader, or `second`, of harness/reader)
"""

import os
import pathlib
import subprocess
import sys

import words

HERE = pathlib.Path(__file__).resolve().parent
ROOT = HERE.parent
SHEETS = HERE / "reading"
LONGEST_RUN = 20


def printed(program, sheet):
    """What the program writes, or what went wrong with its run."""
    try:
        run = subprocess.run([program], input=sheet, capture_output=True, timeout=LONGEST_RUN)
    except (OSError, subprocess.TimeoutExpired) as error:
        return str(error)
    if run.returncode != 0:
        return f"status {run.returncode}"
    return run.stdout.decode("utf-8", "replace")


def stored():
    """Each stored sheet: its name, its bytes, the text expected."""
    for file in sorted(SHEETS.glob("*.words")):
        sheet = words.sheet(file.read_text(encoding="utf-8"))
        expected = file.with_suffix(".expected")
        yield file.stem, sheet, expected.read_text(encoding="utf-8") if expected.exists() else None


def pairs_complete():
    """No .words without .expected, nor the other way round."""
    names = {kind: {f.stem for f in SHEETS.glob(f"*.{kind}")} for kind in ("words", "expected")}
    return names["words"] == names["expected"] and bool(names["words"])


def example_is_case_1():
    """The sheet of the README is the first stored one."""
    case = (SHEETS / "case-01.words").read_text(encoding="utf-8")
    return (ROOT / "examples" / "case-1.sheet").read_bytes() == words.sheet(case)


def main():
    if len(sys.argv) != 2 or not os.access(sys.argv[1], os.X_OK):
        print("usage: reading.py PROGRAM")
        return 2
    program = sys.argv[1]
    passed, failed = 0, 0
    for name, sheet, expected in stored():
        got = printed(program, sheet)
        if got == expected:
            passed += 1
            continue
        failed += 1
        print(f"reading/{name}: expected {expected!r}, got {got!r}")
    for check in (pairs_complete, example_is_case_1):
        if check():
            passed += 1
            continue
        failed += 1
        print(f"reading: not so: {check.__doc__}")
    print(f"{passed} passed, {failed} failed")
    return 1 if failed else 0


if __name__ == "__main__":
    sys.exit(main())
