#!/usr/bin/env python3
"""Checks that files can be read top to bottom.

- No file of the crates, the tests and the gate has more than 300 lines.
- No line of a crate's specs, and none of a contract in its code, has more than 140 columns; what a ghost member or
  a ghost field says is of a contract.

One line for each breach. usage: lines.py [ROOT]
"""

import pathlib
import sys

from heads import functions, ghost_parts
from lexer import BUILT, files, line_of, rattle_words

LINES = 300
COLUMNS = 140
READ = (("crates", (".antt", ".rt")), ("tests", (".py",)), (".ci", (".py", "run")))


def contract_lines(text):
    """The numbers of the lines that hold a clause of a function, or what is ghost in a trait, an `impl` or a type."""
    for function in functions(text):
        for _, clause, start in function.clauses:
            first = line_of(text, start)
            yield from range(first, first + clause.count("\n") + 1)
    for word, at in rattle_words(text):
        if word == "ghost":
            name, _, end = ghost_parts(text, at + len(word))
            yield from range(line_of(text, at), line_of(text, end) + 1) if name != "use" else ()


def wide_lines(path, text):
    """The numbers of the lines that must not be wide: all of specs, those of contracts in code."""
    if path.suffix == ".rt":
        return sorted(set(contract_lines(text)))
    return range(1, text.count("\n") + 1) if "specs" in path.parts else ()


def breaches(root):
    for file in files(root, tuple(suffix for _, suffixes in READ for suffix in suffixes), BUILT):
        path = file.relative_to(root)
        if not any(path.parts[0] == folder and path.name.endswith(suffixes) for folder, suffixes in READ):
            continue
        text = file.read_text(encoding="utf-8")
        lines = text.split("\n")
        if len(lines) - 1 > LINES:
            yield f"{path}: {len(lines) - 1} lines"
        for number in wide_lines(path, text):
            if len(lines[number - 1]) > COLUMNS:
                yield f"{path}:{number}: {len(lines[number - 1])} columns"


def main():
    root = pathlib.Path(sys.argv[1] if len(sys.argv) > 1 else pathlib.Path(__file__).resolve().parent.parent)
    found = list(breaches(root))
    print("\n".join(found) if found else "lines: no file is too long, and no line too wide")
    return 1 if found else 0


if __name__ == "__main__":
    sys.exit(main())
