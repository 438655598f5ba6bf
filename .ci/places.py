#!/usr/bin/env python3
"""Checks that the definition can be held beside the original and the specification.

- Each function of the definition has a comment, above it or behind its signature, that names a
  function or file of the original with a line, or the place of the specification whose it is.
- Where a comment names a function of the original with a line, that function has this line.
- Each function of the original's pass is named with a line.
- Each paragraph or section that any file cites, as SPECIFICATION 4.7, or 2 and 4, is there; no file
  cites a document that is not in the repository.

One line for each breach. usage: places.py [ROOT]
"""

import pathlib
import re
import sys

from lexer import BUILT, files, line_of

FILES = ("Walks", "Analysis", "Substitute", "Plan", "Apply", "Run")
DEFINITION = "crates/reference/specs"
ORIGINAL = "harness/original/upstream/crates/antlr-rust-codegen/src/grammar/mutual_recursion.rs"
SPECIFICATION = "docs/SPECIFICATION.md"
# The original's own files cite nothing of ours.
LEFT_OUT = (*BUILT, "harness/original/upstream", "harness/answers")
SUFFIXES = (".antt", ".rt", ".rs", ".py", ".sh", ".md", ".edit", ".words", ".txt")

SIGNATURE = re.compile(r"\s*(?:abbrev|unfoldable) pub (\S+) :")
# 'name, l. 12' or 'name, l. 12 to 20'; 'l. 12 to 20 of name'
NAMED = re.compile(r"\b(\w+), l\. (\d+)(?: to (\d+))?")
NAMED_AFTER = re.compile(r"\bl\. (\d+)(?: to (\d+))? of (\w+)")
ADDED = re.compile(r"\bSPECIFICATION \d")
# 'SPECIFICATION 4.7', 'SPECIFICATION 3.1 to 3.4, 4 and 12', over a line's end and the marks of a comment too
NUMBER = r"\d+(?:\.\d+)?"
CITED = re.compile(rf"\bSPECIFICATION\s+(?:[/#*-]+\s+)?({NUMBER}(?:(?:,? and |, | to ){NUMBER})*)")
ELSEWHERE = re.compile(r"\bdocument 0\d\b", re.I)
SECTION = re.compile(r"^## (\d+)\.", re.M)
PARAGRAPH = re.compile(r"^(?:- )?\*\*(\d+\.\d+)\*", re.M)


def spans(text):
    """The first and last line of each function in front of the original's tests."""
    found, lines = {}, text.split("\n")
    for first, line in enumerate(lines, 1):
        if line == "#[cfg(test)]":
            break
        start = re.match(r"(\s*)(?:pub\(crate\) )?(?:const )?fn (\w+)", line)
        if start:
            last = lines.index(start[1] + "}", first) + 1
            found[start[2]] = (first, last)
    return found


def comment(lines, at):
    """The comment of the signature in a line: above it, and behind it."""
    above = []
    while at > len(above) and re.match(r"\s*--|infix", lines[at - 1 - len(above)]):
        above.insert(0, lines[at - 1 - len(above)])
    behind = lines[at].partition("--")[2]
    return " ".join([line.strip().removeprefix("--").strip() for line in above] + [behind.strip()])


def has_place(text):
    return any(form.search(text) for form in (NAMED, NAMED_AFTER, ADDED))


def comments(lines):
    """Each run of comment lines, and each comment behind a line, with its line."""
    text, start = [], 0
    for number, line in enumerate(lines + [""], 1):
        own = re.match(r"\s*--(.*)", line)
        if own:
            start = start or number
            text.append(own[1].strip())
            continue
        if text:
            yield start, " ".join(text)
        text, start = [], 0
        if "--" in line:
            yield number, line.partition("--")[2]


def places(text):
    """The functions that a comment names, each with the lines that it gives."""
    for name, first, last in NAMED.findall(text):
        yield name, int(first), int(last or first)
    for first, last, name in NAMED_AFTER.findall(text):
        yield name, int(first), int(last or first)


def breaches_of_places(root):
    original, named = spans((root / ORIGINAL).read_text()), set()
    for file in FILES:
        path = root / DEFINITION / f"{file}.antt"
        lines = path.read_text().split("\n")
        for at, line in enumerate(lines):
            function = SIGNATURE.match(line)
            if function and not has_place(comment(lines, at)):
                yield f"{path}:{at + 1}: {function[1]} has no place in the original"
        for number, text in comments(lines):
            for name, first, last in places(text):
                if name not in original:
                    continue
                named.add(name)
                if not original[name][0] <= first <= last <= original[name][1]:
                    yield f"{path}:{number}: {name} is not in lines {first} to {last}"
    for name in sorted(set(original) - named):
        yield f"{root / ORIGINAL}:{original[name][0]}: {name} is named nowhere"


def breaches_of_citations(root):
    specification = (root / SPECIFICATION).read_text(encoding="utf-8")
    there = set(SECTION.findall(specification)) | set(PARAGRAPH.findall(specification))
    for path in files(root, SUFFIXES, LEFT_OUT):
        text = path.read_text(encoding="utf-8", errors="replace")
        for cited in CITED.finditer(text):
            for number in re.findall(NUMBER, cited[1]):
                if number not in there:
                    yield f"{path}:{line_of(text, cited.start())}: SPECIFICATION has no {number}"
        for cited in ELSEWHERE.finditer(text):
            yield f"{path}:{line_of(text, cited.start())}: {cited[0]} is not in the repository"


def breaches(root):
    yield from breaches_of_places(root)
    yield from breaches_of_citations(root)


def main():
    found = list(breaches(pathlib.Path(sys.argv[1] if len(sys.argv) > 1 else ".")))
    print("\n".join(found) if found else "places: every function of the definition has its place, every citation its paragraph")
    sys.exit(1 if found else 0)


if __name__ == "__main__":
    main()
