#!/usr/bin/env python3
"""Runs the built `join` on the grammars of examples/, holds what it prints to the files beside them, and tries what it cannot take.

Of NAME.grammar or NAME.sheet NAME.joined is what is printed, NAME.listing the listing; NAME.textbook.joined and
NAME.textbook.listing are the same in the textbook's reading, where they are stored.

usage: join.py [--renew] [PROGRAM]   (the program that ./join builds if none is named; --renew stores what it prints now)
"""

import hashlib
import os
import pathlib
import re
import struct
import subprocess
import sys
import tempfile

import join_convert
import join_faults
import join_files
import join_levels
import join_names
from grouping import grouped
from joining import ROOT, Failure, Run, require, written

EXAMPLES = ROOT / "examples"
BUILT = ROOT / "rust/target/release/join"
STORED = {".joined": [], ".listing": ["--listing"], ".textbook.joined": ["--textbook"], ".textbook.listing": ["--textbook", "--listing"]}
WORDS = {"return": "SENSOR", "flow": "SENSOR", "limit": "LIMIT", "pump": "DEVICE"}
CYCLE = b"e: a | INT; a: e PLUS;\n"
TRAILER = struct.pack("<8I", 2, 0, 0, 0, 0, 0, 0, 0)
# What is in the file, if there is one; the words behind it; the status; how the message goes on.
ERRORS = {
    "wrong text": (b"e: a |\n  INT\na: e;\n", [], 2, "FILE: line 3, column 2: expected an element, `|` or `;`, found `:`"),
    "empty file": (b"", [], 2, "FILE: line 1, column 1: expected a rule, found the end of the text"),
    "no UTF-8": (b"e: \xff;", [], 2, "FILE: line 1, column 4: expected text in UTF-8, found the byte 0xff"),
    "sheet without a trailer": (bytes(28), [], 1, "the sheet is refused by 1: the sheet's length is under 32 bytes"),
    "sheet of no kind": (bytes(32), [], 1, "the sheet is refused by 3: the trailer is bad"),
    "shared ids": (b"e: @7 X | @7 Y;", [], 1, "NAME is refused by 5: two alternatives have the id 7: line 1, column 4 and line 1, col"),
    "missing file": (None, [], 3, "cannot read FILE: "),
    "directory": ("directory", [], 3, "cannot read FILE: "),
    "unwritable sheet": (CYCLE, ["--sheet", "FILE/inside"], 3, "cannot write FILE/inside: "),
    "unwritable trail": (CYCLE, ["--trail", "FOLDER"], 3, "cannot write FOLDER: "),
    "unwritable names": (CYCLE, ["--names", "FILE/inside"], 3, "cannot write FILE/inside: "),
    "unknown option": (CYCLE, ["--other"], 3, "no option --other; "),
    "option without its file": (CYCLE, ["--sheet"], 3, "--sheet takes a file; "),
    "two grammars": (CYCLE, ["FILE"], 3, "more than one grammar; "),
}


def grammars(folder):
    return sorted(file for file in folder.iterdir() if file.suffix in (".grammar", ".sheet"))


def cases(folder):
    """Each grammar with each stored file: the options that lead to it. The first two are always there."""
    for grammar in grammars(folder):
        for ending, options in STORED.items():
            stored = grammar.with_suffix(ending)
            if stored.exists() or "textbook" not in ending:
                yield grammar, options, stored


def holds_stored(program, grammar, options, stored):
    require(stored.exists(), "it is not stored")
    printed = Run(program, [*options, grammar]).answer()
    command = " ".join(["./join", *options, f"examples/{grammar.name}"])
    require(settled(printed) == stored.read_bytes(), f"what is printed differs; see it with: {command}")


def settled(printed):
    """What is printed, but for the line about the archives at hand."""
    return re.sub(rb"^(// the pass was ).*(\n//   .*)*", rb"\1..", printed, count=1, flags=re.M)


def each_stored_has_its_grammar(program, folder, made):
    """No stored file without a grammar."""
    wanted = {stored for *_, stored in cases(folder)}
    found = {file for file in folder.iterdir() if file.suffix in (".joined", ".listing")}
    require(found <= wanted, f"no grammar for {sorted(file.name for file in found - wanted)}")
    require(found, "nothing is stored")


def joined_texts_are_grammars(program, folder, made):
    """What is printed can be handed in, and nothing is left to join."""
    for grammar, options, _ in cases(folder):
        if "--listing" not in options:
            (made / "again").write_bytes(Run(program, [*options, grammar]).answer())
            first = Run(program, [*options, "--listing", made / "again"]).text().split("\n")[0]
            require(first == "ok 0 0", f"{grammar.name}: {first}")


def bytes_are_written(program, folder, made):
    """The sheet and the trail written are those of the head and of the listing."""
    for grammar in grammars(folder):
        sheet, trail = made / "sheet", made / "trail"
        head = Run(program, [grammar, "--sheet", sheet, "--trail", trail]).text()
        digest = hashlib.sha256(sheet.read_bytes()).hexdigest()
        require(f"handed back: SHA-256 {digest}, {sheet.stat().st_size} bytes\n" in head, f"{grammar.name}: another sheet")
        listing = Run(program, [grammar, "--listing"]).text()
        entries = ["t %d %d %d %d" % entry for entry in struct.iter_unpack("<4I", trail.read_bytes())]
        require(entries == [line for line in listing.split("\n") if line[:1] == "t"], f"{grammar.name}: another trail")


def nothing_of_the_place(program, folder, made):
    """The same file in another folder gives the same bytes."""
    for grammar in grammars(folder):
        copy = written(made, grammar.name, grammar.read_bytes())
        printed = [Run(program, [file], cwd=place).answer() for file, place in ((grammar, ROOT), (copy.name, made))]
        require(printed[0] == printed[1], f"{grammar.name} differs")


def words_about_the_heat_pump(program, folder, made):
    """heat-pump.md: the phrase groups as it says, with the two slots exchanged too, and the lines that it shows are printed."""
    page = (folder / "heat-pump.md").read_text(encoding="utf-8")
    phrase, groups, exchanged = re.findall(r"^    (.*)$", page, re.M)
    joined = Run(program, [folder / "heat-pump.grammar"]).text()
    shown = [line for line in page.split("\n") if "// level" in line]
    require(shown and set(shown) <= set(joined.split("\n")), "lines that are not printed")
    found = grouped(joined, "condition", phrase, WORDS)
    require(found == groups, f"it groups as {found}")
    text = (folder / "heat-pump.grammar").read_text(encoding="utf-8")
    other = made / "exchanged.grammar"
    other.write_text(text.replace("| conjunction\n    | disjunction\n", "| disjunction\n    | conjunction\n"), encoding="utf-8")
    found = grouped(Run(program, [other]).text(), "condition", phrase, WORDS)
    require(found == exchanged, f"exchanged it groups as {found}")


def words_about_the_declined(program, folder, made):
    """declined.md: clause 5, and without the action the cycle is joined."""
    require("; clause 5, a dangling reference: " in Run(program, [folder / "declined.grammar"]).text(), "another clause")
    text = (folder / "declined.grammar").read_text(encoding="utf-8")
    (made / "without").write_text(text.replace("{$comparison.text} ", ""), encoding="utf-8")
    require(Run(program, [folder / "declined.grammar", "--strict"]).status == 5, "--strict does not tell")
    require("// joined: condition\n" in Run(program, [made / "without"]).text(), "it is not joined without the action")


def words_about_the_readings(program, folder, made):
    """two-readings.md: joined by the original's reading, declined by clause 11 in the textbook's."""
    grammar = folder / "two-readings.grammar"
    require(" NOT? condition BELOW LIMIT " in Run(program, [grammar]).text(), "it is not joined")
    require("; clause 11, not directly rewritable: " in Run(program, ["--textbook", grammar]).text(), "it is not declined")


def the_specification_lists_case_1(program, folder, made):
    """The listing of case-1.sheet is that of SPECIFICATION 15.20."""
    page = (ROOT / "docs/SPECIFICATION.md").read_text(encoding="utf-8")
    shown = re.search(r"^\*\*15\.20\*\*.*?```\n(.*?)```", page, re.M | re.S)
    require(Run(program, ["--listing", folder / "case-1.sheet"]).text() == shown[1], "it is not")


def refusals_are_listed(program, folder, made):
    """In the listing a refusal is an answer: its line is printed, and the status tells."""
    (made / "refused").write_bytes(bytes(32))
    run = Run(program, ["--listing", made / "refused"])
    run.stopped(1, "the sheet is refused by 3: ", b"refused 3\n")


def the_smallest_sheet(program, folder, made):
    """A sheet without rules is taken."""
    (made / "smallest").write_bytes(TRAILER)
    require(Run(program, ["--listing", made / "smallest"]).text() == "ok 0 0\n", "it is not")


def full_disk(program, folder, made):
    """Standard output that cannot be written is told."""
    if not os.path.exists("/dev/full"):
        return
    with open("/dev/full", "wb") as full:
        for words in (["--help"], [folder / "heat-pump.grammar"], ["--listing", folder / "heat-pump.grammar"]):
            Run(program, words, stdout=full).stopped(3, "cannot write to standard output: ")


def helps(program, folder, made):
    """--help names every option and every status."""
    text = Run(program, ["--help"]).text()
    for word in "--textbook --listing --strict --check --sheet --trail --names --convert --help --version -h 0 1 2 3 4 5".split():
        require(word in text.replace(",", "").replace(";", "").split(), f"not {word}")


def stops(program, name, made):
    """One line of ERRORS."""
    content, words, status, message = ERRORS[name]
    file = made / "stopping"
    if content == "directory":
        file.mkdir()
    elif content is not None:
        file.write_bytes(content)
    put = lambda text: text.replace("FILE", str(file)).replace("FOLDER", str(made)).replace("NAME", file.name)
    Run(program, [file, *map(put, words)]).stopped(status, put(message))


CHECKS = (
    each_stored_has_its_grammar,
    joined_texts_are_grammars,
    bytes_are_written,
    nothing_of_the_place,
    words_about_the_heat_pump,
    words_about_the_declined,
    words_about_the_readings,
    the_specification_lists_case_1,
    refusals_are_listed,
    the_smallest_sheet,
    full_disk,
    helps,
    *join_names.CHECKS,
    *join_files.CHECKS,
    *join_levels.CHECKS,
    *join_faults.CHECKS,
    *join_convert.CHECKS,
)


def tried(program, folder, checks=CHECKS):
    """Each thing that is tried, with what went wrong or nothing."""
    things = [(stored.name, holds_stored, (grammar, options, stored)) for grammar, options, stored in cases(folder)]
    for name, check, words in things:
        yield name, outcome(check, program, *words)
    for name, check, word in [(check.__doc__, check, folder) for check in checks] + [(name, stops, name) for name in ERRORS]:
        with tempfile.TemporaryDirectory() as made:
            yield name, outcome(check, program, word, pathlib.Path(made))


def outcome(check, *words):
    try:
        return check(*words)
    except (Failure, OSError, subprocess.TimeoutExpired, ValueError) as fault:
        return str(fault) or type(fault).__name__


def renew(program, folder):
    for grammar, options, stored in cases(folder):
        stored.write_bytes(settled(Run(program, [*options, grammar]).answer()))
        print(f"stored {stored.name}")


def main():
    words = sys.argv[1:]
    anew = "--renew" in words
    named = [word for word in words if word != "--renew"]
    program = str(pathlib.Path(named[0]).resolve()) if named else str(BUILT)
    if not os.access(program, os.X_OK):
        print(f"join: no program {program}; ./join builds it")
        return 1
    if anew:
        renew(program, EXAMPLES)
        return 0
    found = list(tried(program, EXAMPLES, CHECKS if named else (*CHECKS, *join_faults.SCRIPTS)))
    for name, fault in found:
        if fault:
            print(f"{name}: {fault}")
    failed = sum(1 for _, fault in found if fault)
    print(f"{len(found) - failed} passed, {failed} failed")
    return 1 if failed else 0


if __name__ == "__main__":
    sys.exit(main())
