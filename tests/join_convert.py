"""What join.py tries about old sheets, written before calls had a precedence, and about precedences in texts."""

import os
import re
import struct

from joining import ROOT, Run, head, require, rules, written

# e: a | INT; a: e PLUS e; as SPECIFICATION 15.20 has it, with a mark where a call ends.
CASE_1 = "1 1 0 2 10 0 0 0 1 20 0 3 0 0 0 2 0 C 11 0 0 0 1 21 0 4 0 0 0 3 2 2 0 1 12 0 0 0 3 22 0 3 0 0 0 1 0 C 23 0 4 0 0 0 4 24 0 3 0 0 0 1 0 C"
TRAILER = (13, 25, 0, 0, 0)


def packed(words):
    return struct.pack(f"<{len(words)}I", *words)


def sheet(records, preserved=()):
    """A parser unit of these records."""
    return packed([*records, *preserved, 2, len(records) + len(preserved), len(preserved), *TRAILER])


def case_1(third):
    """With these words behind the two that each call has had from the start."""
    return sheet([int(word) for word in CASE_1.replace("C", third).split()])


def of_length(length):
    """An old sheet of so many bytes with one call; behind it stand preserved ids."""
    record = [1, 1, 0, 1, 10, 0, 0, 0, 1, 20, 0, 3, 0, 0, 0, 1, 0]
    return sheet(record, range(length // 4 - 8 - len(record)))


def grown(old):
    """What becomes of a sheet of `of_length`: behind the words of its one call, the last of the record, stands a 0 more."""
    words = struct.unpack(f"<{len(old) // 4}I", old)
    trailer = (words[-8], words[-7] + 1, *words[-6:])
    return packed([*words[:17], 0, *words[17:-8], *trailer])


def old_sheets_are_converted(program, folder, made):
    """--convert writes the sheet of today and prints its length; from standard input too."""
    old, new = written(made, "old", case_1("")), made / "new"
    require(Run(program, ["--convert", old, new]).answer() == b"288 bytes\n", "another length")
    require(new.read_bytes() == case_1("0"), "another sheet")
    require(old.read_bytes() == case_1(""), "the old sheet is another now")
    with open(old, "rb") as text:
        require(Run(program, ["--convert", "-", made / "again"], stdin=text).answer() == b"288 bytes\n", "not from standard input")
    require((made / "again").read_bytes() == new.read_bytes(), "another sheet from standard input")
    require(rules(Run(program, [new]).text())[:2] == ["r%1:", "r%1 T%4 r%1 // level 2, binary; slot r%1 1, origin r%2 1"], "it is not joined")
    longest = written(made, "longest", of_length(32_764))
    require(Run(program, ["--convert", longest, new]).answer() == b"32768 bytes\n", "a sheet of 32,764 bytes with one call")
    require(new.read_bytes() == grown(longest.read_bytes()), "another sheet of 32,768 bytes")


def the_old_example_becomes_the_new_one(program, folder, made):
    """The sheets of examples/old are those beside the folder, where these are there, as they were written."""
    old = sorted((folder / "old").glob("*.sheet"))
    require(old, "no old sheet is stored")
    for file in old:
        Run(program, ["--convert", file, made / "new"]).answer()
        today = folder / file.name
        require(not today.exists() or (made / "new").read_bytes() == today.read_bytes(), f"{file.name} becomes another sheet")


def what_is_no_old_sheet(program, folder, made):
    """A refusal is told in words, and nothing is written."""
    for content, number, told in (
        (bytes(28), 1, "the sheet's length is under 32 bytes, over 32,768 or not a multiple of 4; it has 28 bytes"),
        (bytes(32), 3, "the trailer is bad"),
        (case_1("0"), 4, "a record is bad"),
        (case_1("").replace(packed([24]), packed([23])), 5, "two rules share an id or a name, or two alternatives, elements"),
        (case_1("").replace(packed([13, 25]), packed([12, 25])), 6, "an id of an alternative"),
        (of_length(32_768), 9, "what would be handed back is too large: a sheet over 32,768 bytes"),
    ):
        Run(program, ["--convert", written(made, "old", content), made / "new"]).stopped(1, f"the old sheet is refused by {number}: {told}")
        require(not (made / "new").exists(), "something is written")
    said = Run(program, ["--convert", written(made, "old", case_1("0")), made / "new"]).said
    require("it can be read as a sheet of today, so it may be converted already" in said, said)
    said = Run(program, [written(made, "old", case_1(""))]).said
    require("refused by 4: " in said and "it can be read as an old sheet, of which join --convert makes one of today" in said, said)


def conversions_that_cannot_be_had(program, folder, made):
    """The new sheet is not written over the old one or over standard output, and files are told as elsewhere."""
    old = written(made, "old", case_1(""))
    (made / "soft").symlink_to(old)
    for name in ("old", "soft"):
        Run(program, ["--convert", old, made / name]).stopped(3, f"--convert {made / name} is the old sheet; it is not overwritten")
    with open(made / "out", "wb") as out:
        Run(program, ["--convert", old, made / "out"], stdout=out).stopped(3, f"--convert {made / 'out'} is standard output; ")
    Run(program, ["--convert", made / "missing", made / "new"]).stopped(3, f"cannot read {made / 'missing'}: ")
    Run(program, ["--convert", old, made / "none" / "new"]).stopped(3, f"cannot write {made / 'none' / 'new'}: ")
    Run(program, ["--convert", old]).stopped(3, "--convert takes two files")
    Run(program, ["--convert", "--strict", old, made / "new"]).stopped(3, "--convert takes no option --strict")
    if os.path.exists("/dev/full"):
        with open("/dev/full", "wb") as full:
            Run(program, ["--convert", old, made / "new"], stdout=full).stopped(3, "cannot write to standard output: ")
    require(Run(program, ["--check", "--convert", old, made / "new"]).answer() == b"", "something is printed")
    Run(program, ["--check", "--convert", made / "missing", made / "new"]).stopped(3, "cannot read ")
    require(not (made / "new").exists() and old.read_bytes() == case_1(""), "something is written")


def precedences_are_printed(program, folder, made):
    """A call's precedence stands behind its quantifier; it decides nothing, and a copy has it. The listing is without."""
    texts = {mark: written(made, f"g{len(mark)}.grammar", f"e: a{mark} | INT; a: e PLUS e{mark} n?{mark}; n: X;\n") for mark in ("", "^7")}
    printed = {mark: Run(program, [text]).text() for mark, text in texts.items()}
    require(re.sub(r" +//.*", "", rules(printed["^7"])[1]) == "e PLUS e^7 n?^7", f"it prints {rules(printed['^7'])}")
    without = lambda text: [line for line in head(text) if "SHA-256" not in line and "file handed in" not in line]
    require(rules(printed[""]) == [line.replace("^7", "") for line in map(gaps, rules(printed["^7"]))], "it decides something")
    require(without(printed[""]) == without(printed["^7"]), "another head")
    listings = {Run(program, ["--listing", text]).text() for text in texts.values()}
    require(len(listings) == 1, "the listing tells it")


def gaps(line):
    return " ".join(line.split())


def the_notation_has_precedences(program, folder, made):
    """docs/NOTATION.md and the help tell of both."""
    page = (ROOT / "docs/NOTATION.md").read_text(encoding="utf-8")
    require("`e^3`" in page and "`e[5]?^3`" in page, "the page has no precedence")
    require("join --convert OLD NEW" in Run(program, ["--help"]).text(), "the help has no conversion")


CHECKS = (
    old_sheets_are_converted,
    the_old_example_becomes_the_new_one,
    what_is_no_old_sheet,
    conversions_that_cannot_be_had,
    precedences_are_printed,
    the_notation_has_precedences,
)
