"""The archives as C programs find them: their symbols, and what programs of tests/c and examples/c answer that are linked with them.

The archives are those of the folder that ARCHIVES names, else of target/staticlib (`tools/archives` makes them).
"""

import os
import pathlib
import re
import shutil
import struct
import subprocess

import join_convert
from answers import stored

ROOT = pathlib.Path(__file__).resolve().parent.parent
ARCHIVES = pathlib.Path(os.environ.get("ARCHIVES", ROOT / "target" / "staticlib"))
NAMES = ("pass", "sheet", "facts", "plans", "convert")
WARNINGS = ["-Wall", "-Wextra", "-Werror", "-pedantic"]
LONGEST_RUN = 600  # far above what it takes, since other work may run beside it
# What pass.h says that an archive may use.
USED = {"memcpy", "memmove", "memset", "memcmp"}


def told(name, checks):
    """Prints what is not so, and how many are; the status of a script."""
    passed, failed = 0, 0
    for what, so in checks:
        passed, failed = passed + so, failed + (not so)
        if not so:
            print(f"{name}: not so: {what}")
    print(f"{passed} passed, {failed} failed")
    return 1 if failed else 0


def run(*words, given=b""):
    return subprocess.run([str(word) for word in words], input=given, capture_output=True, timeout=LONGEST_RUN)


def symbol_checks(name, header):
    """The archive defines what the header declares and no more, uses what pass.h says, and has no variables."""
    said = run("nm", "--format=posix", ARCHIVES / f"lib{name}.a").stdout.decode()
    symbols = [line.split()[:2] for line in said.splitlines() if len(line.split()) > 1]
    defined = {own for own, sort in symbols if sort.isupper() and sort != "U"}
    yield f"lib{name}.a has the functions of the header", bool(defined) and set(header.prototypes()) == defined
    yield f"lib{name}.a uses no other function", {own for own, sort in symbols if sort == "U"} <= USED
    yield f"lib{name}.a has no variables", {sort for _, sort in symbols} <= set("TtUr")


def build(compiler, name, room):
    """A program of examples/c or tests/c, or what the compiler says."""
    made = room / f"{name}-{compiler}"
    language = ["-x", "c++", "-std=c++11"] if compiler == "g++" else ["-std=c11"]
    source = next(path for folder in ("examples", "tests") if (path := ROOT / folder / "c" / f"{name}.c").exists())
    archives = [ARCHIVES / f"lib{own}.a" for own in NAMES]
    said = run(compiler, *language, *WARNINGS, "-O1", "-I", ROOT / "include", source, "-x", "none", *archives, "-o", made)
    return made, said.stderr.decode()


def packed(record):
    """What tests/c/ends.c writes for a stored answer."""
    result, trail = (b"".join(struct.pack("<I", word) for word in words) for words in (record.result, record.trail))
    if record.refused is not None:
        return struct.pack("<5I", record.refused, 0, 0, 0, 0)
    return struct.pack("<5I", 0, record.plans, record.steps, len(result), len(trail)) + result + trail


def example_checks(program, records, room):
    """The example's output and status for sheets, and for what is no sheet."""
    sheet = room / "sheet"

    def answer(record, *words):
        sheet.write_bytes(record.sheet)
        return run(program, sheet, *words)

    def right(record):
        said = answer(record)
        lines = said.stdout.decode().splitlines()
        numbers = struct.unpack("<5I", packed(record)[:20])
        trail = ["t " + " ".join(map(str, record.trail[at : at + 4])) for at in range(0, len(record.trail), 4)]
        refused = record.refused is not None
        return (
            lines == [" ".join(map(str, numbers)), *trail]
            and said.returncode == int(refused)
            and bool(said.stderr) == refused
            and b"no such" not in said.stderr
        )

    yield "the example answers stored sheets", all(right(record) for record in records)
    yield "of all refusals but 2", {record.refused for record in records} >= {None, 1, 3, 4, 5, 6, 7, 8, 9}
    # SPECIFICATION 14.2
    parting = next(record for record in records if record.name == "written.txt: written 1")
    both = [answer(parting, *words).stdout.split()[:3] for words in ([], ["textbook"])]
    yield "the readings part as in 14.2", both == [[b"0", b"1", b"1"], [b"0", b"0", b"0"]]
    yield "a file that is not there", run(program, room / "none").returncode == 2
    yield "a folder", run(program, room).returncode == 2
    yield "no file", run(program).returncode == 2
    with open("/dev/full", "wb") as full:
        yield "a full disk", subprocess.run([program, sheet], stdout=full, stderr=subprocess.PIPE).returncode == 2


def chosen(records):
    """The grammars written by hand, and some of each other answer."""
    some = {}
    for record in records:
        some.setdefault((record.refused, record.plans), []).append(record)
    written = [record for record in records if record.name.startswith("written.txt")]
    return written + [record for own in some.values() for record in own[:3]]


def in_line(records):
    """Sheets as the programs of tests/c take them."""
    return b"".join(struct.pack("<I", len(record.sheet)) + record.sheet for record in records)


def agree(lines, record):
    """Whether what the archives say of a sheet, in the original's reading, goes together with its stored answer."""
    numbers = {words[0]: [int(word) for word in words[1:-1]] for words in map(str.split, lines) if words[0] == "read_sheet" or words[1] == "0"}
    early = record.refused if record.refused in range(1, 7) else 0
    planned = numbers["first_plan"][3] == 0
    return (
        numbers["pass"][1:4] == [record.refused or 0, record.plans, record.steps]
        and [numbers["read_sheet"][0], numbers["find_facts"][1], numbers["first_plan"][1]] == [early] * 3
        and numbers["find_facts"][2] == numbers["read_sheet"][9]
        and (record.refused is not None or numbers["read_sheet"][1] != 2 or planned == (record.plans > 0))
    )


def answer_checks(program, records):
    said = run(program, given=in_line(records)).stdout.decode()
    parts = [part.splitlines()[1:] for part in re.split(r"^sheet ", said, flags=re.M)[1:]]
    yield "all archives answer all sheets", len(parts) == len(records)
    yield "their answers go together", all(agree(lines, record) for lines, record in zip(parts, records))


def old_sheets():
    """Old sheets, each with the number by which it is refused, or with the new sheet."""
    old, new = join_convert.case_1(""), join_convert.case_1("0")
    longest = join_convert.of_length(32_764)
    return (
        (old, 0, new),
        (bytes(28), 1, b""),
        (bytes(32), 3, b""),
        (new, 4, b""),
        (longest, 0, join_convert.grown(longest)),
        (join_convert.of_length(32_768), 9, b""),
    )


def old_checks(program):
    cases = old_sheets()
    said = run(program, given=b"".join(struct.pack("<I", len(old)) + old for old, *_ in cases))
    yield f"what is lent to a conversion ends as promised {said.stderr.decode()}", said.returncode == 0
    wanted = b"".join(struct.pack("<2I", number, len(new)) + new for _, number, new in cases)
    yield "old sheets are converted, or refused by their numbers", said.stdout == wanted


def program_checks(room):
    records = stored.gather([ROOT / "harness" / "answers"])
    for compiler in ("gcc", "g++"):
        if compiler == "g++" and shutil.which(compiler) is None:
            print("header: no g++ here, so the headers are not tried with it")
            continue
        programs = {}
        for name in ("pass", "cycles", "ends", "answers", "converted"):
            programs[name], said = build(compiler, name, room)
            yield f"{compiler} compiles {name}.c{said and ': ' + said}", not said
        if not all(made.exists() for made in programs.values()):
            continue
        checks = [*example_checks(programs["pass"], chosen(records), room), *answer_checks(programs["answers"], records)]
        for what, so in [*checks, *old_checks(programs["converted"])]:
            yield f"{compiler}: {what}", so
        said = run(programs["ends"], given=in_line(records))
        yield f"{compiler}: buffers end as promised {said.stderr.decode()}", said.returncode == 0
        yield f"{compiler}: every stored answer", said.stdout == b"".join(map(packed, records))


def make_checks(room):
    """The examples as examples/c/Makefile makes them: over the archives at hand, and over dist/ where none are named."""
    for at, words in enumerate(([f"ARCHIVES={ARCHIVES}"], [])):
        folder = room / f"made-{at}"
        folder.mkdir()
        said = run("make", "-s", "-C", ROOT / "examples" / "c", *words, f"OUT={folder}")
        yield f"examples/c is made {words} {said.stderr.decode()}", said.returncode == 0
        case = ROOT / "examples" / "case-1.sheet"
        for name, expected in (("pass", b"0 1 1 "), ("cycles", b"rules 1 2: joined in 1 by 1 steps, without 2\n")):
            yield f"its {name} answers", said.returncode == 0 and run(folder / name, case).stdout.startswith(expected)
            refused = b"refused: the sheet's length"
            yield f"its {name} says what is refused", said.returncode == 0 and run(folder / name, "/dev/null").stderr.startswith(refused)
