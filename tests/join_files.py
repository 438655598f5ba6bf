"""What join.py tries about the head of a release file, and about files that are read and written."""

import hashlib
import os
import re

from joining import ROOT, Run, head, line_of, require, rules, written

CYCLE = "e: a | INT; a: e PLUS;\n"
LEFT = "e: a X; a: e Y;\n"


def sha256(what):
    return hashlib.sha256(what if isinstance(what, bytes) else what.encode("utf-8")).hexdigest()


def digests_are_those_of_the_files(program, folder, made):
    """The head has the file's name, and the digests of text, table of names, sheet and result."""
    names, sheet = made / "names", made / "back.sheet"
    lines = head(Run(program, [written(made, "g.grammar", CYCLE), "--names", names, "--sheet", sheet]).text())
    require("file handed in: g.grammar" in lines, f"no file name in {lines}")
    for line in (
        f"text: SHA-256 {sha256(CYCLE)}, {len(CYCLE)} bytes",
        f"table of names: SHA-256 {sha256(names.read_bytes())}, 4 names",
        f"sheet handed back: SHA-256 {sha256(sheet.read_bytes())}, {sheet.stat().st_size} bytes",
    ):
        require(line in lines, f"not {line} in {lines}")
    digest = line_of(lines, "sheet handed in: ").split()[4].rstrip(",")
    require(f"%sheet sha256_{digest};" in names.read_text(), "the table is not that of the sheet handed in")
    lines = head(Run(program, [sheet, "--names", names]).text())
    require(f"table of names: SHA-256 {sha256(names.read_bytes())}, 4 names" in lines, "another table")
    require("table of names: none" in head(Run(program, [sheet]).text()), "a table from nowhere")


def heads_part_what_names_part(program, folder, made):
    """Grammars that differ in names, in attributes or in comments alone have different heads."""
    one = "e: a s=INT {$s.text} | INT; a: e PLUS | e MINUS;\n"
    others = [one.replace("PLUS", "X").replace("MINUS", "PLUS").replace("X", "MINUS"), one.replace(".text", ".value")]
    tables = set()
    for text in (one, *others):
        lines = head(Run(program, [written(made, "g.grammar", text)]).text())
        tables.add(line_of(lines, "table of names: "))
    require(len(tables) == 3, f"the tables are {tables}")
    first, second = (head(Run(program, [written(made, "g.grammar", text)]).text()) for text in (one, f"// other\n{one}"))
    require(first != second, "a comment makes no difference")


def options_in_force(program, folder, made):
    """The head names the options, and counts the cycles joined and left."""
    grammar = written(made, "g.grammar", CYCLE + "c: d X; d: c Y;\n")
    lines = head(Run(program, [grammar]).text())
    require(lines[1].startswith("cycles joined: 1; cycles left: 1"), f"the second line is {lines[1]}")
    require("options: none; the original's reading of left corners" in lines, f"the options are not in {lines}")
    lines = head(Run(program, [grammar, "--textbook", "--sheet", made / "s", f"--trail={made / 't'}"]).text())
    require("options: --textbook --sheet --trail; the textbook's reading of left corners" in lines, f"not in {lines}")


def the_kit_is_that_of_the_archives(program, folder, made):
    """The head names the kit that stands beside the archives and where it proved them, or says that nothing is known of it."""
    lines = head(Run(program, [written(made, "g.grammar", CYCLE)]).text())
    version = Run(program, ["--version"]).text().split("\n")
    require(version[0] == lines[0] and re.fullmatch(r"join [0-9.]+", lines[0]), f"the first line is {lines[0]}")
    told = line_of(lines, "the pass was ")
    forms = ("proved here with {}", "built from these sources by {}, proved by the gate; not proved on this machine",
             "linked from archives of which nothing is known; kit {}")
    require(told[len("the pass was "):] in [form.format(version[1].removeprefix("kit ")) for form in forms], told)
    require(version[1].startswith("kit ") and version[2].startswith("sources "), f"the version is {version}")
    record = ROOT / "target/staticlib/PROVENANCE"
    if program == str(ROOT / "rust/target/release/join") and record.exists():
        made, sources, kit = (line.removeprefix("# ") for line in record.read_text(encoding="utf-8").split("\n")[:3])
        require(version[1:3] == [kit, sources], f"the record has {kit} and {sources}, and the version {version}")
        require(forms[made != "made here"].split(" {}")[0] in told, f"the record has {made}, and the head {told}")


def checked_alone(program, folder, made):
    """With --check words and grammar are looked at, and nothing is joined, printed or written."""
    good, wrong = written(made, "g.grammar", CYCLE), written(made, "w.grammar", "e: a")
    require(Run(program, ["--check", good, "--sheet", made / "s"]).answer() == b"" and not (made / "s").exists(), "something is made")
    Run(program, ["--check", wrong]).stopped(2, f"{wrong}: line 1, column 5: ")
    Run(program, ["--check", made / "missing"]).stopped(3, "cannot read ")
    Run(program, ["--check", good, "--sheet", good]).stopped(3, "--sheet ")


def closed_output(program, folder, made):
    """Standard output that is closed is status 3, and no file is left behind."""
    grammar, place = written(made, "g.grammar", CYCLE), made / "place"
    place.mkdir()
    words = [grammar, "--sheet", place / "s", "--trail", place / "t", "--names", place / "n"]
    for more in ([], ["--listing"]):
        run = Run(program, [*words, *more], stdout=None, preexec_fn=lambda: os.close(1))
        run.stopped(3, "cannot write to standard output: it is closed")
        require(not list(place.iterdir()), f"left behind: {list(place.iterdir())}")
    for word in ("--help", "--version"):
        Run(program, [word], stdout=None, preexec_fn=lambda: os.close(1)).stopped(3, "cannot write to standard output: ")


def full_output(program, folder, made):
    """So is one that fails; what was there before stays as it was."""
    if not os.path.exists("/dev/full"):
        return
    place = made / "place"
    place.mkdir()
    old = written(place, "s", "old")
    words = [written(made, "g.grammar", CYCLE), "--sheet", old, "--names", place / "n"]
    with open("/dev/full", "wb") as full:
        Run(program, words, stdout=full).stopped(3, "cannot write to standard output: ")
    require(old.read_text() == "old" and list(place.iterdir()) == [old], "files are left behind")


def inputs_are_not_overwritten(program, folder, made):
    """No file is written over the grammar, through links too, over standard output, or over another file that is written."""
    grammar = written(made, "g.grammar", CYCLE)
    (made / "soft").symlink_to(grammar)
    os.link(grammar, made / "hard")
    for option in ("--sheet", "--trail", "--names"):
        for name in ("g.grammar", "soft", "hard", "../" + made.name + "/g.grammar"):
            Run(program, [grammar, option, made / name]).stopped(3, f"{option} {made / name} is the grammar; it is not overwritten")
    with open(grammar, "rb") as text:
        Run(program, ["-", "--sheet", grammar], stdin=text).stopped(3, f"--sheet {grammar} is the grammar; ")
    with open(made / "out", "wb") as out:
        Run(program, [grammar, "--sheet", made / "out"], stdout=out).stopped(3, f"--sheet {made / 'out'} is standard output; ")
    for new in (made / "new", made / "." / "new"):
        Run(program, [grammar, "--sheet", made / "new", "--trail", new]).stopped(3, f"--trail {new} is written by another option; ")
    require(grammar.read_text() == CYCLE and not (made / "new").exists(), "something was written")


def tables_are_not_overwritten(program, folder, made):
    """Nor is anything written over the table of names that is read with a sheet."""
    sheet, names = made / "s.sheet", made / "names"
    Run(program, [written(made, "g.grammar", CYCLE), "--sheet", sheet, "--names", names]).text()
    stored = names.read_bytes()
    Run(program, [sheet, "--names", names, "--trail", names]).stopped(3, f"--trail {names} is the table of names; ")
    Run(program, [sheet, "--names", names, "--sheet", made / "again"]).text()
    require(names.read_bytes() == stored, "it was written")


def all_files_or_none(program, folder, made):
    """Where one file cannot be written no other is; links are followed, rights are kept, and nothing else is left."""
    grammar, place = written(made, "g.grammar", CYCLE), made / "place"
    place.mkdir()
    old = written(place, "s", "old")
    for last in (made / "missing" / "n", place):
        words = [grammar, "--sheet", old, "--trail", place / "t", "--names", last]
        Run(program, words).stopped(3, f"cannot write {last}: ")
        require(old.read_text() == "old" and list(place.iterdir()) == [old], f"left behind: {list(place.iterdir())}")
    old.chmod(0o440)
    if os.geteuid() != 0:
        Run(program, [grammar, "--sheet", old]).stopped(3, f"cannot write {old}: ")
    old.chmod(0o640)
    (made / "link").symlink_to(old)
    Run(program, [grammar, "--sheet", made / "link", "--trail", place / "t", "--names", "/dev/null"]).text()
    require((made / "link").is_symlink() and old.read_bytes()[:4] == b"\1\0\0\0", "the link is not followed")
    require(old.stat().st_mode & 0o777 == 0o640, "the rights are others")
    require(sorted(place.iterdir()) == [old, place / "t"], f"left behind: {sorted(place.iterdir())}")


def strict(program, folder, made):
    """With --strict a cycle that is left is status 5; all is printed and written as without it."""
    left, whole = written(made, "left.grammar", LEFT), written(made, "whole.grammar", CYCLE)
    run = Run(program, [left, "--strict", "--sheet", made / "s"])
    run.stopped(5, "1 cycle is left, and --strict is asked for", run.out)
    require(rules(run.out.decode()) == ["e: a X;", "a: e Y;"] and (made / "s").exists(), "it is not printed and written")
    run = Run(program, [left, "--strict", "--listing"])
    run.stopped(5, "1 cycle is left", run.out)
    require(run.out.startswith(b"ok 0 0\n"), "it is not listed")
    require(head(Run(program, [left]).text())[1].startswith("cycles joined: 0; cycles left: 1"), "it is not counted")
    Run(program, [whole, "--strict"]).answer()


def standard_input(program, folder, made):
    """`-` is standard input."""
    grammar = written(made, "g.grammar", CYCLE)
    with open(grammar, "rb") as text:
        printed = Run(program, ["-"], stdin=text).text()
    require("file handed in: standard input" in head(printed), "the head names another file")
    require(rules(printed) == rules(Run(program, [grammar]).text()), "other rules")


CHECKS = (
    digests_are_those_of_the_files,
    heads_part_what_names_part,
    options_in_force,
    the_kit_is_that_of_the_archives,
    checked_alone,
    closed_output,
    full_output,
    inputs_are_not_overwritten,
    tables_are_not_overwritten,
    all_files_or_none,
    strict,
    standard_input,
)
