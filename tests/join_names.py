"""What join.py tries about names: every spelling is one of its own, a number has a mark, and tables belong to their sheets."""

import hashlib

from joining import Run, head, require, rules, written

SENSORS = "cond: cmp | x_1 | T_1 | T_2; cmp: cond ABOVE cond; x_1: cond AND T_1;"


def an_undefined_name_is_no_rule(program, folder, made):
    """r_1 is not taken for the rule x_1, of which it has the number."""
    text = Run(program, [written(made, "g.grammar", "cond: r_1 | INT; x_1: cond AND INT;")]).text()
    require(rules(text) == ["cond: r_1 | INT;", "x_1: cond AND INT;"], f"the rules are {rules(text)}")
    require("joined: none" in head(text), "something is joined")
    require("read as symbols, since no rule has the name: r_1" in head(text), "it is not said that no rule has the name")


def names_are_printed_as_they_were_written(program, folder, made):
    """Rules and origins have the names of the text, whatever they look like."""
    text = Run(program, [written(made, "g.grammar", SENSORS)]).text()
    require("removed: cmp, x_1" in head(text), f"the head is {head(text)}")
    require(any(line.startswith("| cond AND T_1 //") and "origin x_1 1" in line for line in rules(text)), "another origin")


def names_alike_are_joined_alike(program, folder, made):
    """x_1 is a label and T_1 a sensor, as with other names; o_1 and r_1 are two rules."""
    labels = "cond: cmp x_1=T_2 {$x_1.text} | T_1; cmp: cond ABOVE T_1;"
    for text in (labels, labels.replace("x_1", "label").replace("T_", "S"), "o_1: r_1 X | P; r_1: o_1 Y;"):
        printed = Run(program, [written(made, "g.grammar", text)]).text()
        require("cycles joined: 1; cycles left: 0" in head(printed)[1], f"{text}: {head(printed)[1]}")
    require("joined: o_1" in head(printed), "another rule is joined")


def sheets_without_names_read_back(program, folder, made):
    """What is printed of a sheet alone has numbers with a mark, and is the same grammar again, numbers and all."""
    sheet, names = made / "s.sheet", made / "names"
    Run(program, [written(made, "g.grammar", SENSORS), "--sheet", sheet, "--names", names]).text()
    bare = Run(program, [sheet]).text()
    require(rules(bare)[0].startswith("r%1: r%1 T%"), f"it is {rules(bare)}")
    again = Run(program, [written(made, "again.grammar", bare), "--sheet", made / "again.sheet"]).text()
    require(rules(again) == rules(bare), f"again it is {rules(again)}")
    mixed = written(made, "mixed.grammar", "T: T%2 r_2 | T%4 x%3=T_2 {$x%3.?}; r_2: a;".replace("T:", "e:"))
    text = Run(program, [mixed]).text()
    require(rules(text) == ["e: T%2 r_2 | T%4 x%3=T_2 {$x%3.?};", "r_2: a;"], f"mixed it is {rules(text)}")


def names_up_to_the_last(program, folder, made):
    """Numbers of names go to 4294967295, in a text and where a sheet has no names."""
    table, last = "%names e=4294967295 a=65536;", "r%4294967295"
    text = f"{table} e: a x=INT | INT; a: y=e PLUS T%4294901760;"
    sheet = made / "s.sheet"
    named = Run(program, [written(made, "g.grammar", text), "--sheet", sheet]).text()
    require("joined: e" in head(named) and "y=e PLUS T%4294901760 x=INT" in rules(named)[1], f"it is {rules(named)}")
    bare = Run(program, [sheet]).text()
    require(rules(bare)[0].startswith(f"{last}: "), f"it is {rules(bare)}")
    again = Run(program, [written(made, "again.grammar", bare), "--sheet", made / "again.sheet"]).text()
    require(rules(again) == rules(bare), f"again it is {rules(again)}")
    for text, number in (("%names e=0; e: X;", "0"), ("e: r%4294967296;", "r%4294967296")):
        fault = Run(program, [written(made, "g.grammar", text)])
        fault.stopped(2, f"{made / 'g.grammar'}: line 1, column {text.index(number) + 1}: expected a number ")


def names_survive(program, folder, made):
    """With its table of names a sheet prints the same rules as the text from which it was made, attributes too."""
    for grammar in sorted(folder.glob("*.grammar")):
        sheet, names = made / "named.sheet", made / "names"
        text = Run(program, [grammar, "--sheet", sheet, "--names", names]).text()
        again = Run(program, [sheet, "--names", names]).text()
        require(bare(text) == bare(again), f"{grammar.name}: {bare(again)}")


def bare(text):
    """A text without comments, as one line."""
    lines = [line.split("//")[0] for line in text.split("\n")]
    return " ".join(" ".join(lines).split()).replace(": ", ":").replace(" ;", ";")


def attributes_come_back(program, folder, made):
    """`{$s.text}` comes back from sheet and names as it was; from the sheet alone it has no attribute."""
    grammar = written(made, "g.grammar", "e: a s=S {$s.text $s} &{$e::depth} | T {$T.line}; a: e X;")
    sheet, names = made / "s.sheet", made / "names"
    Run(program, [grammar, "--sheet", sheet, "--names", names]).text()
    named, alone = Run(program, [sheet, "--names", names]).text(), Run(program, [sheet]).text()
    require(rules(named) == ["e: e X s=S {$s.text $s} &{$e::depth} | T {$T.line};"], f"named it is {rules(named)}")
    require("{$x%3.? $x%3} &{$x%1::?}" in alone and ".a" not in alone, f"alone it is {rules(alone)}")


def names_of_another_grammar(program, folder, made):
    """A table of names is taken for its own sheets alone: that handed in and that handed back."""
    one, two = written(made, "one.grammar", "e: a | INT; a: e PLUS e;"), written(made, "two.grammar", "e: a | INT; a: e MINUS;")
    sheet, names, other = made / "one.sheet", made / "one.names", made / "two.names"
    Run(program, [one, "--sheet", sheet, "--names", names]).text()
    Run(program, [two, "--names", other]).text()
    digest = hashlib.sha256(sheet.read_bytes()).hexdigest()
    require(f"%sheet sha256_{digest};\n" in names.read_text(), "the table has not the digest of the sheet")
    require(rules(Run(program, [sheet, "--names", names]).text()) == ["e: e PLUS e | INT;"], "it is not taken")
    Run(program, [sheet, "--names", other]).stopped(2, f"{other}: these names belong to another sheet: SHA-256 ")
    without = written(made, "without", "%names e=1 a=2;")
    Run(program, [sheet, "--names", without]).stopped(2, f"{without}: line 1, column 16: expected `%sheet` and the digest")


CHECKS = (
    an_undefined_name_is_no_rule,
    names_are_printed_as_they_were_written,
    names_alike_are_joined_alike,
    sheets_without_names_read_back,
    names_up_to_the_last,
    names_survive,
    attributes_come_back,
    names_of_another_grammar,
)
