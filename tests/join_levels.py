"""What join.py tries about what binds tighter: levels, forms, and warnings where the order of slots does not tell."""

import re

from grouping import grouped
from joining import Run, head, require, rules, written

LINE = re.compile(r"(?:\| )?(.*?) // level (\d+), (\w+); slot (.*?), (?:origin (.*?)|untouched)((?:; warning \d+)*)")
SUM = "value: sum | INT; sum: value MINUS value | value PLUS value;"
ONE = "value: sum | INT; sum: value ( MINUS | PLUS ) value;"
NEGATION = "c: above | negation | and | S; above: c ABOVE c; negation: NOT c; and: c AND c;"
WORDS = {"return": "SENSOR", "flow": "SENSOR", "limit": "LIMIT", "pump": "DEVICE"}


def joined(program, made, text):
    return Run(program, [written(made, "g.grammar", text)]).text()


def lines(text):
    """Of each alternative of a joined rule: what it is, level, form, slot, origin, and what it is warned of."""
    found = [line for line in rules(text) if " // " in line]
    require(found and all(map(LINE.fullmatch, found)), f"no level and form: {found}")
    return [LINE.fullmatch(line).groups() for line in found]


def warnings(text):
    return [line for line in head(text) if line.startswith("warning ")]


def forms_and_levels(program, folder, made):
    """Each alternative has the level n - i + 1, and the form that its own calls at both ends give it."""
    text = joined(program, made, "e: a | b | d? X | NOT e | INT | P e Q | UP y=e {}; a: e PLUS e; b: e BANG; d: e Z;")
    found = [(own[0], int(own[1]), own[2]) for own in lines(text)]
    forms = [
        ("e PLUS e", "binary"),
        ("e BANG", "suffix"),
        ("e Z X", "suffix"),
        ("X", "primary"),
        ("NOT e", "prefix"),
        ("INT", "primary"),
        ("P e Q", "primary"),
        ("UP y=e {}", "prefix"),
    ]
    wanted = [(own, len(forms) - place, form) for place, (own, form) in enumerate(forms)]
    require(found == wanted, f"they are {found}")
    require(not warnings(text), f"warned of {warnings(text)}")


def two_in_one_slot(program, folder, made):
    """Two operators in one slot are two levels: said on both lines and in the head, with what to write, and so a phrase groups."""
    text = joined(program, made, SUM)
    require([own[1:4] + own[5:] for own in lines(text)[:2]] == [
        ("3", "binary", "value 1 (1 of 2)", "; warning 1"),
        ("2", "binary", "value 1 (2 of 2)", "; warning 1"),
    ], f"the lines are {lines(text)}")
    told = warnings(text)
    require(len(told) == 1 and "slot value 1 is filled by 2 alternatives, levels 3 to 2: each is a level of its own" in told[0], f"{told}")
    require("write them as one alternative, with a block for what differs" in told[0], "it does not say what to write")
    require("warnings: 1" in head(text)[1], "it is not counted")
    values = {"a": "INT", "b": "INT", "c": "INT"}
    require(grouped(text, "value", "a plus b minus c", values) == "a plus (b minus c)", "it groups otherwise")
    one = joined(program, made, ONE)
    require(not warnings(one) and grouped(one, "value", "a plus b minus c", values) == "(a plus b) minus c", "one alternative is two levels")


def one_operator_in_a_slot(program, folder, made):
    """A slot with one operator and something else is noted, and nothing is warned of."""
    text = joined(program, made, "e: a? INT | b | Z; a: e X; b: e Y;")
    require(not warnings(text) and any(line.startswith("note: slot e 1 is filled by 2 alternatives") for line in head(text)), f"{head(text)}")
    require([own[3] for own in lines(text)] == ["e 1 (1 of 2)", "e 1 (2 of 2)", "e 2", "e 3"], f"{lines(text)}")


def an_operator_in_a_rule_of_its_own(program, folder, made):
    """A prefix operator that is called is reached by no level: said on the line and in the head, with what to write."""
    text = joined(program, made, NEGATION)
    require([own[5] for own in lines(text)] == ["", "; warning 1", "", ""], f"the lines are {lines(text)}")
    told = warnings(text)
    require(told and "calls `negation`, which ends with `c` and is not joined" in told[0], f"{told}")
    require("write the alternatives of `negation` in place of the call" in told[0], "it does not say what to write")
    inline = joined(program, made, NEGATION.replace("| negation", "| NOT c").replace("negation: NOT c;", ""))
    require(not warnings(inline), f"warned of {warnings(inline)}")
    values = {"a": "S", "b": "S"}
    groups = [grouped(own, "c", "not a and b", values) for own in (text, inline)]
    require(groups == ["not (a and b)", "(not a) and b"], f"it groups as {groups}")


def found_through_calls_and_blocks(program, folder, made):
    """The way to the call may lead through rules, blocks and what can be empty, and through new alternatives too."""
    for alternative, more, told in (
        ("Y c", "c: X d; d: n e n; n: W?;", "calls `c`, which by way of `d` ends with `e`"),
        ("Y ( Z | c W* )", "c: X e;", "calls `c`, which ends with `e`"),
        ("f", "f: e AND c; c: NOT e;", "calls `c`, which ends with `e`"),
        ("Y c Z", "c: X e;", None),
        ("Y c", "c: X e Z;", None),
    ):
        found = warnings(joined(program, made, f"e: a | INT | {alternative}; a: e PLUS e; {more}"))
        require(len(found) == (told is not None), f"{alternative}: {found}")
        require(told is None or told in found[0], f"{alternative}: {found}")


def own_calls_that_no_level_reaches(program, folder, made):
    """An own call at the end that stands in a block, has a quantifier, or has something behind it that can be empty."""
    for alternative, told in (
        ("NOT ( e )", "stands in a block"),
        ("NOT ( X | Y e )?", "stands in a block"),
        ("UP e?", "has a quantifier"),
        ("UP e+", "has a quantifier"),
        ("DOWN e X*", "has something behind it that can be empty"),
        ("DOWN e n", "has something behind it that can be empty"),
        ("DOWN e EOF", "has something behind it that can be empty"),
    ):
        text = joined(program, made, f"e: a | INT | {alternative}; a: e PLUS e; n: X?;")
        found = warnings(text)
        require(len(found) == 1 and f"ends with a call of `e` that {told}, so that no level reaches it" in found[0], f"{alternative}: {found}")
        require("write an alternative of its own that ends with `e` alone" in found[0], "it does not say what to write")
        require([own[5] for own in lines(text)] == ["", "", "; warning 1"], f"{alternative}: {lines(text)}")


def words_about_the_negation(program, folder, made):
    """negation.md: the phrase groups as it says, with the rule and without it, and the line that it shows is printed."""
    page = (folder / "negation.md").read_text(encoding="utf-8")
    phrase, own, inline = re.findall(r"^    (.*)$", page, re.M)
    text = Run(program, [folder / "negation.grammar"]).text()
    shown = [line for line in page.split("\n") if "// level" in line]
    require(shown and set(shown) <= set(text.split("\n")), f"{shown} is not printed")
    found = grouped(text, "condition", phrase, WORDS)
    require(found == own, f"it groups as {found}")
    other = (folder / "negation.grammar").read_text(encoding="utf-8")
    other = other.replace("    | negation\n", "    | NOT condition\n").replace("negation: NOT condition;\n", "")
    found = grouped(joined(program, made, other), "condition", phrase, WORDS)
    require(found == inline, f"without the rule it groups as {found}")


CHECKS = (
    forms_and_levels,
    two_in_one_slot,
    one_operator_in_a_slot,
    an_operator_in_a_rule_of_its_own,
    found_through_calls_and_blocks,
    own_calls_that_no_level_reaches,
    words_about_the_negation,
)
