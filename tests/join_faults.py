"""What join.py tries about faults, refusals and cycles that are left: whether a person can act on what is said."""

import os
import re
import shutil

from joining import ROOT, Run, head, require, rules, written

LONGEST_BUILD = 600
CLAUSES = {
    "e: a X; a: e Y;": "clause 1, no hub: every alternative of each of them begins with a call of one of them",
    "e !1: a | X; a: e Y;": "clause 2, a hub with arguments: `e`, which would take the others in, has arguments",
    "e: a | X;\na !2: e Y;": "a (line 2); clause 3, a satellite that cannot be inlined: `a` has something of its own (`!2`)",
    "e: a | X;\na: # e Y;": "an alternative of `a` is labelled (`#`), of a 1 (line 2)",
    "e: a | X;\na: e {} Y;": "an action stands in `a`, at line 2, column 6",
    "e: a | X; a: a Y | e Z;": "clause 4, a step beyond the budget: `a` begins with itself",
    "e: a | X; a: b Y | e Z; b: a W;": "`a`, `b` begin with each other without `e`",
    "e: a | X; a: b? a Y | e Z; b: e W;": "clause 4, a step beyond the budget: `a` begins with itself",
    "e: a | X; a: b a Y | e Z; b: _ | e W;": "clause 4, a step beyond the budget: `a` begins with itself",
    "e: a {$a} | X; a: e Y;": "refers to `a`, whose call beside it would be replaced; in the place of e 1 (line 1), at line 1, column 6",
    "e: x=a | X; a: e Y;": "clause 6, a blocked corner: the call of `a` in front has a label; in the place of e 1 (line 1), at line 1, column 4",
    "e: a[5] | X; a: e Y;": "the call of `a` in front has arguments",
    "e: a* | X; a: e Y;": "the call of `a` in front has a quantifier other than `?`",
    "e: a x=X | Y;\na: x=e Z;": "have a label `x`; in the place of e 1 (line 1), of a 1 (line 2), at line 1, column 4",
    "e: a {$X} | Y; a: e X;": "clause 8, a binding collision: an action or predicate would refer to another `X`",
    "e: <o=1> a | Y; a: <o=2> e X;": "clause 9, an option collision: two values are given to the option `o`",
    "e: a | X; a: e[5] Y;": "clause 11, not directly rewritable: the alternative would pass arguments to `e`",
    "e: a | ; a: e Y;": "the alternative would have nothing in it but epsilon, actions and predicates; in the place of e 2 (line 1)",
    "e: a | X;\na: e n; n: ;": "all that would stand behind the call of `e` in front can be empty; in the place of e 1 (line 1), of a 1 (line 2)",
    "e: a | X;\na: e EOF+;": "all that would stand behind the call of `e` in front can be empty; in the place of e 1 (line 1), of a 1 (line 2)",
    "e: a | X; a: e Y | EOF e Z;": "the alternative would begin with `e` of the cycle, behind something that can be empty",
    "e: EOF a | X; a: e Y;": "clause 10, no steps",
    "e: a | X; a: e Y | ( e ) Z;": "the alternative would begin with `e` of the cycle",
}


def stopped(program, made, text, name="g.grammar"):
    run = Run(program, [written(made, name, text)])
    require(run.status == 2 and run.out == b"", f"status {run.status}: {run.said}")
    return run.said


def names_that_are_read_otherwise(program, folder, made):
    """A rule with a capital is a fault; a name behind `#`, `{..}?` and lines that end with CR alone are warned of, with their lines."""
    said = stopped(program, made, "e: Add | INT;\nAdd: e PLUS e;")
    require("line 2, column 1: expected a rule's name that begins with a small letter, found `Add`" in said, said)
    for text, told in (
        ("e: X\n | # Add e PLUS e;", "warning 1: line 2: `Add` behind `#` is read as an element"),
        ("e: Add\n | # Add e PLUS e;", "warning 1: line 2: `Add` behind `#` is read as an element"),
        ("e: X\n | {$X}? X;", "warning 1: line 2: `{..}?` is read as an action that may be left out; a predicate is written `&{..}`"),
        ("// one\re: X;\r// two\ra: Y;\r", "warning 1: line 1: a carriage return without a line feed ends this line"),
    ):
        printed = Run(program, [written(made, "g.grammar", text)]).text()
        require(any(line.startswith(told) for line in head(printed)), f"{text!r}: {head(printed)}")
        require("warnings: 1" in head(printed)[1], "it is not counted")
    require(rules(printed) == ["e: X;", "a: Y;"], f"rules behind a comment are {rules(printed)}")
    require(Run(program, [written(made, "l.grammar", "%kind lexer; Add: X;")]).status == 0, "a lexer's rule is refused")


def several_faults(program, folder, made):
    """Faults come together, in the order of the text, each with its line and a mark under the column; twenty at most."""
    said = stopped(program, made, "e: a |;\na X;\nb: \tX {y};\nc: '+';\n")
    wanted = [(2, "    a X;", "      ^"), (3, "    b:  X {y};", "           ^"), (4, "    c: '+';", "       ^")]
    found = re.findall(r"line (\d+), column \d+: [^\n]*\n([^\n]*)\n([^\n]*)\n", said)
    require([(int(line), *rest) for line, *rest in found] == wanted, said)
    said = stopped(program, made, "".join(f"r{at} X;\n" for at in range(30)))
    require(re.findall(r": line (\d+),", said) == [str(line) for line in range(1, 21)], said)
    require("20 faults are told at once; there may be more" in said, said)


def antlrs_own_text(program, folder, made):
    """Where ANTLR's own text is met, what is said tells what to write here, and where the notation stands."""
    text = "grammar X;\noptions { a=b; }\n@header { import x; }\n/* a comment */\ne returns [int v]\n  : e '+' e # Add\n  | <assoc=right> e UP e\n"
    text += "  | [a-z]+\n  ;\nfragment D: X -> skip;\n"
    said = stopped(program, made, text)
    for line, advice in ((1, "%kind"), (2, "leave it out"), (3, "leave it out"), (4, "`//`"), (5, "`!2`"), (6, "name of its token"),
                         (6, "`#` stands in front"), (7, "`<assoc=1>`"), (8, "`.~7`"), (10, "leave the word out"), (10, "leave `->`")):
        require(re.search(rf"line {line}, column \d+: [^\n]*{re.escape(advice)}", said), f"line {line} says nothing of {advice}: {said}")
    require("docs/NOTATION.md" in said and (ROOT / "docs/NOTATION.md").exists(), "it does not say where the notation stands")


def the_notation_is_linked(program, folder, made):
    """docs/NOTATION.md is named by README and help, and its table has what is met in ANTLR's texts."""
    page = (ROOT / "docs/NOTATION.md").read_text(encoding="utf-8")
    require("docs/NOTATION.md" in (ROOT / "README.md").read_text(encoding="utf-8"), "README does not link it")
    require("docs/NOTATION.md" in Run(program, ["--help"]).text(), "the help does not name it")
    table = page.partition("| ANTLR writes | write here |")[2]
    for word in ("grammar X;", "/* .. */", "'+'", "[a-z]", "returns", "options {", "@header", "->", "fragment", "# Name", "<assoc=right>", "!2"):
        require(word in table, f"the table has no {word}")
    require("comparison@5:" in page, "it does not say what comparison@5: means")


def refusals_name_rules_and_lines(program, folder, made):
    """What is refused of a text is told with its rules and lines."""
    row = lambda count, text: " | ".join([text] * count)
    cycle = "f: g | X; g: f Y;\ne: a | INT;\na: {};\nb: {};"
    members = "`e` (line 2), `a` (line 3), `b` (line 4)"
    for text, number, told in (
        (f"e: X;\nbig: {row(700, 'X Y')};", 1, "53216 of them are those of `big` (line 2), which has 700 alternatives"),
        ("e: @7 X\n | @7 Y;", 5, "two alternatives have the id 7: line 1, column 4 and line 2, column 4"),
        ("e: ^9 X;\na: ^9 Y;", 5, "two elements have the id 9: line 1, column 4 and line 2, column 4"),
        ("e@3: X;\na@3: Y;", 5, "two rules have the id 3: line 1, column 1 and line 2, column 1"),
        ("%counters 99 5 0 0 0;\ne: X;", 6, "the id 20 in line 2, column 4 is not below the counter of elements, which line 1 sets to 5"),
        (cycle.format(row(32, "b T"), row(33, "e T")), 7, f"the cycle of {members} is too large to be joined: the list of alternatives of `e`"),
        ("%counters 4294967295 25 0 0 0;\ne: a | INT; a: e X;", 8, "the counters in line 1 leave too few ids for joining the cycle of `e` (line 2)"),
        (cycle.format(row(31, "b T"), row(33, "e T")), 9, f"with the cycle of {members} joined in `e` (line 2) the sheet has over 32768 bytes"),
    ):
        Run(program, [written(made, "g.grammar", text)]).stopped(1, f"g.grammar is refused by {number}: ")
        said = Run(program, [written(made, "g.grammar", text)]).said
        require(told in said, f"it says {said} and not {told}")


def declines_name_the_cause(program, folder, made):
    """A cycle that is left is told with its members and their lines, the place, and the one cause."""
    for text, told in CLAUSES.items():
        found = [line for line in head(Run(program, [written(made, "g.grammar", text)]).text()) if line.startswith("cycle left: e (line 1), ")]
        require(len(found) == 1 and told in found[0], f"{text}: {found}")


def options_of_all_forms(program, folder, made):
    """-h is --help; --version tells project, kit and sources; --sheet=F is --sheet F."""
    require(Run(program, ["-h"]).text() == Run(program, ["--help"]).text(), "-h is another text")
    require(re.fullmatch(r"join [0-9.]+\nkit .+\nsources .+\n", Run(program, ["--version"]).text()), "the version is not told")
    grammar = written(made, "g.grammar", "e: a | X; a: e Y;")
    Run(program, [grammar, f"--sheet={made / 'one'}"]).text()
    Run(program, [grammar, "--sheet", made / "two"]).text()
    require((made / "one").read_bytes() == (made / "two").read_bytes(), "two sheets")


def scripts_through_links(program, folder, made):
    """Once built ./join and ./listing need neither rt nor cargo, work through links, and have one status for a refusal."""
    alone = {"PATH": "/usr/bin:/bin"}
    require(not any(shutil.which(tool, path=alone["PATH"]) for tool in ("rt", "cargo")), "they are beside the common tools")
    refused, case = written(made, "refused.sheet", bytes(32)), ROOT / "examples/case-1.sheet"
    for name, built in (("join", ROOT / "rust/target/release/join"), ("listing", ROOT / "crates/listing/out/listing")):
        if not built.exists():
            continue
        link = made / name
        link.symlink_to(ROOT / name)
        require(Run(str(ROOT / name), [case], timeout=LONGEST_BUILD).status == 0, f"{name} is not built")
        require("usage: " in Run(str(link), ["--help"], env=alone).text(), f"{name} --help")
        run = Run(str(link), [case], env=alone)
        require(run.status == 0 and run.out, f"{name}: status {run.status}: {run.said}")
        require(Run(str(link), [refused], env=alone).status == 1, f"{name}: another status for a refusal")
        require(Run(str(link), [made / "missing"], env=alone).status == 3, f"{name}: another status for a missing file")
        run = Run(str(link), ["--help"], stdout=None, env=alone, preexec_fn=lambda: os.close(1))
        require(run.status == 3 and run.said, f"{name}: a closed output is status {run.status}")


CHECKS = (
    names_that_are_read_otherwise,
    several_faults,
    antlrs_own_text,
    the_notation_is_linked,
    refusals_name_rules_and_lines,
    declines_name_the_cause,
    options_of_all_forms,
)
# Of the scripts of this checkout, whatever program is tried.
SCRIPTS = (scripts_through_links,)
