#!/usr/bin/env python3
"""Shows what antlr/judge.py rests on, without ANTLR: how grammars are read, written and looked at, and what it finds in a tool's words."""

import contextlib
import io
import os
import pathlib
import subprocess
import sys
import tempfile
import unittest
from unittest import mock

HERE = pathlib.Path(__file__).resolve().parent
sys.path.insert(0, str(HERE / "antlr"))

import cases  # noqa: E402
import corners  # noqa: E402
import g4  # noqa: E402
import grow  # noqa: E402
import judge  # noqa: E402
import levels  # noqa: E402
import notation  # noqa: E402
import tool  # noqa: E402

EVERY_FORM = """// A comment: with; marks
%preserve a 9;
e@7 !2: ~3 # <o=1,p=2> x@4=INT?? {@5 $INT $x.text} | ;   // slot e 1, untouched
a: e[5] ( PLUS | .~7 )+? &{$e::depth} _ | ^5 none*^3~4 | {}? | INT+<o=1> | x=e^2 | y=( - );
b: -;
"""
WRITTEN = """grammar G;
e: <o=1,p=2> x_INT=INT?? {} | ;
a: e (PLUS | OTHER_7)+? {true}? () | NO_RULE_none* | ({})? | INT<o=1>+ | x_e=e | (NOTHING);
b: NOTHING;
INT: 'whole' | 'part';
PLUS: 'plus';
OTHER_7: 'other_7';
NO_RULE_none: 'no_rule_none';
NOTHING: 'nothing';
GAPS: [ \\t\\r\\n]+ -> skip;
"""
# DIFFERENCES, finding 1
BEFORE = "e: a | INT; a: e PLUS | NAME? e MINUS;"
AFTER = "// joined: e\ne: e PLUS | NAME? e MINUS | INT;"
TURNED_AWAY = [(119, "G.g4::: The following sets of rules are mutually left-recursive [e]")]
REPORTED = [(119, "G.g4::: The following sets of rules are mutually left-recursive [a, e]")]


class Grammars(unittest.TestCase):
    def test_every_form(self):
        words = {"whole": "INT", "part": "INT"}
        self.assertEqual(g4.written("G", notation.read(EVERY_FORM), words), WRITTEN)

    def test_labelled(self):
        self.assertEqual(notation.read("e: #: INT | # e X;"), notation.read("e: INT | e X;"))

    def test_names_of_numbers(self):
        """join and the harness write them each in their way."""
        self.assertEqual(notation.read("%preserve 2;\nr%1: x%3=T%4 r%1;"), notation.read("r_1: x_3=T_4 r_1;"))
        self.assertEqual(cases.joined_rules("// joined: r%1, r%2\n\nr%1: T%3;\n"), ["r_1", "r_2"])

    def test_faults(self):
        for text in ("e", "e: X", "e: ( X ;", "e: 5;", "e: {$x ;", "e: <o> X;", "e X;", "e: x=;"):
            with self.subTest(text=text), self.assertRaises(ValueError):
                notation.read(text)

    def test_joined_rules(self):
        self.assertEqual(cases.joined_rules("// join\n// joined: e, a,\n//   b\n// removed: c\n\ne: X;\n"), ["e", "a", "b"])
        self.assertEqual(cases.joined_rules((HERE.parent / "examples/declined.joined").read_text()), [])

    def test_examples(self):
        for file in (HERE.parent / "examples").glob("*.joined"):
            with self.subTest(file=file.name):
                text = file.read_text(encoding="utf-8")
                self.assertLessEqual(set(cases.joined_rules(text)), set(notation.read(text)))

    def test_grown(self):
        one, two = (grow.Grower(1) for _ in range(2))
        for _ in range(100):
            text = one.grammar()
            self.assertEqual(text, two.grammar())
            self.assertTrue(notation.read(text))


class Corners(unittest.TestCase):
    def facts(self, text):
        rules = notation.read(text)
        return [corners.Facts(rules, textbook) for textbook in (False, True)]

    def test_empty(self):
        text = "e: a b; a: X? c*; b: ( Y | _ {} ); c: e PLUS; d: -; f: ( - ); g: none; h: X+; i: ;"
        for facts in self.facts(text):
            self.assertEqual(facts.empty, {"e", "a", "b", "i"})

    def test_end_of_input(self):
        """It can be empty whatever its quantifier, and neither reading ends at it; for ANTLR it is written as it is."""
        text = "e: EOF a | b EOF+ c; a: EOF+; b: EOF?? EOF; c: X; d: EOF X;"
        for facts in self.facts(text):
            self.assertEqual(facts.empty, {"e", "a", "b"})
            self.assertEqual(facts.corners["e"], {"a", "b", "c"})
        self.assertIn("e: x_EOF=EOF+ | EOF;", g4.written("G", notation.read("e: x=EOF+ | EOF;")))
        self.assertNotIn("EOF:", g4.written("G", notation.read(text)))

    def test_readings(self):
        text = "e: X? a | none?? b | .* c | n d | ( Y | f? ) g Z h; a: e; b: ; c: ; d: ; f: ; g: ; h: ; n: X?;"
        original, textbook = self.facts(text)
        self.assertEqual(original.corners["e"], {"n", "d", "f", "g"})
        self.assertEqual(textbook.corners["e"], {"a", "b", "c", "n", "d", "f", "g"})
        self.assertEqual((original.cycles, textbook.cycles), ([], [{"e", "a"}]))
        self.assertEqual(textbook.cycle_of("e"), {"e", "a"})
        self.assertEqual(textbook.cycle_of("b"), set())

    def test_begins_with_itself(self):
        for text, original, textbook in (
            ("e: e PLUS | NAME? e MINUS | INT;", False, True),
            ("e: e PLUS | INT;", False, False),
            ("e: e? PLUS | INT;", True, True),
            ("e: {} e PLUS | ( INT e );", True, True),
        ):
            with self.subTest(text=text):
                self.assertEqual([facts.begins_with_itself("e") for facts in self.facts(text)], [original, textbook])


class Words(unittest.TestCase):
    """What the tool says."""

    def test_errors(self):
        self.assertEqual(tool.error_of("error(147): G.g4:3:0: left recursive"), (147, "G.g4:3:0: left recursive"))
        with self.assertRaises(RuntimeError):
            tool.error_of("warning(125): other")

    def test_overlapping_sets_are_one(self):
        told = [(119, "sets [a, b] and [c] and [d, e] and [b, d]"), (153, "[f]")]
        self.assertEqual(tool.reported(told), [{"c"}, {"a", "b", "d", "e"}])


class FixedTool:
    """Says what a test has it say, one answer after the other."""

    def __init__(self, *answers):
        self.answers = list(answers)

    def errors(self, rules):
        return self.answers.pop(0)


class Judged(unittest.TestCase):
    def judged(self, before, original, textbook, *answers):
        judgement = judge.Judgement(FixedTool(*answers))
        self.was_judged = judgement.judge(cases.Case("case", before, {"original": original, "textbook": textbook}))
        self.assertEqual(judgement.tool.answers, [])
        return judgement

    def faults(self, *words):
        return self.judged(*words).faults

    def test_turned_away(self):
        judgement = self.judged(BEFORE, AFTER, f"// joined: none\n{BEFORE}", REPORTED, TURNED_AWAY)
        self.assertEqual(judgement.faults, [])
        self.assertEqual(judgement.verdicts, [("case", "original", "e", judge.CORNER)])
        self.assertEqual(judgement.told_of("case"), "case: e is turned away, begins with itself (original)")
        self.assertEqual(judgement.told_of("other"), "other: nothing is joined")
        lines = list(judgement.told())
        self.assertIn("before the pass: 1 of 1 cycles that are joined are reported by error 119", lines)
        self.assertIn("0 of 1 joined rules are taken, 1 turned away (can be empty: 0, begins with itself: 1, ", lines[2])

    def test_a_reason_and_taken(self):
        faults = self.faults(BEFORE, AFTER, f"// joined: none\n{BEFORE}", REPORTED, [])
        self.assertEqual(faults, ["not so: case, the original's reading: e begins with itself and is turned away"])

    def test_not_reported(self):
        for told in ([], TURNED_AWAY):
            faults = self.faults(BEFORE, AFTER, f"// joined: none\n{BEFORE}", told, TURNED_AWAY)
            self.assertEqual(faults, ["not so: case: the cycle ['a', 'e'] is reported"])

    def test_joined_in_no_cycle(self):
        after = "// joined: e\ne: X;"
        self.assertIn("not so: case: a joined rule was in no cycle", self.faults("e: X;", after, after, [], [], []))

    def test_the_textbooks_reading(self):
        """With a reason that is none there, and turned away without one."""
        faults = self.faults(BEFORE, f"// joined: none\n{BEFORE}", AFTER, REPORTED, TURNED_AWAY)
        self.assertEqual(faults, ["not so: case, the textbook's reading: e is joined, and begins with itself"])
        after = "// joined: e\ne: e PLUS | INT;"
        faults = self.faults("e: a | INT; a: e PLUS;", after, after, REPORTED, [], TURNED_AWAY)
        self.assertEqual(faults, ["not so: case, the textbook's reading: e has no such reason and is not turned away"])

    def test_nothing_is_said_of_empty_rules(self):
        after = "// joined: e\ne: e a PLUS | INT?; a: e a PLUS;"
        judgement = self.judged("e: a | INT?; a: e a PLUS;", after, after, REPORTED, REPORTED, [])
        self.assertEqual(judgement.faults, [])
        self.assertEqual([own[1:] for own in judgement.verdicts], [("original", "e", judge.EMPTY), ("textbook", "e", judge.TAKEN)])

    def test_a_cycle_left(self):
        """DIFFERENCES, finding 1: a later cycle."""
        before = "e: INT? a | b | X; a: e PLUS; b: e MINUS;"
        after = "// joined: e\ne: INT? a | e MINUS | X; a: e PLUS;"
        told = [(119, "[a, b, e]")], [(119, "[a, e]")]
        judgement = self.judged(before, after, f"// joined: none\n{before}", *told)
        self.assertEqual((judgement.faults, judgement.verdicts), ([], [("case", "original", "e", judge.LEFT)]))

    def test_other_errors(self):
        judgement = self.judged(BEFORE, AFTER, AFTER, [*REPORTED, (153, "G.g4:2:0: rule a contains a closure")])
        self.assertEqual((self.was_judged, judgement.left_out, judgement.faults), (False, [{153}], []))
        self.assertEqual(next(judgement.told()), "left out, for other errors before the pass (153): 1 grammars")
        faults = self.faults(BEFORE, AFTER, f"// joined: none\n{BEFORE}", REPORTED, [*TURNED_AWAY, (148, "e")])
        self.assertIn("case, the original's reading: no error but 119 in ", faults[0])


class ByLevels:
    """A tool whose parser groups as the levels say."""

    def __init__(self, printed):
        self.printed = printed

    def grouped(self, rules, words, rule, phrase):
        return levels.Levels(self.printed[-1]).grouped(phrase)


class Levels(unittest.TestCase):
    PRINTED = """e:
    e B0 e  // level 5, binary; slot e 1, origin xb0 1
  | e S1    // level 4, suffix; slot e 2, origin xs1 1
  | P2 e    // level 3, prefix; slot e 3, untouched
  | xp3     // level 2, primary; slot e 4, untouched; warning 1
  | S       // level 1, primary; slot e 5, untouched
;
xp3@5: P3 e;
"""

    def test_grouped(self):
        for phrase, groups in (
            ("a b0 b b0 c", "(a b0 b) b0 c"),
            ("p2 a b0 b s1", "p2 ((a b0 b) s1)"),
            ("a b0 p2 b s1", "a b0 (p2 (b s1))"),
            ("a b0 b s1", "(a b0 b) s1"),
            ("p3 a b0 b", "p3 (a b0 b)"),
            ("p2 p3 a s1", "p2 (p3 (a s1))"),
        ):
            self.assertEqual(levels.Levels(self.PRINTED).grouped(phrase), groups)

    def test_levels_part(self):
        """Another level or another form groups otherwise."""
        for old, new in (("level 4, suffix", "level 9, suffix"), ("level 5, binary", "level 5, suffix")):
            other = levels.Levels(self.PRINTED.replace(old, new)).grouped("a b0 b s1")
            self.assertNotEqual(other, "(a b0 b) s1")

    def test_phrases(self):
        operators = levels.Operators(1)
        forms = "".join(name[0] for _ in range(50) if operators.grammar() for name in operators.forms)
        self.assertEqual(set(forms), set("BSP"))
        words = set(levels.WORDS) | {name.lower() for name in operators.forms}
        for _ in range(50):
            self.assertLessEqual(set(operators.phrase().split()), words)
        self.assertEqual(levels.Operators(3).grammar(), levels.Operators(3).grammar())

    def test_judged(self):
        """All grammars and phrases, with what the built program prints, where there is one."""
        program = HERE.parent / "rust/target/release/join"
        if not program.exists():
            self.skipTest("join is not built")
        with tempfile.TemporaryDirectory() as made:
            printed = []

            def join(text):
                (pathlib.Path(made) / "g.grammar").write_text(text)
                printed.append(subprocess.run([program, f"{made}/g.grammar"], capture_output=True, check=True, text=True).stdout)
                return printed[-1]

            fixed = ByLevels(printed)
            found = list(levels.judged(join, fixed, notation.read, 1, 20))
            self.assertTrue(len(found) > 60 and all(wanted == groups for _, wanted, groups in found))
            for what, wanted, _, suggested, is_warned in levels.warned(join, fixed, notation.read):
                self.assertTrue(is_warned and wanted != suggested, what)


class Absent(unittest.TestCase):
    def test_status(self):
        with mock.patch.dict(os.environ, {"ANTLR": "/nowhere/antlr.jar"}), contextlib.redirect_stdout(io.StringIO()) as said:
            self.assertEqual(judge.main(["--count", "1"]), judge.ABSENT)
        self.assertIn("judge: not there: /nowhere/antlr.jar", said.getvalue())

    def test_not_built(self):
        with self.assertRaises(tool.Absent):
            cases.build("false")


if __name__ == "__main__":
    unittest.main()
