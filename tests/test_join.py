#!/usr/bin/env python3
"""Shows join.py passing a program that answers as it should and failing on each thing that is not so, and how phrases group."""

import contextlib
import hashlib
import io
import pathlib
import tempfile
import unittest
from unittest import mock

import join
import join_convert
import join_names
from grouping import alternatives, grouped

TARGET = pathlib.Path(__file__).resolve().parent.parent / "target"
GOOD = "// joined\n\ne:\n    e PLUS e  // slot e 1, origin a 1\n  | INT  // slot e 2, untouched\n;\n"


class Folder(unittest.TestCase):
    """An example with what is stored of it, and programs that print what a test has them print."""

    def setUp(self):
        TARGET.mkdir(exist_ok=True)
        folder = tempfile.TemporaryDirectory(prefix="join-", dir=TARGET)
        self.addCleanup(folder.cleanup)
        self.root = pathlib.Path(folder.name)
        self.examples = self.root / "examples"
        self.examples.mkdir()
        (self.examples / "g.grammar").write_text("e: a | INT; a: e PLUS e;")
        (self.examples / "g.joined").write_text(GOOD)
        (self.examples / "g.listing").write_text("ok 1 1\n")
        (self.root / "good").write_text(GOOD)

    def program(self, script):
        path = self.root / "program"
        path.write_text(f"#!/bin/sh\n{script}\n")
        path.chmod(0o755)
        return str(path)

    def outcome(self, check, script, *words):
        return join.outcome(check, self.program(script), *words)

    def made(self):
        made = self.root / "made"
        made.mkdir(exist_ok=True)
        return made


class Stored(Folder):
    def test_the_archives_do_not_count(self):
        for said in ("proved here", "built from these sources\n//   by another kit"):
            self.assertEqual(join.settled(f"// join\n// the pass was {said}\n// more\n".encode()), b"// join\n// the pass was ..\n// more\n")

    def held(self, script):
        return self.outcome(join.holds_stored, script, self.examples / "g.grammar", [], self.examples / "g.joined")

    def test_held(self):
        self.assertIsNone(self.held(f"cat {self.root}/good"))

    def test_not_held(self):
        self.assertIn("./join examples/g.grammar", self.held(f"cat {self.root}/good; echo"))
        self.assertEqual(self.held("echo no >&2; exit 2"), "status 2: no")
        self.assertEqual(self.held(f"cat {self.root}/good; echo much >&2"), "status 0: much")
        (self.examples / "g.joined").unlink()
        self.assertEqual(self.held(f"cat {self.root}/good"), "it is not stored")

    def test_what_is_stored(self):
        found = [(options, stored.name) for _, options, stored in join.cases(self.examples)]
        self.assertEqual(found, [([], "g.joined"), (["--listing"], "g.listing")])
        (self.examples / "g.textbook.joined").write_text("")
        self.assertEqual([stored.name for *_, stored in join.cases(self.examples)][2:], ["g.textbook.joined"])

    def test_stored_without_a_grammar(self):
        check = join.each_stored_has_its_grammar
        self.assertIsNone(self.outcome(check, "", self.examples, None))
        (self.examples / "h.listing").write_text("")
        self.assertIn("h.listing", self.outcome(check, "", self.examples, None))

    def test_renewed(self):
        (self.examples / "g.joined").write_text("old")
        with contextlib.redirect_stdout(io.StringIO()):
            join.renew(self.program(f"cat {self.root}/good"), self.examples)
        self.assertEqual((self.examples / "g.joined").read_text(), GOOD)


class Answers(Folder):
    def test_joined_again(self):
        check = join.joined_texts_are_grammars
        self.assertIsNone(self.outcome(check, "echo ok 0 0", self.examples, self.made()))
        self.assertEqual(self.outcome(check, "echo ok 1 1", self.examples, self.made()), "g.grammar: ok 1 1")

    def test_bytes(self):
        digest = hashlib.sha256(b"sheet").hexdigest()
        write = "printf sheet >$3; printf '\\1\\0\\0\\0\\2\\0\\0\\0\\3\\0\\0\\0\\4\\0\\0\\0' >$5; "
        script = 'if [ "$2" = --listing ]; then echo "t 1 2 3 %d"; else ' + write + "echo handed back: SHA-256 %s, 5 bytes; fi"
        check = join.bytes_are_written
        self.assertIsNone(self.outcome(check, script % (4, digest), self.examples, self.made()))
        self.assertEqual(self.outcome(check, script % (5, digest), self.examples, self.made()), "g.grammar: another trail")
        self.assertEqual(self.outcome(check, script % (4, "0"), self.examples, self.made()), "g.grammar: another sheet")

    def test_names(self):
        script = 'case $1 in *.grammar) echo "e: INT {\\$x.text}; // slot";; *) echo "%s";; esac'
        check = join_names.names_survive
        self.assertIsNone(self.outcome(check, script % "e:\n INT {\\$x.text}\n;", self.examples, self.made()))
        self.assertIn("{$x.?}", self.outcome(check, script % "e: INT {\\$x.?};", self.examples, self.made()))
        self.assertIn("r%%1", self.outcome(check, script % "r%%1: T%%3;", self.examples, self.made()))

    def test_place(self):
        check = join.nothing_of_the_place
        self.assertIsNone(self.outcome(check, "cat $1", self.examples, self.made()))
        self.assertEqual(self.outcome(check, "pwd", self.examples, self.made()), "g.grammar differs")


class Stops(Folder):
    def stopped(self, script):
        return self.outcome(join.stops, script, "unknown option", self.made())

    def test_stopped(self):
        self.assertIsNone(self.stopped('echo "join: no option $2; see" >&2; exit 3'))

    def test_not_stopped(self):
        self.assertEqual(self.stopped("true"), "status 0 and not 3: ")
        self.assertIn("it says", self.stopped("echo join: what >&2; exit 3"))
        self.assertEqual(self.stopped('echo; echo "join: no option --other; see" >&2; exit 3'), "something is printed")

    def test_listed(self):
        say = "echo join: the sheet is refused by 3: bad >&2; exit 1"
        check = join.refusals_are_listed
        self.assertIsNone(self.outcome(check, f"echo refused 3; {say}", self.examples, self.made()))
        self.assertIsNotNone(self.outcome(check, f"echo refused 4; {say}", self.examples, self.made()))
        self.assertIsNotNone(self.outcome(check, "echo refused 3", self.examples, self.made()))

    def test_program_that_does_not_run(self):
        found = dict(join.tried(str(self.root / "none"), self.examples))
        self.assertTrue(all(fault for name, fault in found.items() if name != join.CHECKS[0].__doc__))

    def test_counted(self):
        said = io.StringIO()
        words = mock.patch("sys.argv", ["join.py", self.program("exit 9")])
        with words, mock.patch.object(join, "EXAMPLES", self.examples), contextlib.redirect_stdout(said):
            self.assertEqual(join.main(), 1)
        self.assertRegex(said.getvalue(), r"\n1 passed, [0-9]+ failed\n$")


class Conversions(Folder):
    def setUp(self):
        super().setUp()
        for name, sheet in (("new", join_convert.case_1("0")), ("longest", join_convert.grown(join_convert.of_length(32_764)))):
            (self.root / name).write_bytes(sheet)

    def test_sheets(self):
        self.assertEqual([len(join_convert.case_1(third)) for third in ("", "0")], [276, 288])
        self.assertEqual([len(join_convert.of_length(length)) for length in (32_764, 32_768)], [32_764, 32_768])

    def converted(self, case_1):
        """A program that answers case 1 so, and all else as it should."""
        script = f'''if [ "$1" != --convert ]; then
  printf '// joined\\n\\nr%%1:\\n r%%1 T%%4 r%%1 // level 2, binary; slot r%%1 1, origin r%%2 1\\n;\\n'
elif [ "${{2##*/}}" = longest ]; then cp {self.root}/longest "$3"; echo 32768 bytes
else {case_1}; fi'''
        return self.outcome(join_convert.old_sheets_are_converted, script, self.examples, self.made())

    def test_converted(self):
        good = f'cp {self.root}/new "$3" && echo 288 bytes'
        self.assertIsNone(self.converted(good))
        self.assertEqual(self.converted(good.replace("288", "276")), "another length")
        self.assertEqual(self.converted(f'cp {self.root}/longest "$3" && echo 288 bytes'), "another sheet")
        self.assertEqual(self.converted(f'[ "$2" = - ] || cp {self.root}/new "$2"; {good}'), "the old sheet is another now")

    def test_examples(self):
        check = join_convert.the_old_example_becomes_the_new_one
        script = f'cp {self.root}/new "$3"'
        self.assertEqual(self.outcome(check, script, self.examples, self.made()), "no old sheet is stored")
        (self.examples / "old").mkdir()
        for name in ("one", "two"):
            (self.examples / "old" / f"{name}.sheet").write_bytes(b"")
        (self.examples / "one.sheet").write_bytes(join_convert.case_1("0"))
        self.assertIsNone(self.outcome(check, script, self.examples, self.made()))
        (self.examples / "two.sheet").write_bytes(b"")
        self.assertEqual(self.outcome(check, script, self.examples, self.made()), "two.sheet becomes another sheet")

    def test_refused(self):
        check = join_convert.what_is_no_old_sheet
        say = "echo join: the old sheet is refused by 1: the sheet >&2; exit 1"
        self.assertIn("it says", self.outcome(check, say, self.examples, self.made()))
        self.assertIn("status 0 and not 1", self.outcome(check, 'echo > "$3"', self.examples, self.made()))

    def test_precedences(self):
        check = join_convert.precedences_are_printed
        script = 'case $1 in --listing) echo ok;; *0.grammar) printf "e:\\n e PLUS e n?\\n;\\n";; *) printf "e:\\n %s\\n;\\n";; esac'
        self.assertIsNone(self.outcome(check, script % "e PLUS e^7 n?^7", self.examples, self.made()))
        self.assertIn("it prints", self.outcome(check, script % "e PLUS e n?", self.examples, self.made()))
        self.assertEqual(self.outcome(check, script.replace("echo ok", "echo $2") % "e PLUS e^7 n?^7", self.examples, self.made()), "the listing tells it")


class Grouping(unittest.TestCase):
    RULE = "c:\n    c TIMES s=S {$s.text}  // slot c 1\n  | c ( ABOVE | BELOW ) c | NOT c\n  | c AND c | c OR c | S\n  | OPEN c CLOSE\n;\n"
    TOKENS = {"a": "S", "b": "S", "d": "S", "(": "OPEN", ")": "CLOSE"}

    def groups(self, phrase, rule=RULE):
        return grouped(rule, "c", phrase, self.TOKENS)

    def test_alternatives(self):
        self.assertEqual(alternatives("c: c ( A | B ) x=C {$x} | ;", "c"), [[None, {"A", "B"}, {"C"}], []])
        for text in ("d: X;", "c: ( d );", "c: X?;"):
            with self.assertRaises(ValueError):
                alternatives(text, "c")

    def test_earlier_binds_tighter(self):
        self.assertEqual(self.groups("a or b and d"), "a or (b and d)")
        self.assertEqual(self.groups("a and b or d"), "(a and b) or d")
        swapped = self.RULE.replace("AND", "XX").replace("OR", "AND").replace("XX", "OR")
        self.assertEqual(self.groups("a or b and d", swapped), "(a or b) and d")

    def test_left_to_right(self):
        self.assertEqual(self.groups("a or b or d"), "(a or b) or d")

    def test_a_rule_of_its_own(self):
        """No level reaches the call at its end."""
        rule = self.RULE.replace("NOT c", "negation") + "negation@3: NOT c;\n"
        self.assertEqual(self.groups("not a above b and d", rule), "not ((a above b) and d)")
        with self.assertRaises(ValueError):
            self.groups("not a", rule.replace("NOT c;", "NOT c | X;"))

    def test_prefix_suffix_and_parentheses(self):
        self.assertEqual(self.groups("not a above b and d"), "(not (a above b)) and d")
        self.assertEqual(self.groups("a above b times d"), "a above (b times d)")
        self.assertEqual(self.groups("( a or b ) and d"), "(( (a or b) )) and d")

    def test_phrases_that_do_not_fit(self):
        for phrase in ("", "and", "a b", "a or", "( a", "a times not"):
            with self.assertRaises(ValueError):
                self.groups(phrase)


if __name__ == "__main__":
    unittest.main()
