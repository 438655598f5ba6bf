#!/usr/bin/env python3
"""Shows header.py finding a header that says something else than the source, and alike.py archives that answer otherwise."""

import types
import unittest

import alike
import declared
import header

NUMBERS = """pub struct Sheet;

impl Sheet {
    pub const LEAST_BYTES: usize = 32;

    pub const MOST_BYTES: usize = 32768;
}
"""
ENUM = """#[derive(Clone, Copy)]
pub enum Why {
    BadLength,
    ShortBuffer,
}

impl From<Why> for u32 {
    ghost from_gives = { λ why number. number ≡ why_number why };

    fn from(why: Why) -> u32 {
        match why {
            Why::BadLength => 1,
            Why::ShortBuffer => 2,
        }
    }
}
"""
ENTRY = """#[unsafe(no_mangle)]
pub extern "C" fn pass(
    sheet: &[u8],
    work: &mut [u8],
    numbers: &mut [u32; 5],
)
    ensures { so }
{
"""
PROTOTYPE = "void pass(const uint8_t *sheet, size_t sheet_length, uint8_t *work, size_t length,\n    uint32_t numbers[5]);\n"


def not_so(checks):
    return [what for what, so in checks if not so]


class Kept(unittest.TestCase):
    """The header in the repository, changed in one place."""

    def setUp(self):
        self.text = (header.ROOT / "include" / "pass.h").read_text(encoding="utf-8")
        self.sources = header.Sources()

    def edited(self, old, new):
        self.assertIn(old, self.text)
        changed = header.Header(self.text.replace(old, new, 1))
        return not_so([*header.number_checks(changed, self.sources), *header.text_checks(changed, self.sources)])

    def test_edits(self):
        before = self.edited("PASS_PLANS", "PASS_PLANS")
        for old, new, what in (
            ("LEAST_BYTES 32", "LEAST_BYTES 28", "PASS_SHEET_LEAST_BYTES is Sheet::LEAST_BYTES"),
            ("WORK_BYTES 65536", "WORK_BYTES 65532", "PASS_WORK_BYTES is Work::BYTES"),
            ("TRAIL_BYTES 65536", "TRAIL_BYTES 65532", "PASS_TRAIL_BYTES is the Rust crate's"),
            ("RESULT_BYTES 32768", "RESULT_BYTES 32764", "the buffers of 3.1"),
            ("PASS_PLANS, ", "PASS_STEPS, ", "the numbers of 3.2"),
            ("ENTRY_BYTES 16", "ENTRY_BYTES 12", "an entry of 12.1"),
            ("PASS_LABEL = 4", "PASS_LABEL = 5", "the kinds of 12.2"),
            ("PASS_RULE_BOUNDARY = 1", "PASS_RULE_BOUNDARY = 3", "the reasons of 12.3"),
            ("PASS_BAD_RECORD = 4", "PASS_BAD_RECORD = 5", "PASS_BAD_RECORD is Refusal::BadRecord"),
            ("PASS_RULE_BOUNDARY = 1", "PASS_RULE_BOUNDARY = 3", "PASS_RULE_BOUNDARY is Reason::RuleBoundary"),
            ("PASS_RESULT_TOO_LARGE = 9", "PASS_RESULT_TOO_LARGE = 10", "PASS_RESULT_TOO_LARGE is Refusal::ResultTooLong"),
            ("PASS_RESULT_TOO_LARGE = 9", "PASS_RESULT_TOO_LARGE = 10", "refusals 1 to 9"),
            ("over 128 rules", "over 127 rules", "PASS_BAD_RECORD has the specification's numbers"),
            ('VERSION "0.1.0"', 'VERSION "0.1.1"', "the version is the Rust crate's"),
            ("1,024 alternatives", "1,025 alternatives", "PASS_PLAN_TOO_LARGE has the specification's numbers"),
            ("is not below its counter", "is above its counter", "PASS_ID_PAST_COUNTER has the Rust crate's text"),
        ):
            with self.subTest(old=old):
                self.assertIn(what, set(self.edited(old, new)) - set(before))

    def test_edits_of_the_source(self):
        kept = self.sources.crates
        self.assertEqual(not_so(header.number_checks(header.Header(self.text), self.sources)), [])
        for old, new, what in (
            ("Refusal::BadRecord => 4,", "Refusal::BadRecord => 5,", {"PASS_BAD_RECORD is Refusal::BadRecord"}),
            ("Sort::Label => 4,", "Sort::Label => 5,", {"PASS_LABEL is Sort::Label"}),
            ("Reason::RuleBoundary => 1,", "Reason::RuleBoundary => 2,", {"PASS_RULE_BOUNDARY is Reason::RuleBoundary"}),
            ("LEAST_BYTES: usize = 32;", "LEAST_BYTES: usize = 28;", {"PASS_SHEET_LEAST_BYTES is Sheet::LEAST_BYTES"}),
            # a number told of no variant, or of a variant that is not there, holds nothing
            ("            Reason::BlockBoundary => 2,\n", "", {f"PASS_{one.upper()}_BOUNDARY is Reason::{one}Boundary" for one in ("Rule", "Block")}),
        ):
            with self.subTest(new=new):
                self.sources.crates = [text.replace(old, new) for text in kept]
                self.assertNotEqual(self.sources.crates, kept)
                self.assertEqual(set(not_so(header.number_checks(header.Header(self.text), self.sources))), what)
        self.sources.crates = kept


class Others(unittest.TestCase):
    """The headers beside pass.h, each changed in one place."""

    def edited(self, name, old, new):
        text, sources = header.read_header(name).text, header.Sources(name)
        self.assertIn(old, text)
        changed = header.Header(text.replace(old, new, 1))
        return not_so([*header.further_checks(name, changed, sources), *header.signature_checks(changed, sources)])

    def test_edits(self):
        for name, old, new, what in (
            ("sheet", "SHEET_RULES 128", "SHEET_RULES 127", "SHEET_RULES is Row::RULES"),
            ("sheet", "SHEET_LABEL_COUNTER,\n    SHEET_ACTION_COUNTER", "SHEET_ACTION_COUNTER,\n    SHEET_LABEL_COUNTER", "sheet.h has the numbers in the order of the crate"),
            ("sheet", "SHEET_PARSER = 2", "SHEET_PARSER = 3", "SHEET_PARSER is UnitKind::Parser"),
            ("sheet", "uint32_t places[128]", "uint64_t places[128]", "read_sheet takes what the crate's function takes"),
            ("facts", "ROW_WORDS 2", "ROW_WORDS 4", "FACTS_ROW_WORDS is Row::WORDS"),
            ("facts", "FACTS_NOT_INLINABLE = 2", "FACTS_NOT_INLINABLE = 1", "facts.h has the numbers and rows of 3.10"),
            ("facts", "numbers[3]", "numbers[4]", "facts.h has a name for each number"),
            ("facts", "calls[128][2]", "calls[2][128]", "find_facts takes what the crate's function takes"),
            ("plans", "PLANS_NONE,  ", "", "plans.h has a name for each number"),
            ("plans", "PLANS_NO_STEPS = 10", "PLANS_NO_STEPS = 12", "clauses 1 to 11"),
            ("plans", "PLANS_NO_STEPS = 10", "PLANS_NO_STEPS = 12", "PLANS_NO_STEPS is Clause::NoSteps"),
            ("plans", "PLANS_BEYOND_BUDGET = 4", "PLANS_TOO_MANY_STEPS = 4", "plans.h has the clauses of the crate"),
            ("plans", "a blocked corner: an alt", "a blocked corner: the alt", "PLANS_BLOCKED_CORNER has the Rust crate's text"),
            ("plans", "no steps: ", "no step: ", "PLANS_NO_STEPS is clause 10"),
            ("plans", "uint32_t nth,", "uint32_t *nth,", "plan_nth takes what the crate's function takes"),
            ("convert", "numbers[2]", "numbers[3]", "convert.h has a name for each number"),
            ("convert", "CONVERT_RESULT_LENGTH, /*", "CONVERT_PLANS, /*", "convert.h has the numbers of 19.4"),
            ("convert", "size_t work_length, uint32_t", "uint32_t work_length, uint32_t", "convert takes what the crate's function takes"),
        ):
            with self.subTest(old=old):
                self.assertEqual(self.edited(name, old, old), [])
                self.assertIn(what, self.edited(name, old, new))


class Alike(unittest.TestCase):
    def test_parted(self):
        sheets = [alike.Sheet(name, b"") for name in ("one", "two", "three")]
        one, other = ["pass 0\n", "pass 0\n", "pass 0\n"], ["pass 0\n", "pass 1\n", "pass 0\npass 1\n"]
        self.assertEqual(list(alike.parted(sheets, one, other)), [None, "alike: two: 'pass 0' and 'pass 1'", "alike: three: more calls"])
        with self.assertRaises(ValueError):
            list(alike.parted(sheets, one, other[:2]))

    def test_gathered(self):
        names = [sheet.name for sheet in alike.gathered()]
        self.assertIn("written.txt: written 1", names)
        self.assertIn("case-01", names)


class Parts(unittest.TestCase):
    def test_constants(self):
        self.assertEqual(declared.constants([NUMBERS]), {"Sheet::LEAST_BYTES": 32, "Sheet::MOST_BYTES": 32768})

    def test_numbers(self):
        self.assertEqual(declared.constants([ENUM]), {"Why::BadLength": 1, "Why::ShortBuffer": 2})
        for old, new in (
            ("            Why::ShortBuffer => 2,\n", ""),
            ("Why::ShortBuffer => 2,\n", "_ => 2,\n"),
            ("From<Why> for u32", "From<Why> for u64"),
            ("    ShortBuffer,\n}", "    ShortBuffer,\n    BadTrailer,\n}"),
        ):
            with self.subTest(new=new):
                self.assertEqual(declared.constants([ENUM.replace(old, new)]), {})
        self.assertEqual(declared.constants(["impl Sheet<'_> {\n    pub const LEAST_BYTES: usize = 32;\n}\n"]), {"Sheet::LEAST_BYTES": 32})

    def test_figures(self):
        self.assertEqual(declared.figures("Refusal 4: 1 to 4,294,967,295 (2.15), 8 deep."), {1, 4294967295, 8})

    def test_signatures(self):
        in_one_line = ENTRY.replace("(\n    ", "(").replace(",\n    ", ", ").replace(",\n)", ")")
        self.assertIn("fn pass(sheet: &[u8], work: &mut [u8], numbers: &mut [u32; 5])\n", in_one_line)
        self.assertEqual(declared.entries([in_one_line]), declared.entries([ENTRY]))
        sources = types.SimpleNamespace(crates=[ENTRY])
        for prototype, faults in (
            (PROTOTYPE, []),
            (PROTOTYPE.replace("const ", ""), ["pass takes what the crate's function takes"]),
            (PROTOTYPE.replace("[5]", "[4]"), ["pass takes what the crate's function takes"]),
            (PROTOTYPE.replace("pass", "pass_other"), ["the functions of the crate", "pass takes what the crate's function takes"]),
        ):
            with self.subTest(prototype=prototype):
                self.assertEqual(not_so(header.signature_checks(header.Header(prototype), sources)), faults)

    def test_no_functions(self):
        sources = types.SimpleNamespace(crates=[NUMBERS])
        self.assertEqual(not_so(header.signature_checks(header.Header(""), sources)), ["the functions of the crate"])


if __name__ == "__main__":
    unittest.main()
