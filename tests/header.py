#!/usr/bin/env python3
"""Holds the headers of include/ to the source: their numbers, names and texts to the crates, to docs/SPECIFICATION.md and to the
Rust crate; what they say of symbols and buffers to the archives, by C programs that are compiled with them, the example among them.

The archives are those of the folder that ARCHIVES names, else of target/staticlib (`tools/archives` makes them). Compiled
with gcc, and with g++ where it is at hand. The last line is 'N passed, 0 failed' where nothing failed.

usage: header.py
"""

import pathlib
import re
import sys
import tempfile

from compiled import NAMES, ROOT, make_checks, program_checks, symbol_checks, told
from declared import Header, constants, entries, figures, paragraph, rust_texts

# Of each number of the header the constant in the crates, or the variant whose number it is.
CONSTANTS = {
    "PASS_SHEET_LEAST_BYTES": "Sheet::LEAST_BYTES",
    "PASS_SHEET_MOST_BYTES": "Sheet::MOST_BYTES",
    "PASS_RESULT_BYTES": "Buffer::RESULT",
    "PASS_TRAIL_BYTES": "Buffer::TRAIL",
    "PASS_WORK_BYTES": "Work::BYTES",
    "PASS_RULE": "Sort::RULE",
    **{f"PASS_{name.upper()}": f"Sort::{name}" for name in ("Alternative", "Element", "Label", "Action", "Predicate")},
    "PASS_BAD_LENGTH": "Refusal::BadLength",
    "PASS_SHORT_BUFFER": "Refusal::ShortBuffer",
    "PASS_BAD_TRAILER": "Refusal::BadTrailer",
    "PASS_BAD_RECORD": "Refusal::BadRecord",
    "PASS_SHARED_NUMBER": "Refusal::SharedNumber",
    "PASS_ID_PAST_COUNTER": "Refusal::IdPastCounter",
    "PASS_PLAN_TOO_LARGE": "Refusal::PlanTooLarge",
    "PASS_COUNTER_PAST_END": "Refusal::CounterPastEnd",
    "PASS_RESULT_TOO_LARGE": "Refusal::ResultTooLong",
    "PASS_RULE_BOUNDARY": "Reason::RuleBoundary",
    "PASS_BLOCK_BOUNDARY": "Reason::BlockBoundary",
}
# The clauses of plans.h.
CLAUSES = {
    "PLANS_NO_HUB": "Clause::NoHub",
    "PLANS_HUB_WITH_ARGUMENTS": "Clause::HubWithArguments",
    "PLANS_SATELLITE_NOT_INLINABLE": "Clause::SatelliteNotInlinable",
    "PLANS_BEYOND_BUDGET": "Clause::Budget",
    "PLANS_DANGLING_REFERENCE": "Clause::DanglingReference",
    "PLANS_BLOCKED_CORNER": "Clause::BlockedCorner",
    "PLANS_LABEL_COLLISION": "Clause::LabelCollision",
    "PLANS_BINDING_COLLISION": "Clause::BindingCollision",
    "PLANS_OPTION_COLLISION": "Clause::OptionCollision",
    "PLANS_NO_STEPS": "Clause::NoSteps",
    "PLANS_NOT_REWRITABLE": "Clause::NotDirectlyRewritable",
}
# Where what a header has of the crates below stands: limits, and enums with their numbers.
SHARED = ("words/src/numbers.rt", "words/src/sheet.rt", "reach/src/rows.rt", "copies/src/pen.rt", "steps/src/decide.rt")
# The paragraphs of the specification whose numbers a refusal's text may have.
PARAGRAPHS = {1: ["4.1"], 2: ["3.1"], 3: ["2.3"], 4: ["2.15", "2.19"], 5: [], 6: [], 7: ["4.7"], 8: ["4.8"], 9: ["4.9"]}
# Where the numbers of a sheet stand, by their names in the crate.
PLACES = {
    "u32::from(parts.kind)": "SHEET_KIND",
    "parts.preserved": "SHEET_PRESERVED",
    "parts.count": "SHEET_PRESERVED_COUNT",
    **{f"parts.counters.{sort}": f"SHEET_{sort.upper()}_COUNTER" for sort in ("alternative", "element", "label", "action", "predicate")},
    **{f"sizes.{sort}s": f"SHEET_{sort.upper()}_COUNT" for sort in ("rule", "alternative", "element")},
}


class Sources:
    """What a header is held to."""

    def __init__(self, name="pass", root=ROOT):
        read = lambda path: path.read_text(encoding="utf-8")
        # what a library exports to C stands in a crate of its own, over it
        own = [path for crate in (name, f"{name}_c") for path in sorted((root / "crates" / crate / "src").glob("*.rt"))]
        self.crates = [read(path) for path in [*(root / "crates" / path for path in SHARED), *own]]
        self.specification = read(root / "docs" / "SPECIFICATION.md")
        rust = root / "rust" / "mutual-recursion" / "src"
        self.refusals, self.clauses, self.rust = read(rust / "refusal.rs"), read(rust / "clause.rs"), read(rust / "lib.rs")
        self.version = re.search(r'^version = "(.*)"', read(root / "rust" / "Cargo.toml"), re.M)[1]


def read_header(name, root=ROOT):
    return Header((root / "include" / f"{name}.h").read_text(encoding="utf-8"))


def constant_checks(header, sources, wanted):
    known = constants(sources.crates)
    for name, constant in wanted.items():
        yield f"{name} is {constant}", name in header.values and header.values[name] == known.get(constant)


def number_checks(header, sources):
    """Each number of pass.h against the crates, the specification and the Rust crate."""
    yield from constant_checks(header, sources, CONSTANTS)
    yield "the version is the Rust crate's", header.version() == sources.version
    for name in ("SHEET_LEAST_BYTES", "SHEET_MOST_BYTES", "RESULT_BYTES", "TRAIL_BYTES", "WORK_BYTES"):
        given = re.search(rf"pub const {name}: usize = ([\d_]+);", sources.rust)
        yield f"PASS_{name} is the Rust crate's", given is not None and int(given[1]) == header.values.get(f"PASS_{name}")
    say = lambda number: paragraph(sources.specification, number)
    value = lambda name: f"{header.values.get('PASS_' + name, 0):,}"
    yield "the buffers of 3.1", say("3.1").endswith(
        f"result, at least {value('RESULT_BYTES')} bytes; trail and work area, at least {value('TRAIL_BYTES')} bytes each. "
        "They may be longer."
    )
    yield "the numbers of 3.2", "five numbers: 0 or the refusal; plans; steps; the length of the result and that of the trail" in say(
        "3.2"
    ) and header.enums["pass_place"] == [
        f"PASS_{name}" for name in ("REFUSAL", "PLANS", "STEPS", "RESULT_LENGTH", "TRAIL_LENGTH", "NUMBERS")
    ]
    yield "an entry of 12.1", f"An entry has {value('ENTRY_BYTES')} bytes" in say("12.1")
    kinds = ", ".join(f"{header.values[name]} {name[5:].lower()}" for name in header.enums["pass_kind"])
    yield "the kinds of 12.2", say("12.2").startswith(f"Kinds: {kinds}.")
    camel = lambda name: "".join(part.title() for part in name[5:].split("_"))
    reasons = [f"{header.values[name]} {{}} `{camel(name)}`" for name in header.enums["pass_reason"]]
    yield "the reasons of 12.3", say("12.3") == "Reasons: " + ", ".join(reasons).format("the original's", "its") + "."


def text_checks(header, sources):
    """Each refusal's text against the Rust crate's, and its numbers against the specification."""
    names, texts = header.enums["pass_refusal"], rust_texts(sources.refusals, "Refusal", "PASS")
    yield "refusals 1 to 9", [header.values[name] for name in names] == list(range(1, 10))
    yield "the Rust crate has the same refusals", list(texts) == names
    for name, number in zip(names, range(1, 10)):
        text = header.texts.get(name, "")
        yield f"{name} has the Rust crate's text", bool(text) and texts.get(name) == text
        said = set().union(*(figures(paragraph(sources.specification, one)) for one in PARAGRAPHS[number]))
        exact = PARAGRAPHS[number] == [f"4.{number}"]
        yield f"{name} has the specification's numbers", figures(text) == said if exact else figures(text) <= said
        yield f"{name} is refusal {number}", paragraph(sources.specification, f"4.{number}").startswith(f"Refusal {number}")


def further_checks(name, header, sources):
    """The headers beside pass.h: limits, and the order of an answer's numbers."""
    prefix = name.upper()
    rows = {f"{prefix}_RULES": "Row::RULES", **({} if name == "sheet" else {f"{prefix}_ROW_WORDS": "Row::WORDS"})}
    yield from constant_checks(header, sources, {} if name == "convert" else rows)
    places = header.enums[f"{name}_place"]
    sizes = {int(size) for size in re.findall(r"uint32_t numbers\[(\d+)\]", header.text)}
    yield f"{name}.h has a name for each number", sizes == {len(places) - 1} and places[-1] == f"{prefix}_NUMBERS"
    yield f"{name}.h has the refusal first", places[0] == f"{prefix}_REFUSAL"
    if name == "sheet":
        kinds = {f"SHEET_{kind.upper()}": f"UnitKind::{kind}" for kind in ("Lexer", "Parser", "Combined")}
        yield from constant_checks(header, sources, kinds)
        told = re.findall(r"fn sheet_numbers.*?\[\n\s*0,(.*?)\]\n", "".join(sources.crates), re.S)
        in_order = [[PLACES.get(one.strip()) for one in numbers.split(",")[:-1]] for numbers in told]
        yield "sheet.h has the numbers in the order of the crate", in_order == [places[1:-1]]
    if name == "facts":
        said = "the number of rules and the number of cycles; a row of the nullable rules and a row of those that cannot be inlined"
        yield "facts.h has the numbers and rows of 3.10", said in paragraph(sources.specification, "3.10") and (
            places[1:3] + header.enums["facts_mark"] == ["FACTS_RULE_COUNT", "FACTS_CYCLE_COUNT", "FACTS_NULLABLE", "FACTS_NOT_INLINABLE"]
            and header.values["FACTS_NOT_INLINABLE"] == header.values["FACTS_ROW_WORDS"]
        )
    if name == "plans":
        yield from clause_checks(header, sources)
    if name == "convert":
        said = "two numbers: 0 or the refusal; and the length of the new sheet, in bytes"
        yield "convert.h has the numbers of 19.4", said in paragraph(sources.specification, "19.4") and (
            places == ["CONVERT_REFUSAL", "CONVERT_RESULT_LENGTH", "CONVERT_NUMBERS"]
        )


def clause_checks(header, sources):
    """Each clause's number and text against the Rust crate's and the specification's."""
    names, texts = header.enums["plans_clause"], rust_texts(sources.clauses, "Clause", "PLANS")
    yield from constant_checks(header, sources, CLAUSES)
    yield "plans.h has the clauses of the crate", list(CLAUSES) == names
    yield "clauses 1 to 11", [header.values[name] for name in names] == list(range(1, 12))
    yield "the Rust crate has the same clauses", list(texts) == names
    for number, name in enumerate(names, 1):
        text = header.texts.get(name, "")
        yield f"{name} has the Rust crate's text", bool(text) and texts.get(name) == text
        said = paragraph(sources.specification, f"10.{number}").split(": ")
        begins = text.split(":")[0] == re.split(r" \(", said[1])[0].rstrip(".")
        yield f"{name} is clause {number}", said[0] == f"Clause {number}" and begins


def signature_checks(header, sources):
    made, wanted = header.prototypes(), entries(sources.crates)
    yield "the functions of the crate", bool(wanted) and set(made) == set(wanted)
    for name in sorted(wanted):
        yield f"{name} takes what the crate's function takes", made.get(name) == wanted[name]


def main():
    header, checks = read_header("pass"), []
    checks += [number_checks(header, Sources()), text_checks(header, Sources())]
    for name in NAMES:
        header, sources = read_header(name), Sources(name)
        checks += [signature_checks(header, sources), symbol_checks(name, header)]
        checks += [further_checks(name, header, sources)] if name != "pass" else []
    with tempfile.TemporaryDirectory() as room:
        checks += [program_checks(pathlib.Path(room)), make_checks(pathlib.Path(room))]
        return told("header", (check for part in checks for check in part))


if __name__ == "__main__":
    sys.exit(main())
