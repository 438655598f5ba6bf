#!/usr/bin/env python3
"""ANTLR's own tool as an outside judge of joined grammars: those of examples/, and generated ones.

- Before the pass it reports each cycle that is joined (error 119, mutually left-recursive).
- After it, in the textbook's reading of left corners, it takes each joined rule that cannot be empty. In the original's it turns away
  those, and no others, that begin with themselves or are in a cycle behind a symbol that may be left out: by the textbook's left
  corners, and not by the original's. Nothing is said of joined rules that can be empty.
- The parser that it generates from the joined grammar of examples/heat-pump.md groups the phrase as that page says, and so with
  examples/negation.md.
- Of grammars of operators (levels.py) phrases group as the levels and forms say that `join` prints; where it warns, otherwise than the
  order of slots would have it.

Generated are, in turn, sheets of the harness (`sheets generate PROFILE SEED`: all profiles for each seed from 0 on) and small grammars
(grow.py): the first COUNT in which something is joined in a reading, and against which the tool has nothing but error 119 before the
pass. It has other errors for loops over what can be empty, and for rules that call themselves in a way of which it makes nothing.

usage: tests/antlr/judge.py [--count COUNT] [--program JOIN]   (500 grammars; the program that ./join builds)

It needs java, javac and ANTLR 4: Debian's packages antlr4 and default-jdk-headless, or a class path of ANTLR's tool in the variable ANTLR.
exit status: 0 all this is so; 1 something is not; 2 wrong options; 3 something that it needs is not there
"""

import argparse
import collections
import re
import sys
import time

import levels
import notation
from cases import EXAMPLES, READINGS, ROOT, Programs
from corners import Facts
from tool import CYCLES, Absent, Tool, reported

sys.path.append(str(ROOT / "tests"))
from join import WORDS  # noqa: E402

MADE = ROOT / "target/antlr"
# heat-pump.grammar
SLOTS = ["    | conjunction\n", "    | disjunction\n"]
ABSENT = 3
EVERY = 50
# Grammars of operators.
SEED, OPERATORS = 1, 20

TAKEN = "is taken"
# Why a rule may be turned away.
EMPTY, CORNER, LEFT, NONE = "can be empty", "begins with itself", "is in a cycle", "has no such reason"


def reason_of(rule, rules):
    textbook, original = Facts(rules, textbook=True), Facts(rules, textbook=False)
    if rule in textbook.empty:
        return EMPTY
    if textbook.begins_with_itself(rule) and not original.begins_with_itself(rule):
        return CORNER
    if textbook.cycle_of(rule) and not original.cycle_of(rule):
        return LEFT
    return NONE


class Judgement:
    """What was found, counted, and what is not so."""

    def __init__(self, tool):
        self.tool, self.faults, self.left_out, self.cycles = tool, [], [], collections.Counter()
        # Of each joined rule: the case, the reading, the rule, and the verdict or the reason.
        self.verdicts = []

    def require(self, good, name, what):
        if not good:
            self.faults.append(f"not so: {name}: {what}")

    def judge(self, case):
        """Whether the case was judged: it is not where the tool has something else against it before the pass."""
        errors = self.tool.errors(case.before)
        others = {number for number, _ in errors} - {CYCLES}
        if others:
            self.left_out.append(others)
            return False
        self.before(case, reported(errors))
        for reading in READINGS:
            if case.joined[reading]:
                self.after(case, reading)
        return True

    def before(self, case, told):
        """Each cycle that is joined, in one reading or both, is within what the tool reports."""
        cycles = set()
        for reading in READINGS:
            facts = Facts(case.before, reading == "textbook")
            cycles |= {facts.cycle_of(rule) for rule in case.joined[reading]}
        self.require(frozenset() not in cycles, case.name, "a joined rule was in no cycle")
        for cycle in cycles:
            is_told = any(cycle <= part for part in told)
            self.cycles[is_told] += 1
            self.require(is_told, case.name, f"the cycle {sorted(cycle)} is reported")

    def after(self, case, reading):
        """The tool's verdict on each joined rule, and the reason for it."""
        rules, name = case.after[reading], f"{case.name}, the {reading}'s reading"
        errors = self.tool.errors(rules)
        self.require({number for number, _ in errors} <= {CYCLES}, name, f"no error but {CYCLES} in {errors}")
        turned_away = set().union(*reported(errors))
        for rule in case.joined[reading]:
            reason, is_away = reason_of(rule, rules), rule in turned_away
            self.verdicts.append((case.name, reading, rule, reason if is_away else TAKEN))
            self.require(reading == "original" or reason in (EMPTY, NONE), name, f"{rule} is joined, and {reason}")
            self.require(reason == EMPTY or is_away == (reason != NONE), name, f"{rule} {reason} and is{' not' * is_away} turned away")

    def told_of(self, name):
        """The verdicts on one case in words."""
        lines = []
        for _, reading, rule, verdict in (own for own in self.verdicts if own[0] == name):
            lines.append(f"{rule} {verdict if verdict == TAKEN else f'is turned away, {verdict}'} ({reading})")
        return f"{name}: {'; '.join(lines) or 'nothing is joined'}"

    def told(self):
        """The counts in words."""
        counts = collections.Counter((reading, verdict) for _, reading, _, verdict in self.verdicts)
        numbers = ", ".join(map(str, sorted(set().union(*self.left_out))))
        yield f"left out, for other errors before the pass ({numbers or 'none'}): {len(self.left_out)} grammars"
        yield f"before the pass: {self.cycles[True]} of {self.cycles.total()} cycles that are joined are reported by error {CYCLES}"
        for reading in READINGS:
            reasons = {reason: counts[reading, reason] for reason in (EMPTY, CORNER, LEFT, NONE)}
            taken, away = counts[reading, TAKEN], sum(reasons.values())
            why = ", ".join(f"{reason}: {count}" for reason, count in reasons.items())
            yield f"the {reading}'s reading: {taken} of {taken + away} joined rules are taken, {away} turned away ({why})"


def phrases(programs, tool):
    """heat-pump.md: the phrase in words, how it is to group and how it groups; as the grammar stands, and with two slots exchanged."""
    page = (EXAMPLES / "heat-pump.md").read_text(encoding="utf-8")
    phrase, *wanted = re.findall(r"^    (.*)$", page, re.M)
    text = (EXAMPLES / "heat-pump.grammar").read_text(encoding="utf-8")
    exchanged = text.replace("".join(SLOTS), "".join(reversed(SLOTS)))
    for own, what, groups in zip((text, exchanged), (phrase, f"{phrase}, slots exchanged"), wanted, strict=True):
        file = MADE / "phrase.grammar"
        file.write_text(own, encoding="utf-8")
        yield what, groups, tool.grouped(notation.read(programs.joined(file)), WORDS, "condition", phrase)


def pages(programs, tool):
    """negation.md: the phrase, how it is to group and how it groups, with the rule of its own."""
    page = (EXAMPLES / "negation.md").read_text(encoding="utf-8")
    phrase, own, _ = re.findall(r"^    (.*)$", page, re.M)
    rules = notation.read(programs.joined(EXAMPLES / "negation.grammar"))
    yield phrase, own, tool.grouped(rules, WORDS, "condition", phrase)


def judge_levels(judgement, programs, tool):
    """What `join` says of levels, forms and warnings."""

    def join(text):
        file = MADE / "levels.grammar"
        file.write_text(text, encoding="utf-8")
        return programs.joined(file)

    for what, wanted, groups in levels.judged(join, tool, notation.read, SEED, OPERATORS):
        judgement.require(groups == wanted, what, f"{wanted}, and not {groups}")
    for what, wanted, groups, suggested, is_warned in levels.warned(join, tool, notation.read):
        print(f"{what}: {groups}, and not {suggested}")
        judgement.require(is_warned and groups == wanted != suggested, what, f"{wanted}, and not {groups}, with a warning")


def judge_all(judgement, programs, count, began):
    """Progress goes to standard error."""
    found = 0
    for case in programs.examples():
        judgement.require(judgement.judge(case), case.name, f"no error but {CYCLES} before the pass")
        print(judgement.told_of(case.name))
    for case in programs.generated():
        if found == count:
            break
        is_judged = judgement.judge(case)
        found += is_judged
        if is_judged and found % EVERY == 0:
            print(f"judge: {found} of {count} grammars ({time.monotonic() - began:.0f} s)", file=sys.stderr)


def run(count, program):
    began, tool = time.monotonic(), Tool(MADE)
    try:
        programs, judgement = Programs(program, MADE), Judgement(tool)
        print(f"ANTLR {tool.version}: the grammars of examples/, and {count} generated ones")
        judge_all(judgement, programs, count, began)
        print("\n".join(judgement.told()))
        for what, wanted, groups in phrases(programs, tool):
            print(f"{what}: {groups}")
            judgement.require(groups == wanted, "heat-pump.md", f"{what}: {wanted}")
        for what, wanted, groups in pages(programs, tool):
            judgement.require(groups == wanted, "negation.md", f"{what}: {wanted}")
        judge_levels(judgement, programs, tool)
    finally:
        tool.end()
    found = f"{len(judgement.faults)} things are not so" if judgement.faults else "all is so"
    told = f"judge: {found}: {len(judgement.verdicts)} joined rules ({time.monotonic() - began:.0f} s)"
    print("\n".join([*judgement.faults, told]))
    return 1 if judgement.faults else 0


def main(words):
    options = argparse.ArgumentParser(usage="judge.py [--count COUNT] [--program JOIN]")
    options.add_argument("--count", type=int, default=500)
    options.add_argument("--program")
    asked = options.parse_args(words)
    try:
        return run(asked.count, asked.program)
    except Absent as absent:
        print(f"judge: {absent}")
        return ABSENT


if __name__ == "__main__":
    sys.exit(main(sys.argv[1:]))
