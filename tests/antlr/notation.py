"""Grammars in the notation (docs/NOTATION.md), read into trees. Ids, flags, arguments, precedences, bodies and the labels of alternatives are passed
over, and carried numbers but for that of a kind 5 element, which is its name. A name without a text, `r%7`, is `r_7` in the harness's
notation and for ANTLR, and so it is here."""

import re
from collections import namedtuple

Alternative = namedtuple("Alternative", "options elements")
# Kinds: call, token, other (kind 5), end (of input), epsilon, action, predicate, block.
Element = namedtuple("Element", "kind name quantifier label options alternatives")

COMMENT = re.compile(r"//[^\n]*")
NUMBERED = re.compile(r"\b([rTxo])%(\d+)")
DIRECTIVE = re.compile(r"%\w+[^;]*;")
WORD = re.compile(r"\w+|\S")
NAME = re.compile(r"[A-Za-z]\w*$")


class Reader:
    """The words of a text, one after the other."""

    def __init__(self, text):
        text = NUMBERED.sub(r"\1_\2", COMMENT.sub("", text))
        self.words = WORD.findall(DIRECTIVE.sub("", text))
        self.at = 0

    def ahead(self, behind=0):
        return self.words[self.at + behind] if self.at + behind < len(self.words) else ""

    def fault(self, expected):
        return ValueError(f"{expected} expected at {' '.join(self.words[self.at:self.at + 5])!r}")

    def word(self):
        if not self.ahead():
            raise self.fault("more")
        self.at += 1
        return self.words[self.at - 1]

    def take(self, mark):
        found = self.ahead() == mark
        self.at += found
        return found

    def expect(self, mark):
        if not self.take(mark):
            raise self.fault(mark)

    def number(self, mark):
        """What stands behind this mark, if it is there."""
        return self.word() if self.take(mark) else None

    def rules(self):
        found = {}
        while self.ahead():
            name = self.word()
            self.number("@")
            self.number("!")
            self.expect(":")
            found[name] = self.alternatives()
            self.expect(";")
        return found

    def alternatives(self):
        if self.take("-"):
            return []
        found = [self.alternative()]
        while self.take("|"):
            found.append(self.alternative())
        return found

    def alternative(self):
        self.number("@")
        self.number("~")
        if self.take("#"):
            self.take(":")
        options, elements = self.options(), []
        while self.ahead() not in ("|", ";", ")"):
            elements.append(self.element())
        return Alternative(options, elements)

    def options(self):
        found = []
        if self.take("<"):
            while not found or self.take(","):
                name = self.word()
                self.expect("=")
                found.append((name, self.word()))
            self.expect(">")
        return found

    def element(self):
        self.number("^")
        label = self.label()
        kind, name, alternatives = self.atom()
        quantifier = self.word() if self.ahead() in ("?", "*", "+") else ""
        quantifier += "?" if quantifier and self.take("?") else ""
        # a call's precedence, or the id of the next element
        self.number("^")
        options, carried = self.options(), self.number("~")
        return Element(kind, carried or "0" if kind == "other" else name, quantifier, label, options, alternatives)

    def label(self):
        if "=" != self.ahead(3 if self.ahead(1) == "@" else 1):
            return None
        name = self.word()
        self.number("@")
        self.expect("=")
        return name

    def atom(self):
        """The kind, the name and, of a block, the alternatives."""
        word = self.word()
        if word == "(":
            alternatives = self.alternatives()
            self.expect(")")
            return "block", "", alternatives
        if word in ("{", "&"):
            while self.word() != "}":
                pass
            return "action" if word == "{" else "predicate", "", []
        if word in ("_", "."):
            return "epsilon" if word == "_" else "other", "", []
        if word == "EOF":
            return "end", word, []
        if not NAME.match(word):
            self.at -= 1
            raise self.fault("an element")
        if self.take("["):
            self.word()
            self.expect("]")
        return "token" if word[0].isupper() else "call", word, []


def read(text):
    """The rules of a text: a dictionary from their names to their alternatives, in their order."""
    return Reader(text).rules()
