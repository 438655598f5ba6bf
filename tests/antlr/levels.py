"""How phrases group by the levels and forms that `join` prints, for grammars of operators from a seed and for what it warns of.

A call at the end of a binary alternative is asked for one level more than its own, of a prefix one for its own level, and a call that a
warning stands for is asked for none. What that gives is held to the parser that ANTLR generates.
"""

import random
import re

WORDS = {word: "S" for word in "abcd"}
LINE = re.compile(r"^ +\|? *(.*?) +// level (\d+), (\w+); slot [^;]*((?:; warning \d+)*)$", re.M)
# Of each warning: a grammar, a phrase, how it groups, and how the order of slots would have it.
WARNED = {
    "two in one slot": ("e: x | S; x: e MINUS e | e PLUS e;", "a plus b minus c", "a plus (b minus c)", "(a plus b) minus c"),
    "a rule of its own": ("e: n | x | S; n: NOT e; x: e AND e;", "not a and b", "not (a and b)", "(not a) and b"),
    "by way of another": ("e: n | x | S; n: VERY m; m: NOT e; x: e AND e;", "very not a and b", "very (not (a and b))", "(very (not a)) and b"),
    "a block": ("e: NOT ( e ) | x | S; x: e AND e;", "not a and b", "not (a and b)", "(not a) and b"),
    "a quantifier": ("e: NOT e+ | x | S; x: e AND e;", "not a and b", "not (a and b)", "(not a) and b"),
    "behind it what can be left out": ("e: NOT e Q? | x | S; x: e AND e;", "not a and b", "not (a and b)", "(not a) and b"),
}


class Operators:
    """Grammars of operators, and phrases in them."""

    def __init__(self, seed):
        self.random = random.Random(seed)

    def grammar(self):
        """The rule e with its operators: binary and suffix ones in rules of their own, prefix ones in e or in a rule that stays."""
        count = self.random.randrange(2, 6)
        self.forms = {f"{self.random.choice('BBSP')}{place}": place for place in range(count)}
        slots, rules = ["S"], []
        for name in self.forms:
            text = {"B": f"e {name} e", "S": f"e {name}", "P": f"{name} e"}[name[0]]
            if name[0] == "P" and self.random.randrange(3):
                slots.append(text)
            else:
                slots.append(f"x{name.lower()}")
                rules.append(f"x{name.lower()}: {text};\n")
        self.random.shuffle(slots)
        return f"e: {' | '.join(slots)};\n{''.join(rules)}"

    def of_form(self, form):
        return [name.lower() for name in self.forms if name[0] == form]

    def some(self, form, most):
        names = self.of_form(form)
        return [self.random.choice(names) for _ in range(self.random.randrange(most + 1) if names else 0)]

    def phrase(self):
        operands = []
        for word in "abcd"[: self.random.randrange(1, 5) if self.of_form("B") else 1]:
            operands.append([*self.some("P", 2), word, *self.some("S", 2)])
        words = operands[0]
        for operand in operands[1:]:
            words = [*words, self.random.choice(self.of_form("B")), *operand]
        return " ".join(words)


class Levels:
    """The operators of a joined rule e, by the lines that are printed: a word leads to its level and its form."""

    def __init__(self, printed):
        self.operators, self.loose = {}, set()
        for text, level, form, warned in LINE.findall(printed):
            if form == "primary" and warned:
                self.loose |= self.prefixes(text, printed)
            for token in re.findall(r"\b[A-Z]\w*", text):
                self.operators[token.lower()] = (int(level), form)

    def prefixes(self, text, printed):
        """The words in front of a call that no level reaches: of the alternative, and of the rules that it calls."""
        found = set(re.findall(r"\b[A-Z]\w*", text))
        for name in re.findall(r"\b[a-df-z]\w*", text):
            found |= self.prefixes(re.search(rf"^{name}(?:@\d+)?:([^;]*);", printed, re.M)[1], printed)
        return {token.lower() for token in found}

    def grouped(self, phrase):
        self.words, self.at = phrase.split(), 0
        return self.group(0)

    def form(self):
        """Of the word ahead; of none where there is none."""
        word = self.words[self.at] if self.at < len(self.words) else ""
        return self.operators.get(word, (-1, "none"))

    def take(self):
        self.at += 1
        return self.words[self.at - 1]

    def group(self, level):
        own, form = self.form()
        word = self.take()
        if word in self.loose:
            left = f"{word} {part(self.group(0))}"
        else:
            left = f"{word} {part(self.group(own))}" if form == "prefix" else word
        while True:
            own, form = self.form()
            if form not in ("binary", "suffix") or own < level:
                return left
            left = f"{part(left)} {self.take()}"
            if form == "binary":
                left = f"{left} {part(self.group(own + 1))}"


def part(text):
    return f"({text})" if " " in text else text


def judged(join, tool, read, seed, count):
    """Of grammars from a seed each phrase, how it is to group and how ANTLR's parser groups it."""
    operators = Operators(seed)
    for _ in range(count):
        text = operators.grammar()
        printed = join(text)
        levels, rules = Levels(printed), read(printed)
        for phrase in {operators.phrase() for _ in range(6)}:
            yield f"{text.strip()}: {phrase}", levels.grouped(phrase), tool.grouped(rules, WORDS, "e", phrase)


def warned(join, tool, read):
    """Of each warning the phrase, how it is to group, how ANTLR's parser groups it, and what the order of slots would have."""
    for what, (text, phrase, wanted, suggested) in WARNED.items():
        printed = join(text)
        yield f"{what}: {phrase}", wanted, tool.grouped(read(printed), WORDS, "e", phrase), suggested, "; warning 1" in printed
