"""Small grammars from a seed, in the notation: rules that begin with each other, with much that may be left out."""

import random

TOKENS = ("X", "Y", "Z")
RULES = ("e", "a", "b", "c")


class Grower:
    def __init__(self, seed):
        self.random = random.Random(seed)

    def once_in(self, number):
        return self.random.randrange(number) == 0

    def grammar(self):
        rules = RULES[: self.random.randrange(2, 5)]
        return "".join(f"{name}: {self.alternatives(rules, 1 + self.random.randrange(3))};\n" for name in rules)

    def alternatives(self, rules, count):
        return " | ".join(self.alternative(rules) for _ in range(count))

    def alternative(self, rules):
        """Often it begins with a rule, and mostly a token follows."""
        first = self.random.choice(TOKENS if self.once_in(3) else rules)
        elements = [first + self.quantifier(6), *(self.element(rules) for _ in range(self.random.randrange(3)))]
        if self.once_in(6):
            elements.insert(0, self.random.choice(("_", "{}", *(f"{token}?" for token in TOKENS))))
        return " ".join(elements)

    def element(self, rules):
        if self.once_in(8):
            return f"( {self.alternatives(rules, 1 + self.random.randrange(2))} )" + self.quantifier(2)
        return self.random.choice(rules if self.once_in(3) else TOKENS) + self.quantifier(4)

    def quantifier(self, number):
        """Once in so many times one, and most of these greedy and optional."""
        return self.random.choice(("?", "?", "?", "??", "*", "*?", "+", "+?")) if self.once_in(number) else ""
