"""Grammars as text for ANTLR 4.

What ANTLR has no form for is written as what has the same left corners and can be empty alike: a call of no rule and a kind 5 element as
a token, no alternatives as a token that no text gives, epsilon as a block of nothing. Actions and predicates have empty bodies. Left out
are labels of all but calls and tokens, options of all but alternatives and tokens (on a call ANTLR knows none).
"""

NOTHING = "NOTHING"
GAPS = "GAPS: [ \\t\\r\\n]+ -> skip;"
# Elements that may have no quantifier, which stand in a block where they have one.
BARE = {"epsilon": "", "action": "{}", "predicate": "{true}?"}


class Writer:
    """The text of a grammar; `words` are the words that each token may be, else its name in small letters."""

    def __init__(self, rules, words):
        self.rules, self.words = rules, words
        self.tokens = {}

    def grammar(self, name):
        rules = [f"{rule}: {self.alternatives(own)};" for rule, own in self.rules.items()]
        tokens = [self.lexer_rule(token) for token in self.tokens]
        return "\n".join([f"grammar {name};", *rules, *tokens, GAPS, ""])

    def lexer_rule(self, token):
        words = [word for word, meant in self.words.items() if meant == token] or [token.lower()]
        return f"{token}: {' | '.join(map(repr, words))};"

    def token(self, name):
        self.tokens[name] = True
        return name

    def alternatives(self, alternatives):
        return " | ".join(map(self.alternative, alternatives)) if alternatives else self.token(NOTHING)

    def alternative(self, own):
        return " ".join(filter(None, [options(own.options), *map(self.element, own.elements)]))

    def element(self, own):
        if own.kind in BARE:
            body = BARE[own.kind]
            return f"({body}){own.quantifier}" if own.quantifier or not body else body
        if own.kind == "block":
            return f"({self.alternatives(own.alternatives)}){own.quantifier}"
        if own.kind == "call" and own.name in self.rules:
            return f"{label(own)}{own.name}{own.quantifier}"
        if own.kind == "end":
            return f"{label(own)}{own.name}{own.quantifier}"
        prefix = {"call": "NO_RULE_", "other": "OTHER_"}.get(own.kind, "")
        return f"{label(own)}{self.token(prefix + own.name)}{options(own.options)}{own.quantifier}"


def label(element):
    """In ANTLR one label cannot stand for two things, so that what it stands for is put behind it."""
    return f"{element.label}_{element.name}=" if element.label else ""


def options(own):
    return f"<{','.join(f'{name}={value}' for name, value in own)}>" if own else ""


def written(name, rules, words=None):
    """The rules of `notation.read` as a grammar of this name."""
    return Writer(rules, words or {}).grammar(name)
