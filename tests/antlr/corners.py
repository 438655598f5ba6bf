"""What can be empty, left corners in both readings, and cycles (SPECIFICATION 6, 13.9, 13.11, 14)."""

SKIPPING = ("?", "??", "*", "*?")
EMPTY = ("epsilon", "action", "predicate", "end")


class Facts:
    """Of the rules of a grammar: `empty` has those that can be empty, `corners` the left corners of each, `cycles` the cycles.
    The original's left corners end at every symbol, the textbook's at those that cannot be left out."""

    def __init__(self, rules, textbook):
        self.rules, self.textbook = rules, textbook
        self.empty = set()
        while more := {name for name, own in rules.items() if name not in self.empty and self.any_empty(own)}:
            self.empty |= more
        self.corners = {name: set().union(*map(self.corners_of, own)) for name, own in rules.items()}
        self.cycles = self.find_cycles()

    def is_symbol(self, element):
        return element.kind in ("token", "other") or (element.kind == "call" and element.name not in self.rules)

    def can_be_empty(self, element):
        if element.quantifier in SKIPPING or element.kind in EMPTY:
            return True
        return element.name in self.empty if element.kind == "call" else self.any_empty(element.alternatives)

    def any_empty(self, alternatives):
        return any(all(map(self.can_be_empty, own.elements)) for own in alternatives)

    def corners_of(self, alternative):
        found = set()
        for element in alternative.elements:
            if element.kind == "call" and element.name in self.rules:
                found.add(element.name)
            found.update(*map(self.corners_of, element.alternatives))
            if not self.can_be_empty(element) or (self.is_symbol(element) and not self.textbook):
                break
        return found

    def reached(self, name):
        """The rules that a path of left corners leads to."""
        found, ahead = set(), [name]
        while ahead:
            more = self.corners[ahead.pop()] - found
            found |= more
            ahead.extend(more)
        return found

    def find_cycles(self):
        reached = {name: self.reached(name) for name in self.rules}
        sets = {frozenset(other for other in reached[name] if name in reached[other]) for name in self.rules}
        return [found for found in sets if len(found) > 1]

    def cycle_of(self, name):
        return next((found for found in self.cycles if name in found), frozenset())

    def begins_with_itself(self, name):
        """Whether a rule is a left corner of an alternative of its own that does not start with its plain call."""
        return any(name in self.corners_of(own) for own in self.rules[name] if not starts_with(own, name))


def starts_with(alternative, name):
    first = alternative.elements[0] if alternative.elements else None
    return first is not None and (first.kind, first.name, first.quantifier) == ("call", name, "")
