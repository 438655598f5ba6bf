"""How a rule that calls itself groups a phrase, by ANTLR 4's rule: earlier alternatives bind tighter.

Of n alternatives the i-th has level n - i + 1. One that begins with the rule's own call goes on behind what was read, where
its level is not below the one asked for; the call that ends it is asked for one level more, so that it groups to the left. The
call that ends any other alternative is asked for that alternative's own level. A call in another rule is asked for none.
"""

import re

COMMENT = re.compile(r"//[^\n]*")
# A block of tokens; a body; a name, with or without a label; what parts alternatives
PART = re.compile(r"\(\s*([A-Z]+(?:\s*\|\s*[A-Z]+)*)\s*\)|\{[^}]*\}|(?:\w+=)?(\w+)|(\|)|(\S)")
OWN = None
# The same call in another rule.
LOOSE = ()


def alternatives(text, rule):
    """The alternatives of a rule in a text of the notation: of each part the tokens that it may be, or OWN. A call of another rule is
    what that rule has, which is one alternative."""
    body = re.search(rf"^{rule}(?:@\d+)?:([^;]*);", COMMENT.sub("", text), re.M)
    if not body:
        raise ValueError(f"no rule {rule}")
    found = [[]]
    for block, name, bar, other in PART.findall(body[1]):
        if other:
            raise ValueError(f"{other} in {rule}")
        if bar:
            found.append([])
        elif name and name != rule and name[0].islower():
            found[-1].extend(in_another(text, name, rule))
        elif block or name:
            found[-1].append(OWN if name == rule else set(re.findall(r"\w+", block or name)))
    return found


def in_another(text, name, rule):
    """The parts of another rule; `rule` is called there by name."""
    inner = alternatives(re.sub(rf"\b{rule}\b", "LOOSE", text), name)
    if len(inner) != 1:
        raise ValueError(f"{name} has not one alternative")
    return [LOOSE if part == {"LOOSE"} else part for part in inner[0]]


class Phrase:
    """A phrase that is read: its words, and of each the token that it is."""

    def __init__(self, grammar, words, tokens):
        self.grammar, self.words = grammar, words
        self.tokens = [tokens.get(word, word.upper()) for word in words]
        self.at = 0

    def level(self, place):
        return len(self.grammar) - place

    def fits(self, part):
        return part is not OWN and self.at < len(self.words) and self.tokens[self.at] in part  # nothing is in LOOSE

    def one_of(self, places):
        """The one alternative that fits, or nothing."""
        places = list(places)
        if len(places) > 1:
            raise ValueError(f"two alternatives fit at {self.words[self.at]}")
        return places[0] if places else None

    def parts(self, place, found, own_end):
        """What stands behind `found` in an alternative, read part by part."""
        alternative = self.grammar[place]
        for index in range(len(found), len(alternative)):
            if alternative[index] is OWN:
                last = index == len(alternative) - 1
                found.append(self.group(own_end if last else 0))
            elif alternative[index] is LOOSE:
                found.append(self.group(0))
            elif self.fits(alternative[index]):
                found.append(self.words[self.at])
                self.at += 1
            else:
                raise ValueError(f"word {self.at + 1} does not fit")
        return " ".join(f"({part})" if " " in part else part for part in found)

    def group(self, level=0):
        """What stands next, as one group of at least this level."""
        start = self.one_of(i for i, own in enumerate(self.grammar) if own and self.fits(own[0]))
        if start is None:
            raise ValueError(f"nothing begins at word {self.at + 1}")
        left = self.parts(start, [], self.level(start))
        while True:
            behind = (i for i, own in enumerate(self.grammar) if len(own) > 1 and own[0] is OWN and self.fits(own[1]))
            place = self.one_of(i for i in behind if self.level(i) >= level)
            if place is None:
                return left
            left = self.parts(place, [left], self.level(place) + 1)


def grouped(text, rule, phrase, tokens):
    """The phrase with a pair of parentheses around each group of more than one word."""
    read = Phrase(alternatives(text, rule), phrase.split(), tokens)
    group = read.group()
    if read.at != len(read.words):
        raise ValueError(f"word {read.at + 1} is left over")
    return group
