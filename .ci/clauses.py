"""Whether an `ensures` says anything: each part of it, by its text.

It says nothing where it speaks neither of the result nor of what a lent buffer holds at exit, or where a part of it holds by its
form alone: `Unit`; an equation of two sides that are the same but for order and zeros; `0 ≤ result` and what is like it; what
follows from something that cannot be, from itself, or from nothing; a fact for a variant, or one for each, that says nothing.
"""

from collections import Counter

from lexer import antt_words

# Brackets of antt.
PAIRS = {"(": ")", "{": "}", "⌜": "⌝", "⟦": "⟧"}
# What parts the sides of an equation from the rest of a clause.
PARTS = {"λ", ".", "×", "→", "⊎", "↔", "∗", "-∗", "∧ₛ", "∨ₛ", "→ₛ", ":", "=", "do", "let", "in", "←", ";", ","}
ARROWS, CHOICES, BOTH = {"→", "→ₛ", "-∗"}, {"⊎", "∨ₛ"}, {"×", "∗", "∧ₛ"}
ALWAYS = (["Unit"], ["⊤"], ["⊤ₛ"], ["emp"], ["T", "true"], ["IsTrue", "true"], ["IsFalse", "false"])
NEVER = (["⊥"], ["⊥ₛ"], ["T", "false"], ["IsTrue", "false"], ["IsFalse", "true"])
RELATIONS = ("≡", "≤", "<")
# What says a fact for a variant of an Option or a Result, or one for each, behind the value.
CASES = ("IfOk", "IfErr", "IfSome", "IfNone", "OnOk", "OnErr", "OnSome", "MatchResult", "MatchOption")
# What a function returns, and what a parameter that is lent holds at exit.
RESULT, EXIT = "result", ("new", "exit")


def side(words, step):
    """The words beside an equation's mark, outwards, up to what parts it from the rest."""
    closing = {end: start for start, end in PAIRS.items()}
    into, out = (PAIRS, closing) if step > 0 else (closing, PAIRS)
    taken, depth = [], 0
    for word in words[::step]:
        depth += (word in into) - (word in out)
        if depth < 0 or (depth == 0 and word in PARTS):
            break
        taken.append(word)
    return taken[::step]


def marked(text):
    """The words of a clause, where a dot in a name or in front of a field is one word with it; so is `.n` behind a bracket."""
    words, end, dotted = [], None, False
    for word, at in antt_words(text):
        inner = word == "." and not text[at + 1 : at + 2].isspace()
        if dotted or (inner and end == at and words[-1] not in PAIRS.values()):
            words[-1] += word
        else:
            words.append(word)
        end, dotted = at + len(word), inner
    return words


def group_end(words, at):
    """Where the group that opens at a place ends; a word that opens none is its own group."""
    depth = 0
    for end in range(at, len(words)):
        depth += (words[end] in PAIRS) - (words[end] in PAIRS.values())
        if depth == 0:
            return end + 1
    return len(words)


def bare(words):
    """The words without brackets around them all, and without a `do` or a binder in front."""
    while words:
        if words[0] in ("(", "⌜") and group_end(words, 0) == len(words):
            words = words[1:-1]
        elif words[0] == "do":
            words = words[1:]
        elif words[0] == "λ" and "." in words:
            words = words[words.index(".") + 1 :]
        else:
            return words
    return words


def split(words, marks):
    """The pieces between marks that stand in no brackets."""
    pieces, at = [[]], 0
    while at < len(words):
        end = group_end(words, at)
        if words[at] in marks:
            pieces.append([])
        else:
            pieces[-1] += words[at:end]
        at = end
    return pieces


def operands(words):
    """What a function's name is followed by, without what stands in braces."""
    found, at = [], 0
    while at < len(words):
        end = group_end(words, at)
        if words[at][0] == "." and found:
            found[-1] = found[-1] + words[at:end]
        elif words[at] != "{":
            found.append(words[at:end])
        at = end
    return found


def plain(words):
    """Some words without what stands in braces, and what is handed over without brackets."""
    return [word for operand in operands(words) for word in bare(operand)]


def summands(words):
    """A side of a relation as a sum: what is added and is no number, each so often, and the numbers together."""
    words = bare(words)
    if words[:1] == ["suc"] and len(operands(words)) == 2:
        inner, number = summands(words[1:])
        return inner, number + 1
    pieces = split(words, {"+"})
    if len(pieces) > 1:
        sums = [summands(piece) for piece in pieces]
        return sum((inner for inner, _ in sums), Counter()), sum(number for _, number in sums)
    factors = [piece for piece in split(words, {"*"}) if bare(piece) != ["1"]]
    words = sum(factors[1:], factors[0]) if factors else ["1"]
    difference = split(words, {"-"})
    if len(difference) == 2 and bare(difference[1]) == ["0"]:
        return summands(difference[0])
    if len(words) == 1 and words[0].isdigit():
        return Counter(), int(words[0])
    return Counter([" ".join(bare(words))]), 0


def related(words):
    """The mark and the two sides of a relation, as sums; or None."""
    for mark in RELATIONS:
        sides = split(words, {mark})
        if words[:1] == [f"◌{mark}◌"]:
            sides = operands(words[1:])
        if len(sides) == 2 and all(sides):
            return mark, *map(summands, sides)
    return None


def holds(words):
    """Whether a relation holds by its form."""
    found = related(words)
    if found is None:
        return False
    mark, (left, less), (right, more) = found
    if mark == "≡":
        return (left, less) == (right, more)
    return left <= right and (less <= more if mark == "≤" else less < more)


def fails(words):
    """Whether some words cannot be, by their form."""
    words = bare(words)
    parts = split(words, BOTH)
    if plain(words) in NEVER or (len(parts) > 1 and any(map(fails, parts))):
        return True
    found = related(words)
    if found is None:
        return False
    mark, (left, less), (right, more) = found
    if mark == "≡":
        return left == right and less != more or {*left, *right} == {"true", "false"}
    return right <= left and (less > more if mark == "≤" else less >= more)


def idle(words):
    """A part of some words that holds by its form alone, or None."""
    words = bare(words)
    *premises, last = split(words, ARROWS)
    if premises:
        if any(map(fails, premises)) or bare(last) in map(bare, premises):
            return words
        return idle(last)
    ways = split(words, CHOICES)
    if len(ways) > 1:
        opposite = any(bare(way) + ["→", "⊥"] == bare(other) for way in ways for other in ways)
        return words if opposite or any(map(idle, ways)) else None
    ways = split(words, {"↔"})
    if len(ways) == 2:
        return words if bare(ways[0]) == bare(ways[1]) else None
    parts = split(words, BOTH)
    if len(parts) > 1:
        return next(filter(None, map(idle, parts)), None)
    if words[:1] and words[0] in CASES:
        facts = operands(words)[2:]
        return words if facts and all(map(idle, facts)) else None
    return words if plain(words) in ALWAYS or holds(words) else None


def says_nothing(text):
    """A part of a clause that says nothing, or None."""
    words = marked(text)
    found = idle(words)
    if found is not None:
        return " ".join(found)
    for at, word in enumerate(words):
        sides = []
        if word == "≡":
            sides = [side(words[:at], -1), side(words[at + 1 :], 1)]
        elif word == "◌≡◌":
            sides = operands(side(words[at + 1 :], 1))
        if word == "⊤ₛ" or (len(sides) == 2 and bare(sides[0]) == bare(sides[1])):
            return " ".join([*sides[0], "≡", *sides[1]]) if sides else word
    return None


def bound(words):
    """The names that some words bind: those between `λ` and its dot, and those in front of a colon in brackets."""
    found = set()
    for at, word in enumerate(words):
        end = "." if word == "λ" else ":" if word == "(" else None
        rest = words[at + 1 :]
        names = rest[: rest.index(end)] if end in rest else []
        found.update([] if word == "(" and any(name in PARTS or name in PAIRS for name in names) else names)
    return found


def speaks_of_outcome(text):
    """Whether a clause names the result, and binds no other under that name, or what a buffer holds at exit."""
    words = marked(text)
    places = [word.split(".") for word in words]
    is_named = RESULT not in bound(words) and [RESULT] in [place[:1] for place in places]
    return is_named or any(place[0] and place[1:2] and place[1] in EXIT for place in places)


def speaks_of_exit(text, name):
    """Whether a clause names what a parameter holds at exit."""
    places = [word.split(".") for word in marked(text)]
    return any(place[0] == name and place[1:2] and place[1] in EXIT for place in places)


def speaks_of_last(text):
    """Whether what stands behind a clause's binders names the last of them, as in `λ x result. result ≡ f x`; a name alone does."""
    words, last = marked(text), None
    while words[:1] == ["λ"] and "." in words:
        at = words.index(".")
        names = words[1:at]
        last = names[len(names) - 1 - names[::-1].index("(") + 1] if names[-1:] == [")"] else names[-1]
        words = words[at + 1 :]
    return bool(words) and (last is None or last not in bound(words) and any(word.split(".")[0] == last for word in words))
