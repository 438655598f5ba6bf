"""What a file of Rattle declares and hands on: functions with their contracts, types, and `use` lines."""

from lexer import antt_words, rattle_words

MODIFIERS = {"pub", "extern", '"C"', "const", "unsafe"}
OPENING, CLOSING = {"(", "["}, {")", "]"}


class Block:
    """What stands around functions: the type or the trait whose they are, the trait that an `impl` gives, whether it is a trait and
    one open to other crates, and the ghost members, each with its text."""

    def __init__(self, owner=None, trait=None, is_trait=False, public=False):
        self.owner = owner
        self.trait = trait
        self.is_trait = is_trait
        self.public = public
        self.members = {}


class Function:
    """A function's head: how it can be reached, whose method it is, its words, and its clauses, each with its text and place.

    `trait` is the trait that an `impl` around it gives, and `members` are the ghost members there."""

    def __init__(self, name, place, before, block):
        self.name = name
        self.place = place
        self.owner = block.owner
        self.trait = block.trait
        self.in_trait = block.is_trait
        self.members = block.members
        self.public = "pub" in before or block.public
        self.exported = "extern" in before
        self.words = []
        self.clauses = []

    def has(self, kind):
        return any(clause[0] == kind for clause in self.clauses)

    def open(self):
        return self.public or self.exported


def is_name(word):
    return word[0].isalpha() or word[0] == "_"


def clause_end(text, at):
    """The end of the clause whose brace stands at `at`: its text is antt's."""
    depth = 0
    for word, place in antt_words(text, at):
        depth += {"{": 1, "}": -1}.get(word, 0)
        if depth == 0:
            return place + 1
    return len(text)


def head_end(text, at, function):
    """Reads a function's head from `at` on, its clauses too, up to the mark of its body or its `;`."""
    depth = 0
    while True:
        word, place = next(rattle_words(text, at), (";", len(text)))
        at = place + len(word)
        if word in OPENING:
            depth += 1
        elif word in CLOSING:
            depth -= 1
        elif depth == 0 and word in ("{", ";"):
            return place
        elif depth == 0 and word in ("requires", "ensures", "ghost"):
            start = text.index("{", at)
            at = clause_end(text, start)
            function.clauses.append((word, text[start + 1 : at - 1], start))
            continue
        function.words.append(word)


def impl_of(text, at):
    """The block of the `impl` that ends at `at`: its type is the last name of its path, behind `for` if there is one, and the last
    name in front of `for` is the trait."""
    name, trait, depth, before = None, None, 0, None
    for word, _ in rattle_words(text, at):
        if (before, word) != ("-", ">"):
            depth += {"<": 1, ">": -1}.get(word, 0)
        if word == "{":
            break
        if depth == 0 and word == "for":
            name, trait = None, name
        elif depth == 0 and is_name(word):
            name = word
        before = word
    return Block(name, trait)


def ghost_parts(text, at):
    """What a ghost member or field that is named at `at` has behind `:` and behind `=`: the name, the place of each, and the end."""
    name, place = next(rattle_words(text, at), ("", at))
    found, end = {}, place + len(name)
    while True:
        words = rattle_words(text, end)
        (mark, _), (inner, start) = next(words, ("", 0)), next(words, ("", 0))
        if mark not in (":", "=") or inner != "{":
            return name, found, end
        found[mark], end = start, clause_end(text, start)


def functions(text):
    """The functions of a file of Rattle; those of an `impl` block or of a trait have its type or the trait as owner."""
    found, before, open_blocks, block, at = [], [], [], None, 0
    while True:
        word, place = next(rattle_words(text, at), (None, 0))
        if word is None:
            return found
        at = place + len(word)
        if word in MODIFIERS:
            before.append(word)
            continue
        around = next(filter(None, reversed(open_blocks)), Block())
        if word == "fn":
            name, named = next(rattle_words(text, at), ("", at))
            function = Function(name, place, before, around)
            at = head_end(text, named + len(name), function)
            found.append(function)
        elif word == "impl":
            block = impl_of(text, at)
        elif word == "trait":
            block = Block(next(rattle_words(text, at), ("", at))[0], is_trait=True, public="pub" in before)
        elif word == "ghost":
            name, parts, at = ghost_parts(text, at)
            if "=" in parts:
                around.members[name] = text[parts["="] + 1 : at - 1]
        elif word == "{":
            open_blocks.append(block)
            block = None
        elif word == "}" and open_blocks:
            open_blocks.pop()
        # `pub(crate)` is not open to other crates, and its marks end what is in front
        before = []


def traits(text):
    """The traits that a file declares."""
    words = [word for word, _ in rattle_words(text)]
    return {words[at + 1] for at in range(len(words) - 1) if words[at] == "trait"}


def paths(words):
    """The paths of types among some words: names of fields, parameters and variants are none."""
    found = []
    for at, word in enumerate(words):
        behind = words[at + 1 : at + 3]
        if not is_name(word):
            continue
        if words[max(at - 2, 0) : at] == [":", ":"] and found:
            found[-1].append(word)
        elif behind[:1] == [":"] and behind != [":", ":"] or behind[:1] in (["("], ["{"]):
            continue
        else:
            found.append([word])
    return found


def types(text):
    """The types and constants that a file declares: of each the paths in its fields or variants, or of what it stands for."""
    words = [word for word, _ in rattle_words(text)] + [";"]
    found = {}
    for at in range(len(words) - 2):
        if words[at] in ("struct", "enum", "type", "const"):
            body = words[at + 2 :]
            body = body[group_length(body) if body[0] == "<" else 0 :]
            end = group_length(body) if body[0] in PAIRS else body.index(";")
            found[words[at + 1]] = paths(without_ghosts(body[:end]))
    return found


def without_ghosts(words):
    """The words of a type's fields without those of its ghost fields, whose types are antt's."""
    if "ghost" not in words:
        return words
    at = words.index("ghost")
    start = words.index("{", at)
    return words[:at] + without_ghosts(words[start + group_length(words[start:]) :])


def ghost_fields(text):
    """The types that a file declares with ghost fields: of each the name, the field's and its place."""
    found = list(rattle_words(text))
    words = [word for word, _ in found]
    for at in range(len(words) - 2):
        if words[at] in ("struct", "enum"):
            start = at + 2 + (group_length(words[at + 2 :]) if words[at + 2] == "<" else 0)
            end = start + (group_length(words[start:]) if words[start] in PAIRS else 0)
            yield from ((words[at + 1], words[n + 1], found[n][1]) for n in range(start, end) if words[n] == "ghost")


# What opens and what closes a group of words.
PAIRS = {"{": "}", "(": ")", "<": ">"}


def group_length(words):
    """How many words a group in brackets has, from its first bracket on."""
    opening, depth = words[0], 0
    for at, word in enumerate(words):
        is_arrow = words[max(at - 1, 0) : at + 1] == ["-", ">"]
        depth += (word == opening) - (word == PAIRS[opening] and not is_arrow)
        if depth == 0:
            return at + 1
    return len(words)


def branches(words, front=()):
    """What a `use` names, from its words up to the `;`: each path, whose last name may be `*`, with the name that it has here."""
    found, path, other, at = [], list(front), None, 0
    while at < len(words):
        word = words[at]
        if word == "{":
            end = at + group_length(words[at:])
            found += branches(words[at + 1 : end - 1], path)
            path, at = [], end
            continue
        if word == ",":
            found, path, other = found + [(path, other)], list(front), None
        elif word == "as":
            other, at = words[at + 1], at + 1
        elif word != ":":
            path.append(word)
        at += 1
    return [(path, name or path[-1]) for path, name in found + [(path, other)] if path and path != list(front)]


def open_modules(text):
    """The modules that a file declares with `pub mod`."""
    words = [word for word, _ in rattle_words(text)]
    return {words[at + 2] for at in range(len(words) - 2) if words[at : at + 2] == ["pub", "mod"]}


def uses(text):
    """What a file's `use` lines bring in: each path, the name that it has here, and whether it is handed on."""
    words = [word for word, _ in rattle_words(text)]
    found = []
    for at, word in enumerate(words):
        if word == "use" and words[at - 1 : at] != ["ghost"]:
            handed_on = words[at - 1 : at] == ["pub"]
            found += [(path, name, handed_on) for path, name in branches(words[at + 1 : words.index(";", at)])]
    return found


def lent(function):
    """The names of the parameters that a function may write to: those with `&mut` in front of their types, and such a `self`."""
    words = function.words
    at = [n for n in range(1, len(words) - 1) if words[n] == "&" and "mut" in words[n + 1 : n + 4]]
    named = [words[n - 2] for n in at if words[n - 1] == ":" and is_name(words[n - 2])]
    is_self = any(words[n - 1] == "(" and "self" in words[n + 2 : n + 5] for n in at)
    return ["self"] * is_self + named
