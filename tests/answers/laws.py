"""Runs of the definition compared (SPECIFICATION 18), each an equation like an answer's: on the original's own result, on sheets with
other names, with other carried numbers and with other precedences of calls. Which words are names, carried numbers and precedences is
told here by a walk of its own over the words of a sheet."""
import itertools

from answers.claims import answer_term, asked_term, literal, sheet_term
from answers.stored import Stored, bytes_of, words_of

KEPT, NAME, LABEL, CARRIED, PRECEDENCE = range(5)
EPSILON, ACTION, PREDICATE, CALL, TOKEN, OTHER, BLOCK, END_OF_INPUT = range(8)
TRAILER = 8
# The starred grammars, one in which both rules can be the hub and options of three names are joined, and one with the end of input.
COMPARED = [f'example {at}' for at in range(1, 12)] + ['written 96', 'end of input 40']
MOST_NAME = 4294967295
# The words that decide nothing, by what a comparison on them is called.
OTHERS = {'carried': CARRIED, 'precedence': PRECEDENCE}


class Sorts:
    """The sort of each word of a sheet that passes 1 to 4, in order."""

    def __init__(self, words):
        self.words, self.sorts = words, []
        body = len(words) - TRAILER
        while len(self.sorts) < body - words[body + 2]:
            self.take(KEPT, NAME, KEPT)
            self.alternatives()
        self.take(*[KEPT] * (len(words) - len(self.sorts)))

    def take(self, *sorts):
        """The next words, of these sorts; the last of them."""
        self.sorts += sorts
        return self.words[len(self.sorts) - 1]

    def pairs(self, count, sorts):
        for _ in range(count):
            self.take(*sorts)

    def alternatives(self):
        for _ in range(self.take(KEPT)):
            self.take(KEPT, CARRIED, KEPT)
            options, elements = self.take(KEPT), self.take(KEPT)
            self.pairs(options, (NAME, KEPT))
            for _ in range(elements):
                self.element()

    def element(self):
        kind = self.take(KEPT, CARRIED, KEPT) % 256
        self.take(KEPT, LABEL)
        self.pairs(self.take(KEPT), (NAME, KEPT))
        if kind in (ACTION, PREDICATE):
            self.pairs(self.take(KEPT, KEPT), (KEPT, NAME))
        elif kind == CALL:
            self.take(NAME, KEPT, PRECEDENCE)
        elif kind == TOKEN:
            self.take(NAME)
        elif kind == BLOCK:
            self.alternatives()


def changed(words, name=lambda word: word, **others):
    """The same sheet with other names, and other words of the sorts that are numbered by the keys of `OTHERS`; no label has no name."""
    by_sort = {NAME: name, LABEL: lambda word: name(word) if word else 0}
    by_sort |= {OTHERS[sort]: change for sort, change in others.items()}
    return [by_sort.get(sort, lambda word: word)(word) for sort, word in zip(Sorts(words).sorts, words)]


def renamed(word):
    """A renaming of all names: they change their order."""
    return MOST_NAME + 1 - word


class Answered:
    """What is computed from a sheet, what it must be, and the test for that."""

    def __init__(self, name, sheet, plans, steps, result, trail, reading='rust'):
        self.name, self.stored = name, Stored(name, reading)
        self.stored.sheet, self.stored.plans, self.stored.steps = bytes_of(sheet), plans, steps
        self.stored.result, self.stored.trail = result, trail
        self.sheet = self.stored.sheet

    def terms(self):
        return asked_term(self.stored), answer_term(self.stored), 'same_answer'


class AlikeBut(Answered):
    """The same, once all words of a sort are 0 in the result."""

    def __init__(self, sort, *asked):
        super().__init__(*asked)
        self.sort = sort

    def terms(self):
        places = [at for at, sort in enumerate(Sorts(self.stored.result).sorts) if sort == OTHERS[self.sort]]
        self.stored.result = changed(self.stored.result, **{self.sort: lambda word: 0})
        return f'blanked ({literal(places)}) (to rust {sheet_term(self.sheet)})', answer_term(self.stored), 'same_answer'


def short(stored):
    """An answer's name without its file."""
    return stored.name.partition(': ')[2]


def own_results(stored):
    """The pass on each result that is not its sheet."""
    by = {'rust': '', 'textbook': ' by the textbook'}
    return [Answered(f'again{by[one.reading]}: {short(one)}', one.result, 0, 0, one.result, [], one.reading) for one in stored if one.plans]


def compared(stored):
    """Some grammars with other names, and with carried numbers and precedences counted up; and every result once more."""
    by_name, made = {short(one): one for one in stored if one.reading == 'rust'}, own_results(stored)
    for name in COMPARED:
        one = by_name[name]
        words = words_of(one.sheet)
        made.append(Answered(f'renamed: {name}', changed(words, name=renamed), one.plans, one.steps, changed(one.result, name=renamed),
                             one.trail))
        for sort in OTHERS:
            numbers = itertools.count(1)
            sheet = changed(words, **{sort: lambda word, numbers=numbers: next(numbers)})
            made.append(AlikeBut(sort, f'{sort}: {name}', sheet, one.plans, one.steps, one.result, one.trail))
    return made
