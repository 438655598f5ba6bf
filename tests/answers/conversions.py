"""Calls of `conversion`, each with a name: an old sheet, the lengths of the two buffers, and what stands there at exit. A sheet is written
here by hand once for both forms, with a mark where a call of the newest has its third word."""
from answers.calls import delivered, replicate
from answers.claims import sheet_term

LEAST = (32768, 65536)   # bytes of result and work
FILLS = (7, 9)           # what stands in them at entry
CALL = 'precedence'      # the mark

# e: a | INT; a: e PLUS e;
SUM = [1, 1, 0, 2,
       10, 0, 0, 0, 1, 20, 0, 3, 0, 0, 0, 2, 0, CALL,
       11, 0, 0, 0, 1, 21, 0, 4, 0, 0, 0, 3,
       2, 2, 0, 1,
       12, 0, 0, 0, 3, 22, 0, 3, 0, 0, 0, 1, 0, CALL, 23, 0, 4, 0, 0, 0, 4, 24, 0, 3, 0, 0, 0, 1, 0, CALL]
SUM_COUNTERS = [13, 25, 0, 0, 0]
# e: (a[7])? x=a; with carried numbers and an option
NESTED = [1, 1, 0, 1,
          10, 80, 0, 0, 2,
          20, 81, 262, 0, 0, 0, 1, 11, 82, 0, 0, 1, 21, 83, 3, 0, 0, 0, 2, 7, CALL,
          22, 84, 3, 1, 9, 1, 8, 6, 2, 0, CALL]
NESTED_COUNTERS = [12, 23, 2, 0, 0]
# r: a; as rule 5 of that name, with element 20
ONE = [5, 5, 0, 1, 10, 0, 0, 0, 1, 20, 0, 3, 0, 0, 0, 2, 0, CALL]
ONE_COUNTERS = [11, 21, 0, 0, 0]
EMPTY = [5, 6, 0, 0]     # a rule without alternatives, with that rule's id


class Sheet:
    """The words of a sheet in the form of before and in the newest."""

    def __init__(self, rules, preserved, counters, kind=2):
        self.rules, self.behind, self.kind, self.counters = rules, list(preserved), kind, counters

    def words(self, more):
        """With these words in place of a mark."""
        body = [word for one in self.rules for word in (more if one == CALL else [one])] + self.behind
        return [*body, self.kind, len(body), len(self.behind), *self.counters]

    def old(self):
        return self.words([])

    def new(self):
        return self.words([0])


class Conversion:
    """One call: its name, the bytes of the sheet, by how many each buffer is longer than the least, the refusal or 0, the new words."""

    def __init__(self, name, sheet, number, new=(), longer=(0, 0)):
        self.name, self.sheet, self.number, self.new = f'convert: {name}', sheet, number, list(new)
        self.lengths = [least + more for least, more in zip(LEAST, longer)]

    def at_exit(self):
        """The two buffers: as they were, or zeros behind what is delivered."""
        if self.number in (1, 2):
            return [replicate(length, fill) for length, fill in zip(self.lengths, FILLS)]
        return [delivered(words, length) for words, length in zip((self.new, []), self.lengths)]

    def terms(self):
        """What is computed, what it must be, and the test for that."""
        result, work = self.at_exit()
        fields = [f'number = {self.number}', f'result_length = {4 * len(self.new)}', f'result = {result}', f'work = {work}']
        buffers = ' '.join(f'({replicate(length, fill)})' for length, fill in zip(self.lengths, FILLS))
        return f'convert {sheet_term(self.sheet)} {buffers}', f'record {{ {"; ".join(fields)} }}', 'same_converted'


def bytes_of(words):
    return b''.join(word.to_bytes(4, 'little') for word in words)


def converted(name, sheet, longer=(0, 0)):
    return Conversion(name, bytes_of(sheet.old()), 0, sheet.new(), longer)


def refused(name, words, number, longer=(0, 0)):
    return Conversion(name, bytes_of(words), number, longer=longer)


def filled(rules, words, counters=ONE_COUNTERS):
    """A sheet of so many words in the old form, by preserved ids."""
    short = Sheet(rules, [], counters)
    return Sheet(rules, range(words - len(short.old())), counters)


def conversions():
    """All conversions that the gate computes."""
    total, nested = Sheet(SUM, [], SUM_COUNTERS), Sheet(NESTED, [2, 5], NESTED_COUNTERS, 3)
    least, twice = Sheet([], [], [0] * 5, 1), Sheet([*ONE, *EMPTY], [], ONE_COUNTERS)
    high = [10, *ONE_COUNTERS[1:]]
    return [
        converted('sum', total),
        converted('sum, longer buffers', total, (3, 5)),
        converted('call in a block, with arguments and preserved ids', nested),
        converted('32 bytes', least),
        refused('28 bytes', least.old()[1:], 1),
        refused('28 bytes, and short buffers', least.old()[1:], 1, (-1, -1)),
        Conversion('33 bytes', bytes_of(least.old()) + b'\0', 1),
        refused('32772 bytes', filled(ONE, 8193).old(), 1),
        refused('32 bytes, result one byte short', least.old(), 2, (-1, 0)),
        refused('32 bytes, work one byte short', least.old(), 2, (0, -1)),
        refused('a sheet of refusal 3, and work one byte short', [0] * 8, 2, (0, -1)),
        refused('refused 3', [0] * 8, 3, (1, 0)),
        refused('sum of today', total.new(), 4, (0, 1)),
        refused('equal ids', twice.old(), 5),
        refused('id at its counter', Sheet(ONE, [], high).old(), 6),
        converted('32764 bytes with one call', filled(ONE, 8191)),
        converted('32768 bytes without a call', filled(EMPTY, 8192)),
        refused('32768 bytes with one call', filled(ONE, 8192).old(), 9, (2, 1)),
        refused('32768 bytes with one call and equal ids', filled([*ONE, *EMPTY], 8192).old(), 5),
        refused('32768 bytes with one call and an id at its counter', filled(ONE, 8192, high).old(), 6),
    ]
