"""Calls of `outcome`, each with a name: a sheet, the lengths of the three buffers, and what stands there at exit
(SPECIFICATION 3 and 4)."""
from answers.claims import literal, sheet_term
from answers.stored import Stored, words_of

LEAST = (32768, 65536, 65536)   # bytes of result, trail and work (SPECIFICATION 3.1)
FILLS = (7, 8, 9)               # what stands in them at entry
MOST = 20000                    # bytes of the longest sheet for which the checker has steps enough


class Call:
    """One call: the answer to its sheet, by how many bytes each buffer is longer than the least, and the reading."""

    def __init__(self, name, stored, longer=(0, 0, 0), sheet=None, reading='rust'):
        self.name, self.stored, self.reading = f'outcome: {name}', stored, reading
        self.lengths = [least + more for least, more in zip(LEAST, longer)]
        self.sheet = sheet or sheet_term(stored.sheet)

    def number(self):
        """Refusal 1 before 2, and both before the rest (SPECIFICATION 4.20)."""
        if self.stored.refused == 1:
            return 1
        if any(length < least for length, least in zip(self.lengths, LEAST)):
            return 2
        return self.stored.refused or 0

    def at_exit(self, number):
        """The three buffers: as they were, or zeros behind what is delivered (SPECIFICATION 3.3, 3.4)."""
        if number in (1, 2):
            return [replicate(length, fill) for length, fill in zip(self.lengths, FILLS)]
        words = [[], [], []] if number else [self.stored.result, self.stored.trail, []]
        return [delivered(own, length) for own, length in zip(words, self.lengths)]

    def terms(self):
        """What is computed, what it must be, and the test for that."""
        number = self.number()
        done = number == 0
        stored, (result, trail, work) = self.stored, self.at_exit(number)
        numbers = [number] + ([stored.plans, stored.steps, 4 * len(stored.result), 4 * len(stored.trail)] if done else [0] * 4)
        names = ('number', 'plans', 'steps', 'result_length', 'trail_length')
        fields = [f'{name} = {value}' for name, value in zip(names, numbers)]
        fields += [f'result = {result}', f'trail = {trail}', f'work = {work}']
        buffers = ' '.join(f'({replicate(length, fill)})' for length, fill in zip(self.lengths, FILLS))
        return f'call {self.reading} {self.sheet} {buffers}', f'record {{ {"; ".join(fields)} }}', 'same_outcome'


def replicate(many, value):
    return f'replicate {many} {value}'


def delivered(words, length):
    """Words from the front of a buffer, zeros behind them."""
    zeros = replicate(length - 4 * len(words), 0)
    return f'bytes ({literal(words)}) ++ {zeros}' if words else zeros


# What the call is, whose sheet it has, and by how many bytes each buffer is longer than the least.
OF_ANSWERS = [
    ('joined', 'examples.txt: example 1', (0, 0, 0)),
    ('joined, longer buffers', 'examples.txt: example 1', (3, 5, 7)),
    ('joined in two steps', 'examples.txt: example 4', (1, 0, 0)),
    ('two plans', 'written.txt: written 91', (0, 0, 1)),
    ('unchanged', 'examples.txt: example 3', (2, 2, 2)),
    ('rules 20', 'edges.txt: rules 20', (0, 0, 0)),
    ('result of 32768 bytes', 'edges.txt: edge-9 with 38 options', (0, 0, 0)),
    ('result one byte short', 'examples.txt: example 1', (-1, 0, 0)),
    ('trail one byte short', 'examples.txt: example 1', (0, -1, 0)),
    ('work one byte short', 'examples.txt: example 1', (0, 0, -1)),
    ('empty buffers', 'examples.txt: example 1', (-32768, -65536, -65536)),
    ('28 bytes', 'examples.txt: example 14-28-bytes', (1, 2, 3)),
    ('28 bytes, and a short buffer', 'examples.txt: example 14-28-bytes', (0, -1, 0)),
    ('refused 7', 'edges.txt: options 2049', (3, 2, 1)),
    ('refused 8', 'edges.txt: counter of elements past its end', (1, 2, 3)),
    ('refused 9', 'edges.txt: result over 32768 bytes', (2, 0, 0)),
]
# Of these the smallest sheet that is refused so.
OF_REFUSALS = [
    ('refused 3', 3, (1, 0, 2)),
    ('refused 3, and a short buffer', 3, (0, 0, -1)),
    ('refused 4', 4, (0, 1, 0)),
    ('refused 5', 5, (0, 0, 1)),
    ('refused 6', 6, (4, 4, 4)),
]
# By the textbook's left corners (SPECIFICATION 14), of which answers are stored for sheets with the end of input alone: a sheet
# without symbols of quantifier 1 to 4 has the same (14.6), and one comes back that the original joins (14.2).
SAME_BY_TEXTBOOK = ('joined by the textbook', 'examples.txt: example 1')
BACK_BY_TEXTBOOK = ('comes back by the textbook', 'written.txt: written 1')
# With the end of input, by both readings.
ENDS = ['end of input 33', 'end of input 42']
# Zeros of so many bytes, and the refusal.
OF_ZEROS = [
    ('32772 bytes', 32772, 1),
    ('32768 bytes', 32768, 3),
]


def comes_back(stored):
    """The answer that is the sheet itself."""
    back = Stored(stored.name)
    back.sheet, back.result = stored.sheet, words_of(stored.sheet)
    return back


def short_at(index):
    """One of the three buffers a byte short."""
    return tuple(-1 if at == index else 0 for at in range(3))


def calls_of_each(stored):
    """Two calls for each answer: with buffers longer than needed, if the sheet is not too long, and with one a byte short."""
    for at, one in enumerate(stored):
        if len(one.sheet) <= MOST:
            yield Call(one.name, one, (1, 2, 3), reading=one.reading)
        yield Call(f'{one.name}, a buffer short', one, short_at(at % 3), reading=one.reading)


def calls(stored):
    """All calls that the gate computes, with the sheets of these answers."""
    by_name = {one.name: one for one in stored}
    by_size = sorted((one for one in stored if one.reading == 'rust'), key=lambda one: len(one.sheet))
    made = [Call(what, by_name[name], longer) for what, name, longer in OF_ANSWERS]
    for what, number, longer in OF_REFUSALS:
        made.append(Call(what, next(one for one in by_size if one.refused == number), longer))
    (what, name), (other, back) = SAME_BY_TEXTBOOK, BACK_BY_TEXTBOOK
    made.append(Call(what, by_name[name], reading='textbook'))
    made.append(Call(other, comes_back(by_name[back]), reading='textbook'))
    for name in ENDS:
        for file in ('ends.txt', 'textbook/ends.txt'):
            one = by_name[f'{file}: {name}']
            made.append(Call(f'{name}, {one.reading}', one, (1, 0, 2), reading=one.reading))
    for what, many, number in OF_ZEROS:
        zeros = Stored(what)
        zeros.refused = number
        made.append(Call(f'zeros of {what}', zeros, (0, 0, 0), f'({replicate(many, 0)})'))
    return made
