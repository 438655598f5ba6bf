"""The short sheets of tests/reading: the definition's reader refuses them by the same number, or reads as many nodes."""
from answers.claims import READ, literal, sheet_term
from words import sheet


class Reading:
    """One sheet: its name, its bytes, and the numbers that are told of it."""

    def __init__(self, name, sheet, told):
        self.name, self.sheet, self.told = f'reading: {name}', sheet, told

    def terms(self):
        """What is computed, what it must be, and the test for that."""
        return f'counted {sheet_term(self.sheet)}', literal(self.told), 'same'


def readings(folder):
    """The short ones, in the order of their names."""
    for path in sorted(folder.glob('*.words')):
        words = sheet(path.read_text(encoding='utf-8'))
        told = path.with_suffix('.expected').read_text(encoding='utf-8').split()[1:]
        if len(words) <= READ:
            yield Reading(path.stem, words, [int(number) for number in told])
