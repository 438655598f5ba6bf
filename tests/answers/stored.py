"""The stored answers of the harness, read from their files: sheets (SPECIFICATION 2) and what the original answers (1.2). Those in a
folder `textbook` are by the textbook's reading of left corners (14.3), all others by the original's."""
from pathlib import Path

TEXTBOOK = 'textbook'


class Stored:
    """One stored answer: a name, the sheet's bytes and what was answered."""

    def __init__(self, name, reading='rust'):
        self.name, self.sheet, self.refused, self.plans, self.steps = name, b'', None, 0, 0
        self.reading = reading
        self.result, self.trail, self.origins, self.clauses = [], [], [], []

    def take(self, key, rest):
        """One line of the record; lines of the listing that `out` and `t` repeat are passed over."""
        if key == 'in':
            self.sheet = bytes_of(numbers(rest))
        elif key == 'hex':
            self.sheet = bytes.fromhex(rest)
        elif key == 'refused':
            self.refused = int(rest)
        elif key == 'ok':
            self.plans, self.steps = numbers(rest)
        elif key == 't':
            self.trail += numbers(rest)
        elif key == 'out':
            self.result = words_of(self.sheet) if rest == 'same' else numbers(rest)
        elif key == 'o':
            self.origins.append(numbers(rest))
        elif key == 'c':
            self.clauses.append(numbers(rest))


def numbers(text):
    return [int(word) for word in text.split()]


def bytes_of(words):
    return b''.join(word.to_bytes(4, 'little') for word in words)


def words_of(sheet):
    return [int.from_bytes(sheet[at:at + 4], 'little') for at in range(0, len(sheet), 4)]


def read_file(path):
    """The answers of one file."""
    stored, textbook = [], path.parent.name == TEXTBOOK
    front, reading = (f'{TEXTBOOK}/', 'textbook') if textbook else ('', 'rust')
    for line in path.read_text().splitlines():
        key, _, rest = line.partition(' ')
        if key == 'sheet':
            stored.append(Stored(f'{front}{path.name}: {rest}', reading))
        elif stored:
            stored[-1].take(key, rest)
    return stored


def gather(paths, textbook=False):
    """The answers of files and of folders of them; of a folder those by the textbook too, if they are wanted."""
    stored = []
    for path in map(Path, paths):
        files = sorted(path.glob('*.txt')) if path.is_dir() else [path]
        if path.is_dir() and textbook:
            files += sorted((path / TEXTBOOK).glob('*.txt'))
        for file in files:
            stored += read_file(file)
    return stored
