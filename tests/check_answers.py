#!/usr/bin/env python3
"""Holds the definition in crates/reference against the stored answers of the harness (SPECIFICATION 1.2, 1.4).

    check_answers.py [options] ANSWERS...

ANSWERS are files of answers, or folders of them. Each answer becomes an equation, outside the
crates, that the checker closes by computing: the definition gives the same refusal, or the same
plans, steps, words of result and trail, and origins of every node (12.6), and where a cycle is left
the same clause for it (10). It is computed by the reading of left corners (14.3) by which the answer was
given, the textbook's for those in the folder `textbook`. Of a long result (claims.LONG) origins and clauses
are not asked. A sheet of more than claims.READ bytes is not handed to `read`, which takes time by the square
of a sheet's length: a quick reader makes its tree, which must encode to the sheet's words.

Where a folder is given, the short sheets of tests/reading are read too (3.9), and `outcome` is computed,
for the calls in answers/calls.py (3): the five numbers and every byte of the three buffers, which are
not zero at entry, and are as long as they must be, longer, or a byte short. A call takes a second, for
the length of its buffers; so not every answer has one, but every refusal, sheets joined and left, each
line that a length draws, and either reading of left corners (14). Runs are compared too (18,
answers/laws.py): the definition has nothing to do on a result of the original, and the starred grammars
have the same answer with other names and with other carried numbers. Sheets of the form of before are
converted (answers/conversions.py), with the buffers looked at in the same way. With --outcome calls alone are
computed, two for each answer: with buffers longer than they must be, and with one of them a byte short;
of a sheet of over calls.MOST bytes the second alone.

No other is left out: the exit status is 1 where an answer disagrees, and where the checker cannot compute
one within its limits. Standard error tells how far it is.
"""
import argparse
import re
import sys
import tempfile
import time
from pathlib import Path
from queue import Empty, SimpleQueue
from threading import Thread

from answers.calls import Call, calls, calls_of_each
from answers.conversions import Conversion, conversions
from answers.definitions import copy_definitions
from answers.laws import compared
from answers.readings import readings
from answers.room import Room
from answers.stored import gather, read_file

__all__ = ['Room', 'all_asked', 'check', 'copy_definitions', 'differing', 'gather', 'read_file']

READING = Path(__file__).resolve().parent / 'reading'
WORK = 25000   # of a batch: about the bytes of its sheets
BEAT = 10      # seconds between two lines that tell how far it is


def all_asked(paths, pattern='', outcome=False):
    """The answers in files and folders, and where there is a folder the calls and the short sheets of tests/reading, whose names
    fit; or the calls of each answer."""
    asked = gather(paths, textbook=True)
    if outcome:
        asked = list(calls_of_each(asked))
    elif any(Path(path).is_dir() for path in paths):
        asked += [*calls(asked), *compared(asked), *readings(READING), *conversions()]
    return [one for one in asked if re.search(pattern, one.name)]


def effort(one):
    """About what the checker takes for it, in bytes of a sheet; a call has long buffers."""
    return 4000 if isinstance(one, (Call, Conversion)) else max(len(one.sheet), 300)


def batches(asked):
    """Lists of answers of about the same work, the large ones first."""
    made, room = [], 0
    for one in sorted(asked, key=effort, reverse=True):
        if effort(one) > room:
            made.append([])
            room = WORK
        made[-1].append(one)
        room -= effort(one)
    return made


class Progress:
    """Tells how many are computed, now and then."""

    def __init__(self, total, file):
        self.total, self.file, self.began, self.told, self.lengths = total, file, time.monotonic(), 0, []

    def add(self, batch):
        self.lengths.append(len(batch))
        took = time.monotonic() - self.began
        if took - self.told >= BEAT:
            self.told = took
            print(f'answers: {sum(self.lengths)} of {self.total} computed ({took:.0f} s)', file=self.file, flush=True)


def work(room, waiting, wrong, large, first, progress):
    """Takes batches until there are none, or until something disagrees and one is enough."""
    while not (first and wrong):
        try:
            batch = waiting.get_nowait()
        except Empty:
            return
        bad, stopped = room.run(batch)
        wrong.update(bad)
        large.update({name: why for name, why in stopped.items() if name not in bad})
        progress.add(batch)


def check(asked, crates, place, processes=1, first=False):
    """What disagrees and what could not be computed of these, by name, with the definitions in `crates`."""
    wrong, large, waiting = {}, {}, SimpleQueue()
    made, progress = batches(asked), Progress(len(asked), sys.stderr)
    for batch in made:
        waiting.put(batch)
    rooms = [Room(place / '0', crates)]
    rooms[0].prepare()
    rooms += [rooms[0].beside(place / str(at)) for at in range(1, min(processes, len(made)))]
    threads = [Thread(target=work, args=(room, waiting, wrong, large, first, progress)) for room in rooms]
    for thread in threads:
        thread.start()
    for thread in threads:
        thread.join()
    if any(room.failed for room in rooms):
        sys.exit('\n'.join(room.failed for room in rooms if room.failed))
    return wrong, large


def differing(asked, crates, place):
    """The names of these for which the definitions in `crates` are shown, by computing, to give something else."""
    room = Room(place / '0', crates)
    room.prepare()
    same, large = room.run(asked, differs=True)
    if room.failed:
        sys.exit(room.failed)
    return [one.name for one in asked if one.name not in same and one.name not in large]


def arguments():
    parser = argparse.ArgumentParser(description=__doc__, formatter_class=argparse.RawDescriptionHelpFormatter)
    parser.add_argument('answers', nargs='+')
    parser.add_argument('--crates', default='crates', type=Path, help='the folder of crates')
    parser.add_argument('--room', type=Path, help='the scratch folder; a new one, which goes again, if none is named')
    parser.add_argument('--outcome', action='store_true', help='compute `outcome`, twice for each answer')
    parser.add_argument('--names', default='', help='take only answers and calls whose names fit this pattern')
    parser.add_argument('--processes', default=2, type=int, help='checkers at a time')
    parser.add_argument('--first', action='store_true', help='end soon after something disagrees')
    return parser.parse_args()


def main():
    given = arguments()
    asked = all_asked(given.answers, given.names, given.outcome)
    if not asked:
        sys.exit('there are no such answers')
    with tempfile.TemporaryDirectory(prefix='answers-') as made:
        room = given.room or Path(made)
        wrong, large = check(asked, given.crates.resolve(), room.resolve(), given.processes, given.first)
    for name, why in sorted(large.items()):
        print(f'not computed: {name}: {why}')
    for name, why in sorted(wrong.items()):
        print(f'disagrees: {name}: {why}')
    print(f'{len(asked) - len(large) - len(wrong)} agree, {len(wrong)} disagree, {len(large)} not computed')
    return 1 if wrong or large else 0


if __name__ == '__main__':
    sys.exit(main())
