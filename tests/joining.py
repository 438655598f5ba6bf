"""Runs of the program `join`, for join.py and what it tries."""

import pathlib
import subprocess

ROOT = pathlib.Path(__file__).resolve().parent.parent
LONGEST_RUN = 20


class Failure(Exception):
    """What is not as it should be."""


class Run:
    """One run of the program: its status, and what it printed."""

    def __init__(self, program, words, **streams):
        streams = {"stdin": subprocess.DEVNULL, "stdout": subprocess.PIPE, "timeout": LONGEST_RUN, **streams}
        words = [program, *map(str, words)]
        done = subprocess.run(words, stderr=subprocess.PIPE, **streams)
        self.status, self.out, self.said = done.returncode, done.stdout, done.stderr.decode("utf-8", "replace")

    def answer(self):
        if self.status != 0 or self.said:
            raise Failure(f"status {self.status}: {self.said.strip()}")
        return self.out

    def text(self):
        return self.answer().decode("utf-8")

    def stopped(self, status, message, printed=b""):
        if self.status != status:
            raise Failure(f"status {self.status} and not {status}: {self.said.strip()}")
        if not self.said.startswith(f"join: {message}"):
            raise Failure(f"it says {self.said.strip()!r} and not {message!r}")
        if self.out not in (printed, None):
            raise Failure("something is printed")


def require(good, what):
    if not good:
        raise Failure(what)


def written(folder, name, text):
    """A file with this text, or these bytes."""
    file = folder / name
    file.write_bytes(text if isinstance(text, bytes) else text.encode("utf-8"))
    return file


def rules(text):
    """What is printed without the head and empty lines, each line with single spaces."""
    lines = [" ".join(line.split()) for line in text.split("\n") if not line.startswith("//")]
    return [line for line in lines if line]


def line_of(lines, front):
    """The line that begins so."""
    found = [line for line in lines if line.startswith(front)]
    require(found, f"no line begins with {front!r}: {lines}")
    return found[0]


def head(text):
    """The lines of the head, each of them whole."""
    lines = text.replace("\n//   ", " ").split("\n")
    return [line[3:] for line in lines if line.startswith("// ")]
