#!/usr/bin/env python3
"""Turns a .words file into the bytes of a sheet (SPECIFICATION 2).

A line holds decimal words; `#` starts a comment. Other lines:
  trailer KIND LIST A E L C P   kind, the words so far, the list's length, five counters
  repeat N NAME ... end         the lines between, with NAME running from 0 to N - 1
  bytes 0a ff                   raw bytes, in hexadecimal
  cut N                         drops the last N bytes
A word may be a sum, difference or product of numbers and names: 2*i+1.

usage: words.py FILE > SHEET
"""

import re
import struct
import sys

TERM = re.compile(r"[0-9a-z]+|[-+*()]")


def value(text, names):
    """The number that a word spells."""
    if "".join(TERM.findall(text)) != text:
        raise ValueError(f"not a word: {text}")
    number = eval(text, {"__builtins__": {}}, names)
    if not 0 <= number < 1 << 32:
        raise ValueError(f"not a word: {text}")
    return number


def packed(texts, names):
    numbers = [value(text, names) for text in texts]
    return struct.pack(f"<{len(numbers)}I", *numbers)


def trailer(out, texts, names):
    if len(texts) != 7 or len(out) % 4 != 0:
        raise ValueError("a trailer takes 7 words, after whole words")
    kind, rest = texts[0], texts[1:]
    return packed([kind, str(len(out) // 4), *rest], names)


def block_end(lines, start):
    """The index of the `end` that closes the `repeat` before `start`."""
    open_blocks = 1
    for at in range(start, len(lines)):
        if lines[at][0] == "repeat":
            open_blocks += 1
        if lines[at][0] == "end":
            open_blocks -= 1
        if open_blocks == 0:
            return at
    raise ValueError("repeat without end")


def assemble(lines, names, out):
    at = 0
    while at < len(lines):
        head, rest = lines[at][0], lines[at][1:]
        if head == "repeat":
            end = block_end(lines, at + 1)
            for i in range(value(rest[0], names)):
                assemble(lines[at + 1 : end], {**names, rest[1]: i}, out)
            at = end
        elif head == "trailer":
            out += trailer(out, rest, names)
        elif head == "bytes":
            out += bytes.fromhex("".join(rest))
        elif head == "cut":
            del out[len(out) - value(rest[0], names) :]
        else:
            out += packed(lines[at], names)
        at += 1


def sheet(text):
    """The bytes of the sheet that `text` describes."""
    lines = [line.split("#")[0].split() for line in text.splitlines()]
    out = bytearray()
    assemble([line for line in lines if line], {}, out)
    return bytes(out)


if __name__ == "__main__":
    with open(sys.argv[1], encoding="utf-8") as file:
        sys.stdout.buffer.write(sheet(file.read()))
