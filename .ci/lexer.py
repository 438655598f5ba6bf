"""The words of Rattle and of antt, and the files of a tree."""

import fnmatch
import os
import pathlib
import re

RATTLE = re.compile(
    r"""(?P<skip>\s+|//[^\n]*|/\*.*?\*/)
      | (?P<text>b?"(?:\\.|[^"\\])*"|b'(?:\\.[0-9a-f]*|[^'\\])')
      | (?P<word>[A-Za-z_]\w*)
      | (?P<mark>.)""",
    re.VERBOSE | re.DOTALL,
)
# A name of antt is a run of anything but spaces and these marks; so `even?` is one name, and a
# word that begins with `?` is a hole.
ANTT = re.compile(
    r"""(?P<skip>\s+|--[^\n]*)
      | (?P<open>\{-)
      | (?P<text>"(?:\\.|[^"\\])*"|«[^»]*»)
      | (?P<word>[^\s(){}.;,@"«»]+)
      | (?P<mark>.)""",
    re.VERBOSE | re.DOTALL,
)

# What builds leave, and git; `*` stands for one name.
BUILT = (".git", "target", "harness/target", "rust/target", "crates/*/out")


def line_of(text, at):
    return text.count("\n", 0, at) + 1


def comment_end(text, at):
    """The end of antt's block comment that starts at `at`; such comments nest."""
    depth = 0
    for found in re.compile(r"\{-|-\}").finditer(text, at):
        depth += 1 if found.group() == "{-" else -1
        if depth == 0:
            return found.end()
    return len(text)


def antt_words(text, at=0):
    """Each word, text and mark of antt from `at` on, with its place."""
    while at < len(text):
        found = ANTT.match(text, at)
        if found.lastgroup == "open":
            at = comment_end(text, at)
            continue
        if found.lastgroup != "skip":
            yield found.group(), at
        at = found.end()


def rattle_words(text, at=0):
    """Each word, text and mark of Rattle from `at` on, with its place."""
    while at < len(text):
        found = RATTLE.match(text, at)
        if found.lastgroup != "skip":
            yield found.group(), at
        at = found.end()


def is_one_of(path, patterns):
    """Whether a path is one of some, name by name."""
    names = [pattern.split("/") for pattern in patterns]
    return any(len(own) == len(path.parts) and all(map(fnmatch.fnmatchcase, path.parts, own)) for own in names)


def files(root, suffix, left_out=()):
    """The files below a folder that end so, but for some folders by their paths from there."""
    for folder, inner, names in os.walk(root):
        here = pathlib.Path(folder)
        inner[:] = sorted(name for name in inner if not is_one_of((here / name).relative_to(root), left_out))
        for name in sorted(names):
            if name.endswith(suffix):
                yield here / name
