#!/usr/bin/env python3
"""How much stack the functions of a proved archive take, told from its frames: `stack.py [ARCHIVE [LIMIT]]`.

A frame that is touched page by page goes by way of r11: that the function has a value there is a fault of the compiler, which has
been met, and is told as one. Of a program, as of an archive, `stack.py --frames FILE` asks that alone.

A frame is a return address, what the function pushes, and what it takes from the stack pointer. The deepest chain of
calls counts functions that call themselves, or each other in a ring, as often as they can be on the stack at once. What
the C library's memset and memcpy take comes on top. Above the limit, in bytes, the exit status is 1.

The archive is target/staticlib/libsheet.a unless another is named.
"""

import re
import subprocess
import sys

ADDRESS = 8

# How often a function that calls itself can be on the stack, by function or by crate. Blocks nest at most 8 deep, the
# body is one more, and some functions are called once more to find that nothing is left. The library's sort parts a run at most
# twice as often as the logarithm of its length says, which is 13 for all the words of a sheet.
DEPTH = 10
LEVELS = {
    "analysis": DEPTH,
    "collisions": DEPTH,
    "convert": DEPTH,
    "copies": DEPTH,
    "core": 2 * 13 + 1,
    "ends": DEPTH,
    "records": DEPTH,
    "rewritable": DEPTH,
    "sizes": DEPTH,
    "words": DEPTH,
}
OUTSIDE = {"memset", "memcpy", "memmove"}

# The stack pointer goes down by a number; by a number below 0 that is added; to a multiple of a power of two; and, where
# each page of a large frame is touched, in a loop down to a place, which is told in one instruction or in two.
TAKES = re.compile(r"\bsub\s+\$0x([0-9a-f]+),%rsp")
ADDS = re.compile(r"\b(?:add|and)\s+\$0x(ffffffff[0-9a-f]{8}),%rsp")
PROBES = re.compile(r"\blea\s+-0x([0-9a-f]+)\(%rsp\),%r11|\bmov\s+%rsp,%r11\n.*\bsub\s+\$0x([0-9a-f]+),%r11")
LOOPS = re.compile(r"\bcmp\s+%r11,%rsp")
# It goes up again, or by itself; all else is not read.
GOES_UP = re.compile(r"\badd\s+\$0x[0-9a-f]{1,8},%rsp|\blea\s+-?0x[0-9a-f]+\(%rbp\),%rsp|\bmov\s+%rbp,%rsp")
MOVES = re.compile(r"\b(?:add|and|sub|lea|mov|xchg|pop)\s[^#<]*%rsp$")


class Unknown(Exception):
    """Something of which the stack cannot be told."""


def listing(archive):
    """The archive's code with its relocations."""
    command = ["objdump", "-dr", "--no-show-raw-insn", archive]
    return subprocess.run(command, check=True, capture_output=True, text=True).stdout


def functions(text):
    """The lines of each function, by name."""
    found = {}
    lines = []
    for line in text.splitlines():
        start = re.match(r"[0-9a-f]+ <(.+)>:$", line)
        if start:
            lines = found.setdefault(start[1], [])
        else:
            lines.append(line)
    return found


def probes(name, lines):
    """The bytes of each loop in which the function touches its frame."""
    text = "\n".join(lines)
    found = list(PROBES.finditer(text))
    if len(found) != sum(map(bool, map(LOOPS.search, lines))):
        raise Unknown(f"{name} touches its frame in a loop that is not read")
    if any("%r11" in text[: one.start()] for one in found):
        raise Unknown(f"{name} touches its frame by way of r11, which it has used before")
    return [int(one[1] or one[2], 16) for one in found]


def frame(name, lines):
    """The bytes that one call of the function takes."""
    size = ADDRESS + sum(probes(name, lines))
    for line in lines:
        taken, added = TAKES.search(line), ADDS.search(line)
        if re.search(r"\bpush\b", line):
            size += 8
        elif taken:
            size += int(taken[1], 16)
        elif added:
            size += 2**64 - int(added[1], 16)
        elif MOVES.search(line.strip()) and not GOES_UP.search(line):
            raise Unknown(f"{name} moves the stack pointer in a way that is not read: {line.strip()}")
    return size


def calls(name, lines):
    """The functions that a function calls or jumps to: within its section by name, else by relocation."""
    text = "\n".join(lines)
    if re.search(r"\bcall\s+\*", text):
        raise Unknown(f"{name} calls a function by its address")
    moved = re.findall(r"R_X86_64_(?:PLT32|PC32)\s+(?:\.text\.)([^\s.]\S*?)[-+]0x", text)
    moved += re.findall(r"R_X86_64_PLT32\s+([^\s.]\S*?)[-+]0x", text)
    return set(moved) | ({name} if re.search(rf"\bcall\s+0 <{re.escape(name)}>", text) else set())


def levels(name):
    known = LEVELS.get(name, LEVELS.get(name.split("::")[0]))
    if known is None:
        raise Unknown(f"{name} calls itself, and how often is not known")
    return known


class Archive:
    def __init__(self, code):
        self.code = code
        self.called = {name: calls(name, lines) for name, lines in code.items()}
        unknown = set().union(*self.called.values()) - code.keys() - OUTSIDE
        if unknown:
            raise Unknown(f"not in the archive: {', '.join(sorted(unknown))}")
        self.reached = {name: self.reach(name) for name in code}
        self.known = {}

    def reach(self, name):
        """All that is called from a function, by way of others too."""
        found, left = set(), [name]
        while left:
            fresh = self.called[left.pop()] & self.code.keys() - found
            found |= fresh
            left.extend(fresh)
        return found

    def ring(self, name):
        """The functions that call each other in a ring with this one; none where it is called from nowhere below."""
        return sorted(other for other in self.reached[name] if name in self.reached[other])

    def entries(self):
        """What nothing else in the archive calls."""
        called = set().union(*(below - {name} for name, below in self.called.items()))
        return sorted(self.code.keys() - called)

    def deepest(self, name):
        """The bytes of the deepest chain from a function, and the chain. A ring is a link: each of its functions may be on
        the stack as often as it can be."""
        if name not in self.known:
            ring = self.ring(name)
            links = [(own, frame(own, self.code[own]) * levels(own), levels(own)) for own in ring]
            links = links or [(name, frame(name, self.code[name]), 1)]
            below = set().union(*(self.called[own] for own, _, _ in links)) & self.code.keys() - set(ring)
            size, chain = max((self.deepest(callee) for callee in sorted(below)), default=(0, ()))
            self.known[name] = sum(size for _, size, _ in links) + size, (*links, *chain)
        return self.known[name]


def look_at_frames(file):
    """That no frame of a file is made over a value; the script ends where one is."""
    code = functions(listing(file))
    try:
        loops = [probe for name, lines in code.items() for probe in probes(name, lines)]
    except Unknown as what:
        sys.exit(f"stack.py: {what}")
    if not code:
        sys.exit(f"stack.py: {file} names no functions")
    print(f"{file}: {len(loops)} frames of {len(code)} functions are touched page by page, none over a value")


def main(words):
    if words[:1] == ["--frames"]:
        return look_at_frames(words[1])
    archive = words[0] if words else "target/staticlib/libsheet.a"
    limit = int(words[1]) if len(words) > 1 else None
    try:
        read = Archive(functions(listing(archive)))
        found = [read.deepest(entry) for entry in read.entries()]
    except Unknown as what:
        sys.exit(f"stack.py: {what}")
    for size, chain in found:
        for name, own, times in chain:
            print(f"{own:6} bytes: {name}" + (f", {times} times" if times > 1 else ""))
        print(f"{size:6} bytes in all, from {chain[0][0]}")
    most = max(size for size, _ in found)
    if limit is not None and limit < most:
        sys.exit(f"stack.py: {most} bytes are more than {limit}")
    print(f"{archive}: at most {most} bytes of stack" + (f", of {limit}" if limit is not None else ""))


if __name__ == "__main__":
    main(sys.argv[1:])
