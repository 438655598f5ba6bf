#!/usr/bin/env python3
"""Spells the names of this repository's own definitions and lemmas as today's library spells its own.

usage: tools/port_names.py --links        at the top of the repository: links below crates/ become copies, which port.py asks for
       tools/port_names.py [--table]      once, after port.py; --table prints the table alone

Words are in snake case, types and modules in camel case. A name that a file of specs/ or proofs/ declares, or that begins small and
has a capital inside, is turned: `planCycle` to `plan_cycle`, `reads-back` to `reads_back`. A lemma that would so get the name of
a definition or of another word gets `_lem` behind it. Names of types and of facts keep their capitals. A cycle of
functions that walks a tree is named `tree`. Names of the code, of
files, strings and what stands behind a dot in a proof file that walks the code are left alone.
"""

import collections
import os
import re
import sys

WORD = re.compile(r"[^\s(){}.;,@\"«»]+")
PLAIN = re.compile(r"◌?[a-z][A-Za-z0-9_'₀-₉-]*◌?$")
COMMENT = re.compile(r'(?m)(?<![^\s(){}.;,@"«»])--[^\n]*')
DECLARED = re.compile(
    r"(?m)^ *(?:abbrev |unfoldable |pub )*((?:[^\s(){}.;,@\"«»:=]+ )*?[^\s(){}.;,@\"«»:=]+)(?: \{[^\n:=]*\})? :(?= |\n)"
)
NAMED = re.compile(r"(?m)^ *(?:pub |abbrev )*(?:data|record|ruleset) +(?:pub +)?([^\s(){}.;,@\"«»]+)")
USE = re.compile(r"use\s+([A-Za-z][\w.+\-]*)\.\{([^}]*)\}")
# Constructors and fields, which are no lemmas, where the plain spelling is another's in the same file.
CHOSEN = {
    "of-epsilon": "derives_epsilon",
    "of-action": "derives_action",
    "of-predicate": "derives_predicate",
    "of-call": "derives_call",
    "of-token": "derives_token",
    "of-terminal": "derives_terminal",
    "of_end": "derives_end",
    "of-block": "derives_block",
    "none_left": "no_steps_left",
    "any-number": "any_times",
    "first-distance": "first_distance_is",
    "second-distance": "second_distance_is",
    "is-unknown": "unknown_name",
    "source-there": "source_stands",
    "goal-there": "goal_stands",
}
LIBRARY = re.compile(r"(?!Rattle\.)|Rattle\.(std|core|io|os|libc)\b")


def texts():
    found = {}
    for folder, dirs, files in os.walk("crates"):
        dirs[:] = sorted(d for d in dirs if d != "out")
        for name in sorted(files):
            if name.endswith((".antt", ".rt")):
                path = os.path.join(folder, name)
                with open(path, encoding="utf-8") as f:
                    found[path] = f.read()
    return found


def walks(path):
    """Whether a file is a proof that walks the code: its names are the prover's, or local."""
    return os.path.basename(path) in ("Proof.antt", "Answers.antt", "Invariants.antt")


def code(path, text):
    return COMMENT.sub("", text) if path.endswith(".antt") else re.sub(r"//[^\n]*", "", text)


def camel(name):
    return bool(PLAIN.match(name)) and any(re.match(r"◌?[a-z].*[A-Z]", part) for part in name.split("-"))


def snake(name):
    def part(p):
        return re.sub(r"(?<=[a-z0-9])([A-Z])", lambda m: "_" + m[1].lower(), p) if re.match("◌?[a-z]", p) else p

    return "-".join(part(p) for p in name.split("-"))


def table(found):
    """The new spelling of each name, and the files in which a name is a library's."""
    declared, used, library = set(), collections.Counter(), collections.defaultdict(set)
    for path, text in found.items():
        body = code(path, text)
        used.update(WORD.findall(body))
        for m in USE.finditer(body):
            if LIBRARY.match(m[1]):
                for item in m[2].split(","):
                    library[item.split(" as ")[0].strip()].add(path)
        if path.endswith(".antt") and not walks(path):
            for m in DECLARED.finditer(body):
                declared.update(m[1].split())
            declared.update(NAMED.findall(body))
    places = collections.defaultdict(set)
    for path, text in found.items():
        for name in set(WORD.findall(code(path, text))):
            places[name].add(path)
    new = {}
    # Who has a spelling by now, with the files in which it stands.
    has = collections.defaultdict(list)

    def take(name, to):
        while any(places[other] & places[name] for other in has[to] if other != name):
            to += "_lem"
        new[name] = to
        has[to].append(name)

    for name, to in CHOSEN.items():
        assert not (places[to]), to
        new[name] = to
        has[to].append(name)
    # Definitions first: a lemma gives way to them, and a word that stands as it was too.
    dashed = sorted(n for n in declared if "-" in n and PLAIN.match(n) and n not in CHOSEN)
    small = sorted(n for n in used if camel(n) and "-" not in n)
    turning = set(dashed) | set(small)
    for name in small:
        take(name, snake(name))
    for name in sorted(used):
        if name in turning or name in CHOSEN or not PLAIN.match(name):
            continue
        if name in has and name in declared and any(places[other] & places[name] for other in has[name]):
            take(name, name + "_lem")
        else:
            has[name].append(name)
    for name in dashed:
        if any(re.match("[A-Z]", p) for p in name.split("-")):
            new[name] = snake(name)
        else:
            take(name, snake(name).replace("-", "_"))
    return new, library


def turned(path, text, new, library):
    remarks = [m.span() for m in (COMMENT if path.endswith(".antt") else re.compile(r"//[^\n]*")).finditer(text)]

    def word(m):
        name = m[0]
        if name not in new or path in library.get(name, ()):
            return name
        if not camel(name) and any(a <= m.start() < b for a, b in remarks):
            return name
        if walks(path) and m.start() and m.string[m.start() - 1] == "." and "-" in name:
            return name
        if path.endswith(".rt") and not camel(name) and not clause(m):
            return name
        return new[name]

    def clause(m):
        line = m.string[m.string.rfind("\n", 0, m.start()) + 1 : m.start()]
        return line.startswith("ghost use ") or re.match(r" *(requires|ensures|ghost)\b", line)

    return WORD.sub(word, text)


def cycles():
    """The functions of a cycle that walks a tree: its folder is named +tree, and not by all of them."""
    for folder, dirs, _ in os.walk("crates", topdown=False):
        for name in dirs:
            if re.match(r"\+\w*alternative\w*element", name):
                os.rename(os.path.join(folder, name), os.path.join(folder, "+tree"))
    for path, text in texts().items():
        to = re.sub(r"(#\[cycle\(|\+)\w*alternative\w*element\w*(?=[).}])", r"\1tree", text)
        if to != text:
            with open(path, "w", encoding="utf-8") as f:
                f.write(to)


def unlink():
    for folder, _, files in os.walk("crates"):
        for name in files:
            path = os.path.join(folder, name)
            if os.path.islink(path):
                with open(path, "rb") as f:
                    content = f.read()
                os.remove(path)
                with open(path, "wb") as f:
                    f.write(content)


def main():
    if "--links" in sys.argv:
        unlink()
        return
    found = texts()
    new, library = table(found)
    if "--table" in sys.argv:
        for name in sorted(new):
            print(name, new[name])
        return
    for path, text in found.items():
        to = turned(path, text, new, library)
        if to != text:
            with open(path, "w", encoding="utf-8") as f:
                f.write(to)
    cycles()


main()
