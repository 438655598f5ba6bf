#!/usr/bin/env python3
"""Checks that what is promised of the definition is proved as a whole.

- The crate `laws` declares one record `Theorems`, without parameters, in `Demands` or below it.
- A file that the crate's `mod` lines reach declares, at the outermost level, `theorems : Theorems`,
  and gives it a body; the `Theorems` there is that record.
- The fields of the records in which what is promised stands, in that crate and in `pass`, are those of
  the list in .ci/promises.txt: none has gone or says something else, and one that is new is seen there.
- Nothing that such a field supposes fails by its form; and where the record `Met` is declared, in the same
  crate, it has a case of each of these suppositions, and `met : Met` is proved. So no promise is empty.
- `rt ci`, whose words stand in target/log/ci, says that the crate is proved.

One line for each breach. usage: theorems.py [--write] [ROOT]; --write makes the list anew.
"""

import difflib
import pathlib
import re
import sys

from contracts import LOG, verdicts
from lexer import antt_words
from promises import MET, MET_FILE, Meanings, listed, records, shown, supposed, unmet

CRATE = "laws"
DEMANDS = "Demands"
LIST = ".ci/promises.txt"
HEAD = """# What is promised: the fields of the records that `theorems` and the entries' contracts consist of, without the names that
# they bind. .ci/theorems.py holds the records to this list; `python3 .ci/theorems.py --write` makes it anew from them.
"""


def declarations(text):
    """The words of each declaration or clause: what starts in a line's first column, up to the next."""
    found = []
    for word, at in antt_words(text):
        if at == 0 or text[at - 1] == "\n":
            found.append([])
        if found:
            found[-1].append(word)
    return found


def reached(specs):
    """The files that `mod` lines reach from Lib.antt, by the names of their modules."""
    found, todo = {}, [((), specs / "Lib.antt")]
    while todo:
        name, file = todo.pop()
        if not file.is_file():
            continue
        found[".".join(name)] = text = file.read_text(encoding="utf-8")
        for words in declarations(text):
            if words[:2] == ["pub", "mod"] or words[:1] == ["mod"]:
                inner = (*name, words[-1])
                todo.append((inner, specs.joinpath(*inner).with_suffix(".antt")))
    return found


def bare(words):
    return [word for word in words if word != "pub"]


def has_record(text):
    """Whether a file declares the record, with a field at least."""
    head = ["record", "Theorems", ":", "Type", "0", "where"]
    found = [bare(words) for words in declarations(text)]
    return any(words[: len(head)] == head and ":" in words[len(head) :] for words in found)


def declares_another(text):
    """Whether a file declares a `Theorems` of its own, of whatever form."""
    heads = [words[: words.index(":")] for words in declarations(text) if ":" in words and words[0] != "use"]
    return any("Theorems" in head for head in heads)


def imported_from(text):
    """The modules of the crate from which a file has the name `Theorems`."""
    front = rf"Rattle\.{CRATE}\.specs\."
    uses = re.findall(rf"^use {front}([\w.]+)\.\{{([^}}]*)\}}", text, re.M)
    return [module for module, names in uses if "Theorems" in [name.strip() for name in names.split(",")]]


def is_proved(text, name="theorems", record="Theorems"):
    """Whether a file has the signature, bare, and a clause with a body behind it."""
    found = [bare(words) for words in declarations(text)]
    for at, words in enumerate(found):
        if words == [name, ":", record]:
            return any(clause[:2] == [name, "="] and len(clause) > 2 for clause in found[at + 1 :])
    return False


def breaches_of_list(root):
    """Where the records and the stored list differ: `-` is what the list has and the records have not, `+` the other way round."""
    stored = [line for line in (root / LIST).read_text(encoding="utf-8").splitlines() if line and line[0] != "#"]
    differing = [line for line in difflib.ndiff(stored, listed(root)) if line[0] in "+-"]
    if differing:
        yield from differing
        yield f"{LIST}: the records are not those of the list. If that is meant: python3 .ci/theorems.py --write"


def breaches_of_suppositions(root, modules):
    """The suppositions of what is promised that nothing can meet, by their form, or that no case meets."""
    meanings = Meanings(modules.values())
    for file, name, supposition in supposed(root):
        if meanings.cannot_be(supposition):
            yield f"{file}: {name} supposes what cannot be: {shown(supposition)}"
    yield from unmet(root)
    cases = [name for name, text in modules.items() if MET in records(text)]
    proofs = [name for name, text in modules.items() if is_proved(text, "met", MET)]
    if cases and len(proofs) != 1:
        yield f"{MET_FILE}: met : {MET} is proved in {proofs or 'no module that is reached'}, not in one"


def breaches(root):
    specs = root / "crates" / CRATE / "specs"
    modules = reached(specs)
    records = [name for name, text in modules.items() if has_record(text)]
    if len(records) != 1 or records[0].split(".")[0] != DEMANDS:
        yield f"{specs}: the record Theorems is declared in {records or 'no module'}, not once in {DEMANDS}"
    proofs = [name for name, text in modules.items() if is_proved(text)]
    if len(proofs) != 1:
        yield f"{specs}: theorems : Theorems is proved in {proofs or 'no module that is reached'}, not in one"
    for name in proofs:
        if imported_from(modules[name]) != records or declares_another(modules[name]):
            yield f"{specs}: Theorems in {name} is not the record of {DEMANDS}"
    yield from breaches_of_list(root)
    yield from breaches_of_suppositions(root, modules)
    lines = list(verdicts(root, CRATE))
    if not lines:
        yield f"{root / LOG}: no verdict on {CRATE}: run .ci/run first"
    for place, line in lines:
        if line.split()[0] != "logic=proved":
            yield f"{place}: {CRATE} is not proved: {line}"


def main():
    arguments = [argument for argument in sys.argv[1:] if argument != "--write"]
    root = pathlib.Path(arguments[0] if arguments else pathlib.Path(__file__).resolve().parent.parent)
    if "--write" in sys.argv[1:]:
        (root / LIST).write_text(HEAD + "".join(f"{line}\n" for line in listed(root)), encoding="utf-8")
    found = list(breaches(root))
    print("\n".join(found) if found else "theorems: all that is promised of the definition is proved")
    return 1 if found else 0


if __name__ == "__main__":
    sys.exit(main())
