#!/usr/bin/env python3
"""The project's own check of what its crates promise and rest on.

- Every `pub fn`, every method of a `pub trait` and every `extern "C"` function of a library has an `ensures`,
  and no part of it holds by its form alone: clauses.py has what that is. Where callers in other crates can
  reach the function, each `ensures` speaks of the result or of a buffer at exit, and what the function may
  write to is named there. An `impl` is held to the clauses of its trait by the prover; those of the kit's
  traits say what the `impl` gives, as `from_gives`, so that such a member is an `ensures` of its methods,
  and one as `can_add` a `requires`.
- Every function at the outer boundary has no `requires`, and no type there a ghost field, since whoever
  makes a value is asked for what such a field says: reached.py has what lies there. Functions of
  open modules may rest on what the reader states, and have one.
- No `axiom` and no hole stands in an .antt file.
- No library assumes anything: it uses crates of this repository alone and names nothing of `std` that
  rests on C, since a library's verdict does not count the axioms of the kit's; and `rt ci`, whose words
  stand in target/log/ci, has proved it: in that run, and then its last line has neither `foreign=` nor,
  of a static library, an `axioms=` other than 0, nor a word which says that another run, or another
  logic than the kit's, is trusted; or in an earlier one, which `rt ci` held to the same but for
  `axioms=`: tools/archives holds each archive to that.

One line for each breach, with file and line. usage: contracts.py [ROOT]
"""

import pathlib
import sys

from clauses import says_nothing, speaks_of_exit, speaks_of_last, speaks_of_outcome
from heads import functions, ghost_fields, lent
from lexer import BUILT, antt_words, files, line_of, rattle_words
from reached import Boundary, Library, module_of

# What `rt ci` says, and where its words are kept.
LOG = "target/log/ci"
KEPT = "is kept: an earlier run on this machine proved the same files over the same libraries"
# Words of a verdict by which it rests on more than the run and the kit.
TRUSTING = ("pinned=no", "cache=", "incremental=", "crate-checked=", "batches=")
# The libraries that every crate has, and what their prelude has of handles, by which C is reached.
ROOTS = ("std", "core")
HANDLES = {"HostRuntime", "LibcRuntime", "Alloc", "AllocGlobal", "Print", "Eprint", "Input", "Lock"}


def breaches_of_clauses(function, is_reached):
    """What is wrong with an open function's `ensures`."""
    clauses = [clause for kind, clause, _ in function.clauses if kind == "ensures"]
    if not clauses:
        yield "is open to callers and has no ensures"
    for clause in clauses:
        if says_nothing(clause):
            yield f"has an ensures that says nothing: {says_nothing(clause)}"
        elif is_reached and not speaks_of_outcome(clause):
            yield "has an ensures that speaks neither of the result nor of a buffer at exit"
    for name in lent(function) if clauses and is_reached else ():
        if not any(speaks_of_exit(clause, name) for clause in clauses):
            yield f"is lent {name}, and no ensures speaks of it at exit"


def breaches_of_members(function, is_reached):
    """What is wrong with a method of an `impl` of a trait of the kit: what it gives stands in the `impl`, or in an `ensures`."""
    gives = [text for name, text in function.members.items() if name.endswith("_gives")]
    if function.has("ensures") or not gives:
        yield from breaches_of_clauses(function, is_reached)
    for text in gives:
        if says_nothing(text):
            yield f"has a member that says nothing: {says_nothing(text)}"
        elif not speaks_of_last(text):
            yield "has a member that does not speak of the result"


def asks(function, boundary):
    """Whether a function asks something of its caller: by a clause, its own or of its trait, or by a member of the `impl` around it."""
    of_trait = function.trait and boundary.trait_asks(function.trait, function.name)
    return function.has("requires") or of_trait or any(name.startswith("can_") for name in function.members)


def breaches_of_functions(where, text, boundary, place):
    """What is wrong with the functions of a library's file that callers have, and how many there are; `place` has its crate and
    module."""
    wrong, seen = [], 0
    for function in functions(text):
        is_reached = boundary.can_reach(*place, function)
        if function.open():
            found = list(breaches_of_clauses(function, is_reached))
        elif function.trait and not boundary.has_trait(place[0], function.trait):
            found = list(breaches_of_members(function, is_reached))
        elif function.trait:
            found = []
        else:
            continue
        seen += 1
        if boundary.has(*place, function) and asks(function, boundary):
            found.append("is at the outer boundary and has a requires")
        wrong += [f"{where}:{line_of(text, function.place)}: fn {function.name} {what}" for what in found]
    return wrong, seen


def breaches_of_types(where, text, boundary, crate):
    """The types at the outer boundary by which a caller is asked for something."""
    for name, field, place in ghost_fields(text):
        if (crate, name) in boundary.names:
            yield f"{where}:{line_of(text, place)}: type {name} is at the outer boundary and has a ghost field, {field}"


def breaches_of_antt(where, text):
    wrong, before = [], None
    for word, at in antt_words(text):
        if word == "axiom":
            wrong.append(f"{where}:{line_of(text, at)}: an axiom")
        # `{! e !}` is a hole with a candidate in it
        if word.startswith("?") or (word.startswith("!") and before == ("{", at - 1)):
            wrong.append(f"{where}:{line_of(text, at)}: a hole, {word}")
        before = (word, at)
    return wrong


def verdicts(root, crate):
    """What `rt ci` said of the crate: the last line of its check, or that an earlier run proved it; each with its place."""
    log, last = root / LOG, None
    said = log.read_text(encoding="utf-8", errors="replace").splitlines() if log.is_file() else []
    is_inside = False
    for number, line in enumerate(said, 1):
        if line.startswith("== "):
            is_inside = line == f"== {crate}"
        elif is_inside and line.startswith("logic="):
            last = f"{LOG}:{number}", line
        elif line == f"rt: {crate} proved" and last:
            yield last
        elif line == f"rt: {crate} {KEPT}":
            yield f"{LOG}:{number}", "logic=proved"


def breaches_of_verdicts(root, crate):
    wrong, found = [], list(verdicts(root, crate))
    if not found:
        return [f"crates/{crate}/src/lib.rt:1: {LOG} has no verdict on it: run .ci/run first"]
    for place, line in found:
        words = line.split()
        if words[0] != "logic=proved":
            wrong.append(f"{place}: library {crate} is not proved: {line}")
        if any(word.startswith("foreign=") for word in words):
            wrong.append(f"{place}: library {crate} declares foreign functions: {line}")
        if any(word.startswith("axioms=") and word != "axioms=0" for word in words):
            wrong.append(f"{place}: library {crate} rests on axioms: {line}")
        if any(word.startswith(TRUSTING) for word in words):
            wrong.append(f"{place}: library {crate} rests on what is not of this run and the kit: {line}")
    return wrong


def libraries(root):
    return sorted(lib.parent.parent.name for lib in root.glob("crates/*/src/lib.rt"))


def breaches_of_uses(root):
    """The crates that are not of this repository and that crates.txt gives to a library."""
    wrong, all_of_them = [], libraries(root)
    for number, line in enumerate((root / "crates.txt").read_text(encoding="utf-8").splitlines(), 1):
        head, _, uses = line.partition("#")[0].partition(":")
        # `NAME staticlib`, where it is one
        crate = (head.split() or [""])[0]
        for used in uses.split() if crate in all_of_them else []:
            if not (root / "crates" / used).is_dir():
                wrong.append(f"crates.txt:{number}: library {crate} uses {used}, which may assume")
    return wrong


def breaches_of_names(where, text):
    """What a library's file names of the libraries that every crate has, by which it may assume."""
    found = list(rattle_words(text))
    for at, (word, place) in enumerate(found):
        behind = [after for after, _ in found[at + 1 : at + 3]]
        if word in HANDLES or (word in ROOTS and behind == [":", ":"]):
            yield f"{where}:{line_of(text, place)}: a library names {word}, which may assume"


def breaches(root):
    """All that is wrong below `root`, and the numbers of functions and files looked at."""
    wrong, seen, read = [], 0, 0
    sources = {crate: Library(root / "crates" / crate / "src") for crate in libraries(root)}
    boundary = Boundary(sources)
    for crate, library in sources.items():
        for file, text in library.texts.items():
            where = file.relative_to(root)
            bad, count = breaches_of_functions(where, text, boundary, (crate, module_of(file)))
            wrong += [*bad, *breaches_of_names(where, text), *breaches_of_types(where, text, boundary, crate)]
            seen, read = seen + count, read + 1
        wrong += breaches_of_verdicts(root, crate)
    wrong += breaches_of_uses(root)
    for file in files(root, ".antt", BUILT):
        wrong += breaches_of_antt(file.relative_to(root), file.read_text(encoding="utf-8"))
        read += 1
    return wrong, seen, read


def main():
    here = pathlib.Path(__file__).resolve().parent.parent
    root = pathlib.Path(sys.argv[1]).resolve() if len(sys.argv) > 1 else here
    wrong, seen, read = breaches(root)
    for line in wrong:
        print(line)
    if wrong or not libraries(root):
        print(f"contracts: {len(wrong)} breaches in {len(libraries(root))} libraries")
        return 1
    print(f"contracts: {seen} functions and {read} files looked at, nothing wrong")
    return 0


if __name__ == "__main__":
    sys.exit(main())
