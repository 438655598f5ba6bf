#!/usr/bin/env python3
"""Holds the program `listing` (SPECIFICATION 16.2) to what is stored, and tries it on inputs and outputs that fail.

- Of every stored answer of the original: the listing, byte for byte; of a refusal its sentence on standard error, else nothing.
- Of every sheet of tests/reading: the line that the stored one says where the reader refuses.
- What is no sheet is refused, 200 MB too, in little memory and at once.
- A directory, an input or output that is closed, and a full disk: a message on standard error and the status 3.
- The script by a link, from another folder and with no prover on the path; its help; words that it does not know.

usage: listing.py [PROGRAM SCRIPT]   (crates/listing/out/listing, as rt ci leaves it, and ./listing if none is named)
"""

import os
import pathlib
import re
import resource
import subprocess
import sys
import tempfile

import words

HERE = pathlib.Path(__file__).resolve().parent
ROOT = HERE.parent
ANSWERS = ROOT / "harness" / "answers"
READING = HERE / "reading"
LINES = ("ok", "refused", "r", "a", "e", "t")
LONGEST_RUN = 20
MEMORY = 64 << 20  # of addresses, where the input is long
LONG = 200_000_000
TEXT = "e: a | INT; a: e PLUS e;\n"


def stored():
    """Each stored answer: its name, the sheet, the listing."""
    for file in sorted(ANSWERS.glob("*.txt")):
        for record in file.read_text(encoding="utf-8").split("\n\n"):
            lines = record.strip().splitlines()
            if lines:
                yield f"{file.name}: {lines[0]}", sheet_of(lines), listing_of(lines)


def sheet_of(lines):
    for line in lines:
        key, _, rest = line.partition(" ")
        if key == "in":
            return b"".join(int(word).to_bytes(4, "little") for word in rest.split())
        if key == "hex":
            return bytes.fromhex(rest)
    raise ValueError(f"no sheet: {lines[0]}")


def listing_of(lines):
    return "".join(line + "\n" for line in lines if line.split(" ")[0] in LINES)


def few_addresses():
    resource.setrlimit(resource.RLIMIT_AS, (MEMORY, MEMORY))


def run(program, *words, **options):
    """The status, standard output and standard error of a run, or what went wrong with it."""
    try:
        done = subprocess.run([program, *words], capture_output="stdout" not in options, timeout=LONGEST_RUN, **options)
    except (OSError, subprocess.TimeoutExpired) as error:
        return -1, "", str(error)
    return done.returncode, (done.stdout or b"").decode(), (done.stderr or b"").decode()


def is_said(out, err):
    """Whether standard error has the sentence of the refusal that standard output tells, or nothing where there is none."""
    refused = re.match(r"refused (\d)\n", out)
    return bool(re.fullmatch(rf"refused {refused[1]}: [^\n]+\.\n", err)) if refused else err == ""


def of_stored(program):
    """What is wrong with the listing of each stored answer."""
    for name, sheet, expected in stored():
        status, out, err = run(program, input=sheet)
        good = status == 0 and out == expected and is_said(out, err)
        yield None if good else f"{name}: status {status}, {out[:60]!r}, {err[:60]!r}; expected {expected[:60]!r}"


def of_reading(program):
    """What is wrong with the first line for each sheet of tests/reading: the reader's refusals, and no other, are the stored ones."""
    for file in sorted(READING.glob("*.words")):
        sheet = words.sheet(file.read_text(encoding="utf-8"))
        expected = file.with_suffix(".expected").read_text(encoding="utf-8")
        status, out, err = run(program, input=sheet)
        line = out.partition("\n")[0] + "\n"
        good = line == expected if expected.startswith("refused") else re.match(r"ok \d+ \d+\n|refused [789]\n", line)
        yield None if good and status == 0 and is_said(out, err) else f"{file.stem}: status {status}, {line!r}, {err[:60]!r}"


def answered(program, name, number, refused, **options):
    """What is wrong with an input that is refused by a number, which is an answer; the script's status tells, as that of join."""
    status, out, err = run(program, **options)
    good = status == refused and out == f"refused {number}\n" and is_said(out, err)
    return None if good else f"{name}: status {status}, {out[:60]!r}, {err[:60]!r}"


def failed(script, name, **options):
    """What is wrong with a run that cannot read or write: a message, no listing, and the status of join."""
    status, out, err = run(script, **options)
    good = status == 3 and out == "" and re.match(r"listing: standard (in|out)put cannot be (read|written): [^\n]+\n", err)
    return None if good else f"{name}: status {status}, {out[:60]!r}, {err[:60]!r}"


def of_no_sheets(program, script, folder):
    """What is no sheet, by the program and by the script."""
    padded = TEXT * 4 + " " * (-4 * len(TEXT) % 4)
    long = folder / "long"
    with open(long, "wb") as file:
        file.truncate(LONG)
    for it, status in ((program, 0), (script, 1)):
        yield answered(it, "an empty input", 1, status, input=b"")
        yield answered(it, "a grammar's text", 1, status, input=TEXT.encode())
        yield answered(it, "a grammar's text in whole words", 3, status, input=padded.encode())
        with open(long, "rb") as file:
            yield answered(it, "200 MB", 1, status, stdin=file, preexec_fn=few_addresses)
        with subprocess.Popen(["cat", long], stdout=subprocess.PIPE) as cat:
            yield answered(it, "200 MB in a pipe", 1, status, stdin=cat.stdout, preexec_fn=few_addresses)
            cat.stdout.close()


def of_failures(script, folder):
    """Inputs that cannot be read and outputs that cannot be written. In a child the descriptor is closed just before the script."""
    case = (ROOT / "examples" / "case-1.sheet").read_bytes()
    directory = os.open(folder, os.O_RDONLY)
    yield failed(script, "a directory", stdin=directory)
    os.close(directory)
    yield failed(script, "a closed input", preexec_fn=lambda: os.close(0))
    yield failed(script, "a closed output", input=case, preexec_fn=lambda: os.close(1))
    with open("/dev/full", "wb") as full:
        yield failed(script, "a full disk", input=case, stdout=full, stderr=subprocess.PIPE)


def of_uses(script, folder):
    """The script as it is called: by a link, without a prover, with a file or `-`, and with words that mean nothing."""
    sheet = ROOT / "examples" / "case-1.sheet"
    expected = (ROOT / "examples" / "case-1.listing").read_text(encoding="utf-8")
    (folder / "link").symlink_to(script)
    (folder / "again").symlink_to("link")
    path = ":".join(own for own in os.environ["PATH"].split(":") if not os.path.exists(os.path.join(own, "rt")))
    for name, words, given in (("a file", [sheet], None), ("a dash", ["-"], sheet.read_bytes()), ("no word", [], sheet.read_bytes())):
        done = run(folder / "again", *words, input=given, cwd=folder, env={**os.environ, "PATH": path})
        yield None if done == (0, expected, "") else f"{name}, by a link and without rt: {done}"
    for word in ("-h", "--help"):
        status, out, err = run(script, word)
        yield None if (status, err) == (0, "") and "usage: listing" in out and "exit status" in out else f"{word}: {status}, {err}"
    for what, words in (("no option", ["--other"]), ("more than one sheet", [sheet, sheet]), ("none cannot be read", ["none"]), ("cannot be read", ["."])):
        status, out, err = run(script, *words, cwd=folder)
        good = (status, out) == (3, "") and err.startswith("listing: ") and what in err
        yield None if good else f"{words}: status {status}, {err[:60]!r}"


def main():
    named = sys.argv[1:] or [str(ROOT / "crates" / "listing" / "out" / "listing"), str(ROOT / "listing")]
    if len(named) != 2 or not all(os.access(it, os.X_OK) for it in named):
        print("usage: listing.py [PROGRAM SCRIPT]")
        return 2
    program, script = named
    passed, wrong = 0, 0
    with tempfile.TemporaryDirectory() as made:
        folder = pathlib.Path(made)
        checks = [of_stored(program), of_reading(program), of_no_sheets(program, script, folder), of_failures(script, folder)]
        for check in (*checks, of_uses(script, folder)):
            for complaint in check:
                passed += complaint is None
                wrong += complaint is not None
                if complaint:
                    print(f"listing: {complaint}")
    print(f"{passed} passed, {wrong} failed")
    return 1 if wrong else 0


if __name__ == "__main__":
    sys.exit(main())
