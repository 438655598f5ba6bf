#!/usr/bin/env python3
"""Shows that the stored answers tell the original from near misses of it.

For each entry of mutants/mutants.txt a copy of the harness is built with that
text changed in the original, and asked for the stored answers. Each must differ
in at least one record. A long run: harness/mutants.py [PART OF A NAME].
Writes below harness/target alone.
"""

import os
import re
import shutil
import subprocess
import sys
from pathlib import Path

HERE = Path(__file__).resolve().parent
OUT = HERE / "target" / "mutants"
CHANGED = "original/upstream/crates/antlr-rust-codegen/src/grammar/mutual_recursion.rs"
MEMBERS = ["petgraph", "sheets", "original", "traced", "oracle"]
SECONDS = 120


def parse(text):
    """Names with the text to be replaced and the text in its place."""
    for entry in text.split("\n== ")[1:]:
        name, rest = entry.split("\n-- from\n")
        old, new = (rest + "\n").split("\n-- to\n")
        yield name, old, new.strip("\n")


def without_tests(manifest):
    """What tests alone need is not copied."""
    return re.sub(r"^\[dev-dependencies\]\n(?:[^\[\n].*\n|\n)*", "", manifest, flags=re.M)


def copy_harness():
    work = OUT / "work"
    shutil.rmtree(work, ignore_errors=True)
    work.mkdir(parents=True)
    for member in MEMBERS:
        shutil.copytree(HERE / member, work / member)
        own = work / member / "Cargo.toml"
        own.write_text(without_tests(own.read_text()))
    manifest = (HERE / "Cargo.toml").read_text().splitlines()
    members = "members = [" + ", ".join(f'"{member}"' for member in MEMBERS) + "]"
    lines = [members if line.startswith("members") else line for line in manifest]
    (work / "Cargo.toml").write_text("\n".join(lines) + "\n")
    return work


def records(folder):
    found = {}
    for file in sorted(folder.glob("*.txt")):
        for record in file.read_text().split("\n\n"):
            found[record.split("\n", 1)[0]] = record
    return found


def build(work):
    quick = {"CARGO_BUILD_JOBS": "1", "CARGO_PROFILE_RELEASE_OPT_LEVEL": "1"}
    environment = dict(os.environ, CARGO_TARGET_DIR=str(OUT / "target"), **quick)
    command = ["cargo", "build", "--offline", "--release", "-q", "-p", "oracle", "--bin", "answers"]
    subprocess.run(command, cwd=work, env=environment, check=True, stderr=subprocess.DEVNULL)


def differing(stored):
    """How many records differ; None where the near miss does not come to an end."""
    answers = OUT / "answers"
    shutil.rmtree(answers, ignore_errors=True)
    answers.mkdir()
    program = OUT / "target" / "release" / "answers"
    try:
        command = [str(program), "write", str(answers)]
        run = subprocess.run(command, timeout=SECONDS, stderr=subprocess.DEVNULL)
    except subprocess.TimeoutExpired:
        return None
    if run.returncode != 0:
        return None
    made = records(answers)
    return sum(made.get(name) != record for name, record in stored.items())


def main():
    wanted = sys.argv[1] if len(sys.argv) > 1 else ""
    stored = records(HERE / "answers")
    work = copy_harness()
    original = (HERE / CHANGED).read_text()
    unseen = 0
    for name, old, new in parse((HERE / "mutants" / "mutants.txt").read_text()):
        if wanted not in name:
            continue
        if original.count(old) != 1:
            sys.exit(f"{name}: its text stands {original.count(old)} times")
        (work / CHANGED).write_text(original.replace(old, new))
        build(work)
        count = differing(stored)
        unseen += count == 0
        print(f"{name}: {'no end' if count is None else count}", flush=True)
    print(f"{unseen} unseen")
    sys.exit(1 if unseen else 0)


if __name__ == "__main__":
    main()
