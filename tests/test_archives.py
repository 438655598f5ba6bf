#!/usr/bin/env python3
"""Shows tools/archives making an archive where it is missing, made of other sources or not the one that was made, and only there;
over what `rt ci` proved of a copy of the crates below it, or in a folder that is named."""

import hashlib
import os
import pathlib
import shutil
import subprocess
import tempfile
import unittest

ROOT = pathlib.Path(__file__).resolve().parent.parent
# Says what `rt` says, builds the libraries of a copy, and keeps a line of each proof: the crates.
RT = """#!/bin/sh
case $1 in
version) cat "$ROOM/kit" ;;
doc) echo "$ROOM/home/START-HERE.md" ;;
ci)
    sed 's/[ :].*//' crates.txt | paste -sd ' ' >>"$ROOM/proofs"
    echo "rt: lower is kept: an earlier run on this machine proved the same files over the same libraries"
    echo "rt: middle proved"
    if [ -f "$ROOM/refuse" ]; then echo "crates/lower/src/lib.rt:1:1: error: not so"; exit 1; fi
    for crate in crates/*; do mkdir -p "$crate/out/rlib"; done
    echo "3 passed, 0 failed" ;;
esac
"""
# Builds a static library over libraries that are there, and keeps its name.
RATTLE = """#!/bin/sh
for to; do :; done
echo "$3" >>"$ROOM/builds"
[ -d ../lower/out/rlib ] || { echo "error: no library"; exit 1; }
echo "logic=proved functions=1 $(cat "$ROOM/words" 2>/dev/null) sum=0"
echo "$3 made by $(cat "$ROOM/kit")" >"$to"
"""
CRATES = """# names
lower:
middle: lower  # the second
upper: lower middle
upper_c staticlib: lower middle upper
other:
other_c staticlib: lower other
convert_c staticlib: lower
facts_c staticlib: lower
pass_c staticlib: lower
plans_c staticlib: lower
sheet_c staticlib: lower
"""
SHIPPED = ["convert", "facts", "pass", "plans", "sheet"]


def without_rt():
    """The folders of the path that have no rt in them."""
    return ":".join(folder for folder in os.environ["PATH"].split(":") if not (pathlib.Path(folder) / "rt").exists())


class Room(unittest.TestCase):
    """A repository with a prover that writes what it is told to."""

    def setUp(self):
        made = tempfile.TemporaryDirectory()
        self.addCleanup(made.cleanup)
        self.room = pathlib.Path(made.name)
        self.root = self.room / "root"
        self.write("crates.txt", CRATES)
        for line in CRATES.splitlines()[1:]:
            self.write(f"crates/{line.split()[0].rstrip(':')}/src/lib.rt", "fn f() {}\n")
        self.write("crates/lower/out/old.rt", "fn old() {}\n")
        self.source = self.root / "crates" / "lower" / "src" / "lib.rt"
        for name in ("tools/archives", "tools/proved", "tools/dist", "tests/kit.py"):
            self.write(name, "")
            shutil.copy(ROOT / name, self.root / name)
        self.folder = self.root / "target" / "staticlib"
        self.program("bin/rt", RT)
        self.program("home/bin/rattle", RATTLE)
        (self.room / "kit").write_text("kit 1\n")

    def write(self, name, text):
        file = self.root / name
        file.parent.mkdir(parents=True, exist_ok=True)
        file.write_text(text)

    def program(self, name, text):
        file = self.room / name
        file.parent.mkdir(parents=True, exist_ok=True)
        file.write_text(text)
        file.chmod(0o755)

    def run_tool(self, *names, tool="archives", path=None):
        path = path or f"{self.room / 'bin'}:{os.environ['PATH']}"
        words = [self.root / "tools" / tool, *names]
        return subprocess.run(words, env={**os.environ, "PATH": path, "ROOM": str(self.room)}, cwd="/", capture_output=True, text=True)

    def made(self, *names):
        """The archives that a run makes, each of its crate."""
        calls = self.room / "builds"
        calls.unlink(missing_ok=True)
        said = self.run_tool(*names)
        self.assertEqual((said.returncode, said.stdout), (0, ""), said.stderr)
        return calls.read_text().replace("_c", "").split() if calls.exists() else []

    def proofs(self):
        """The crates of each proof so far."""
        calls = self.room / "proofs"
        return calls.read_text().splitlines() if calls.exists() else []

    def record(self):
        return (self.folder / "PROVENANCE").read_text().splitlines()


class Made(Room):
    def test_only_what_is_missing(self):
        self.assertEqual(self.made("upper", "other"), ["upper", "other"])
        self.assertEqual(self.made("upper", "other"), [])
        (self.folder / "libupper.a").unlink()
        self.assertEqual(self.made("other", "upper"), ["upper"])
        self.assertEqual(self.proofs(), ["lower middle upper upper_c other other_c", "lower middle upper upper_c"])

    def test_over_a_copy(self):
        """What stands in crates/*/out here is not taken, and not touched."""
        self.program("home/bin/rattle", RATTLE + '[ ! -e ../lower/out/old.rt ] || exit 1\n[ ! -e ../../target ] || exit 1\n')
        self.write("crates/lower/must-fail/one.edit", "file: src/lib.rt\n")
        self.assertEqual(self.made("upper"), ["upper"])
        self.assertFalse((self.root / "crates/lower/out/rlib").exists())

    def test_copy_of_all_crates(self):
        self.write("HANDLES", "Handles allowed: none.\n")
        self.write("crates/other/stdin", "a\n")
        copy = self.room / "copy"
        said = self.run_tool(str(copy), tool="proved")
        self.assertEqual((said.returncode, said.stdout), (0, ""), said.stderr)
        names = [line.split()[0].rstrip(":") for line in CRATES.splitlines()[1:]]
        self.assertEqual(self.proofs(), [" ".join(names)])
        files = {path.relative_to(copy).as_posix() for path in copy.rglob("*") if path.is_file()}
        self.assertEqual(files, {"HANDLES", "crates.txt", "proof.log", "crates/other/stdin", *(f"crates/{name}/src/lib.rt" for name in names)})
        self.assertEqual(self.run_tool(tool="proved").returncode, 2)

    def test_over_what_was_proved_in_a_folder(self):
        said = self.run_tool("--proved", ".", "upper")
        self.assertEqual((said.returncode, self.proofs()), (1, []))
        self.assertIn("error: no library\n", said.stderr)
        (self.root / "crates/lower/out/rlib").mkdir()
        self.assertEqual(self.made("--proved", str(self.root), "upper"), ["upper"])
        self.assertEqual(self.made("--prove", "upper"), [])
        self.assertEqual(self.proofs(), [])
        self.assertEqual(self.record()[0], "# made here")

    def test_other_bytes(self):
        self.made("upper", "other")
        (self.folder / "libupper.a").write_text("a stub\n")
        self.assertEqual(self.made("upper", "other"), ["upper"])
        self.assertEqual((self.folder / "libupper.a").read_text(), "upper_c made by kit 1\n")

    def test_record(self):
        self.made("upper")
        self.made("other", "upper")
        digest = lambda name: hashlib.sha256(f"{name}_c made by kit 1\n".encode()).hexdigest()
        sources = self.run_tool("--sources").stdout.strip()
        head = ["# made here", f"# sources {sources}", "# kit kit 1"]
        self.assertEqual(self.record(), [*head, f"{digest('other')}  libother.a", f"{digest('upper')}  libupper.a"])
        self.write("crates/lower/out/old.rt", "fn older() {}\n")
        self.assertEqual(self.run_tool("--sources").stdout.strip(), sources)
        self.source.write_text("fn g() {}\n")
        self.made("upper")
        self.assertEqual(len(self.record()), 4)
        self.assertNotEqual(self.run_tool("--sources").stdout.strip(), sources)

    def test_what_was_proved_needs_no_prover(self):
        self.made("upper")
        self.assertEqual(self.run_tool("upper", path=without_rt()).returncode, 0)
        said = self.run_tool("other", path=without_rt())
        self.assertEqual((said.returncode, said.stderr), (2, "archives: rt, the Rattle kit's command, is not on the path, and dist/ is not of these sources\n"))

    def test_other_sources(self):
        for change in (
            lambda: self.source.write_text("fn g() {}\n"),
            lambda: (self.source.parent / "more.rt").write_text(""),
            lambda: self.write("crates.txt", CRATES.replace("other:", "other: lower")),
            lambda: (self.room / "kit").write_text("kit 2\n"),
        ):
            self.made("upper")
            change()
            self.assertEqual(self.made("upper"), ["upper"])
        self.write("crates/lower/must-fail/one.edit", "file: src/lib.rt\n")
        self.assertEqual(self.made("upper"), [])

    def test_what_is_said(self):
        said = self.run_tool("upper").stderr
        self.assertIn("proved: proving 4 crates\n", said)
        self.assertRegex(said, r"\nproved: \d+ s, 2 of 4 crates: middle proved\n")
        self.assertRegex(said, r"\nproved: proved \(\d+ s\)\narchives: upper: target/staticlib/libupper.a made \(\d+ s\)\n$")
        self.assertEqual(self.run_tool("upper").stderr, "")

    def test_refused(self):
        self.made("upper")
        self.source.write_text("fn g() {}\n")
        (self.room / "refuse").write_text("")
        said = self.run_tool("upper", "other")
        self.assertEqual(said.returncode, 1)
        self.assertIn("crates/lower/src/lib.rt:1:1: error: not so\n", said.stderr)
        self.assertRegex(said.stderr, r"proved: NOT PROVED \(\d+ s\)\narchives: NOT PROVED \(target/staticlib/proof.log has all that was said\)\n$")
        self.assertIn("error: not so\n", (self.folder / "proof.log").read_text())
        # what was made before does not count
        (self.room / "refuse").unlink()
        self.assertEqual(self.made("upper"), ["upper"])

    def test_rests_on_axioms(self):
        for words, status in (("axioms=0", 0), ("axioms=2", 1), ("foreign=upper::f", 1)):
            self.source.write_text(f"fn f() {{}} // {words}\n")
            (self.room / "words").write_text(words)
            said = self.run_tool("upper")
            self.assertEqual((said.returncode, (self.folder / "libupper.a").exists()), (status, status == 0), said.stderr)
        self.assertRegex(said.stderr, r"archives: upper: NOT MADE \(\d+ s; target/staticlib/upper.log has all that was said\)\n$")

    def test_changed_meanwhile(self):
        self.program("bin/rt", RT.replace("ci)", f"ci)\n    echo >>{self.source}"))
        said = self.run_tool("upper")
        self.assertEqual(said.returncode, 1)
        self.assertIn("archives: upper: NOT MADE: the sources were changed meanwhile\n", said.stderr)
        self.program("bin/rt", RT)
        self.assertEqual(self.made("upper"), ["upper"])

    def test_wrong_words(self):
        for words in ([], ["--prove"], ["--other", "upper"], ["--proved", "upper"]):
            self.assertEqual(self.run_tool(*words).returncode, 2)
        for name in ("none", "lower"):
            said = self.run_tool(name)
            self.assertEqual((said.returncode, said.stderr), (1, f"archives: {name}: crates.txt has no static library {name}_c\n"))


if __name__ == "__main__":
    unittest.main()
