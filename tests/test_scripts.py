#!/usr/bin/env python3
"""Shows ./join building its program where it has to and only there, and looking at words and grammar before anything is proved;
and .ci/lint finding what is not good.

The prover's archives, cargo and the program are stand-ins that keep a line of each call.
"""

import os
import pathlib
import shutil
import subprocess
import tempfile
import unittest

ROOT = pathlib.Path(__file__).resolve().parent.parent
# At hand where a file says so, which proving writes.
ARCHIVES = """#!/bin/sh
echo "archives $*" >>"$ROOM/calls"
mkdir -p "$ROOM/root/target/staticlib"
case " $* " in *' --at-hand '*) [ -f "$ROOM/at-hand" ] || exit 3 ;; esac
[ ! -f "$ROOM/refuse" ] || exit 1
touch "$ROOM/at-hand"
echo "of $(cat "$ROOM/sources")" >"$ROOM/root/target/staticlib/PROVENANCE"
"""
# What it makes is the program below.
CARGO = """#!/bin/sh
echo "cargo $ARCHIVES" >>"$ROOM/calls"
[ ! -f "$ROOM/broken" ] || exit 1
mkdir -p "$CARGO_TARGET_DIR/release"
cp "$ROOM/program" "$CARGO_TARGET_DIR/release/join"
"""
PROGRAM = """#!/bin/sh
echo "join $*" >>"$ROOM/calls"
case $* in *missing*) echo "join: cannot read missing" >&2; exit 3 ;; esac
echo joined
"""
# Of `cargo fmt` and `cargo clippy`: the crates of a folder are good where its manifest says so.
CARGO_LOOKS = """case "$*" in
fmt*) ! grep -q 'wrong layout' rust/Cargo.toml ;;
clippy*rust/Cargo.toml*'-D warnings') ! grep -q 'wrong$' rust/Cargo.toml ;;
clippy*harness/Cargo.toml*'-D warnings') ! grep -q 'wrong$' harness/Cargo.toml ;;
esac"""
TOOLS = ("sh", "cat", "cp", "cut", "dirname", "env", "find", "mkdir", "printf", "readlink", "rm", "sed", "sha256sum", "sort", "touch")


class Join(unittest.TestCase):
    def setUp(self):
        made = tempfile.TemporaryDirectory()
        self.addCleanup(made.cleanup)
        self.room = pathlib.Path(made.name)
        self.root, self.bin = self.room / "root", self.room / "bin"
        for folder in (self.root / "rust" / "join", self.root / "tools", self.root / ".ci", self.bin):
            folder.mkdir(parents=True)
        shutil.copy(ROOT / "join", self.root)
        (self.root / "rust" / "join" / "help.txt").write_text("usage: join\n")
        (self.root / ".ci" / "kit").write_text("kit 1\n")
        (self.room / "sources").write_text("1")
        self.write(self.root / "tools" / "archives", ARCHIVES)
        self.write(self.room / "program", PROGRAM)
        self.write(self.bin / "cargo", CARGO)
        self.write(self.bin / "rt", "#!/bin/sh\n")
        for tool in TOOLS:
            (self.bin / tool).symlink_to(shutil.which(tool))

    def write(self, path, text):
        path.write_text(text)
        path.chmod(0o755)

    def run_join(self, *words, script=None):
        """The status, what is printed, what is said, and the calls that were made."""
        calls = self.room / "calls"
        calls.unlink(missing_ok=True)
        env = {"PATH": str(self.bin), "ROOM": str(self.room)}
        done = subprocess.run([script or self.root / "join", *words], env=env, cwd="/", capture_output=True, text=True)
        lines = calls.read_text().replace(f"{self.root}/", "").splitlines() if calls.exists() else []
        return done.returncode, done.stdout, done.stderr, lines

    def test_built_once(self):
        (self.room / "at-hand").write_text("")
        asked = "archives --at-hand pass plans facts sheet convert"
        status, out, said, calls = self.run_join("g")
        self.assertEqual((status, out, calls), (0, "joined\n", [asked, "cargo target/staticlib", "join g"]))
        self.assertIn("join: building the program, which takes some seconds\n", said)
        for tool in ("cargo", "rt"):
            (self.bin / tool).unlink()
        (self.room / "link").symlink_to(self.root / "join")
        self.assertEqual(self.run_join("g", script=self.room / "link"), (0, "joined\n", "", [asked, "join g"]))

    def test_built_anew(self):
        (self.room / "at-hand").write_text("")
        for change in (
            lambda: None,
            lambda: (self.root / "rust" / "join" / "main.rs").write_text("fn main() {}\n"),
            lambda: (self.root / "rust" / "join" / "main.rs").write_text("fn main() { }\n"),
            lambda: (self.root / ".ci" / "kit").write_text("kit 2\n"),
            lambda: (self.room / "sources").write_text("2"),
            lambda: (self.root / "rust" / "target" / "release" / "join").unlink(),
        ):
            change()
            self.assertIn("cargo target/staticlib", self.run_join("g")[3])
            self.assertNotIn("cargo target/staticlib", self.run_join("g")[3])

    def test_looked_at_first(self):
        status, out, said, calls = self.run_join("missing")
        self.assertEqual((status, out, said), (3, "", "join: cannot read missing\n"))
        self.assertEqual(calls, ["archives --at-hand pass plans facts sheet convert", "cargo dist", "join --check missing"])
        status, _, said, calls = self.run_join("g")
        self.assertEqual(status, 0)
        self.assertIn("join: the pass is proved and built first, which takes minutes where little is proved yet\n", said)
        self.assertEqual(calls[2:], ["join --check g", "archives pass plans facts sheet convert", "cargo target/staticlib", "join g"])

    def test_standard_input_is_read_once(self):
        self.assertNotIn("join --check -", self.run_join("-")[3])

    def test_look_that_cannot_be_had(self):
        (self.room / "broken").write_text("")
        status, _, said, calls = self.run_join("g")
        self.assertEqual((status, calls[2]), (4, "archives pass plans facts sheet convert"))
        self.assertTrue(said.endswith("join: the program was not built\n"))

    def test_proved_where_asked(self):
        calls = self.run_join("--textbook", "--prove", "g")[3]
        self.assertEqual(calls[0], "archives --prove --at-hand pass plans facts sheet convert")
        self.assertEqual(calls[2:4], ["join --check --textbook g", "archives --prove pass plans facts sheet convert"])
        self.assertEqual(calls[-1], "join --textbook g")

    def test_not_proved(self):
        (self.room / "refuse").write_text("")
        status, out, said, _ = self.run_join("g")
        self.assertEqual((status, out), (4, ""))
        self.assertTrue(said.endswith("join: the archives of the pass were not made\n"))

    def test_tools_that_are_not_there(self):
        (self.bin / "rt").unlink()
        said = self.run_join("g")
        self.assertEqual(said[:3], (4, "", "join: rt is not on the path, and dist/ is not of the sources that stand here\n"))
        said = self.run_join("--prove", "g")
        self.assertEqual(said[:3], (4, "", "join: rt is not on the path, and the pass was not proved here\n"))
        (self.room / "at-hand").write_text("")
        (self.bin / "cargo").unlink()
        status, out, said, _ = self.run_join("g")
        self.assertEqual((status, out), (4, ""))
        self.assertIn("join: cargo is not on the path, and the program is not built of what stands here\n", said)

    def test_closed_output(self):
        words = ["sh", "-c", f'exec "{self.root}/join" g >&-']
        done = subprocess.run(words, env={"PATH": str(self.bin), "ROOM": str(self.room)}, stderr=subprocess.PIPE, text=True)
        self.assertEqual((done.returncode, done.stderr), (3, "join: cannot write to standard output: it is closed\n"))

    def test_words(self):
        self.assertEqual(self.run_join(), (3, "", "join: no grammar; ./join --help tells how it is used\n", []))
        for word in ("-h", "--help"):
            status, out, said, calls = self.run_join("g", word)
            self.assertEqual((status, said, calls), (0, "", []))
            self.assertTrue(out.startswith("usage: join\n\n./join --prove ... proves"))


class Lint(unittest.TestCase):
    """.ci/lint over a few files; what looks at them, but for Python, finds fault with a word."""

    def setUp(self):
        made = tempfile.TemporaryDirectory()
        self.addCleanup(made.cleanup)
        self.root, self.bin = pathlib.Path(made.name) / "root", pathlib.Path(made.name) / "bin"
        for folder in (self.root / ".ci", self.root / "rust", self.root / "harness", self.bin):
            folder.mkdir(parents=True)
        shutil.copy(ROOT / ".ci" / "lint", self.root / ".ci")
        self.write("script", "#!/bin/sh\n")
        self.write("file.py", "print()\n")
        for folder in ("rust", "harness"):
            self.write(f"{folder}/Cargo.toml", "# good\n")
        for name, text in (("shellcheck", '! grep -q wrong "$@"'), ("cargo", CARGO_LOOKS), ("cargo-fmt", ""), ("cargo-clippy", "")):
            (self.bin / name).write_text(f"#!/bin/sh\n{text}\n")
            (self.bin / name).chmod(0o755)

    def write(self, name, text):
        (self.root / name).write_text(text)

    def run_lint(self):
        path = f"{self.bin}:{os.environ['PATH']}"
        done = subprocess.run([self.root / ".ci" / "lint"], env={**os.environ, "PATH": path}, capture_output=True, text=True)
        return done.returncode, [line.split(": ")[1] for line in done.stdout.splitlines() if line.endswith(": NOT GOOD")]

    def test_good(self):
        self.assertEqual(self.run_lint(), (0, []))

    def test_not_good(self):
        for name, text, what in (
            ("script", "#!/bin/sh\n# wrong\n", ["shell scripts"]),
            ("file.py", "print(\n", ["Python files"]),
            ("file.py", "print('\\d')\n", ["Python files"]),
            ("rust/Cargo.toml", "# wrong layout\n", ["the layout of Rust"]),
            ("rust/Cargo.toml", "# wrong\n", ["Rust in rust/"]),
            ("harness/Cargo.toml", "# wrong\n", ["Rust in harness/"]),
        ):
            with self.subTest(name=name, text=text):
                before = (self.root / name).read_text()
                self.write(name, text)
                self.assertEqual(self.run_lint(), (1, what))
                self.write(name, before)

    def test_first_stage(self):
        """Nothing is proved where it finds fault."""
        gate = (ROOT / ".ci" / "run").read_text(encoding="utf-8")
        self.assertLess(gate.index("\nrun lint\nshow lint of_good || finish\n"), gate.index("\nlane prove\n"))


if __name__ == "__main__":
    unittest.main()
