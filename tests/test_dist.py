#!/usr/bin/env python3
"""Shows dist/ taken by tools/archives, written by tools/dist, and held to what is proved."""

import hashlib
import shutil
import subprocess
import unittest

from test_archives import SHIPPED, Room, without_rt


class Shipped(Room):
    """dist/, made by kit 1 of the sources as they stand."""

    def setUp(self):
        super().setUp()
        self.dist = self.root / "dist"
        self.assertEqual(self.run_tool(tool="dist").returncode, 0)
        shutil.rmtree(self.folder)

    def test_written(self):
        lines = (self.dist / "DIGESTS").read_text().splitlines()
        self.assertEqual([line.split()[-1] for line in lines[2:]], [f"lib{name}.a" for name in SHIPPED])
        self.assertEqual(lines[:2], [f"# sources {self.run_tool('--sources').stdout.strip()}", "# kit kit 1"])
        self.assertEqual(subprocess.run(["sha256sum", "--check", "--strict", "--status", "DIGESTS"], cwd=self.dist).returncode, 0)

    def test_taken(self):
        for path in (None, without_rt()):
            said = self.run_tool(*SHIPPED, path=path)
            self.assertEqual(said.returncode, 0)
            self.assertIn("taken from dist/, which was made of these sources by kit 1; not proved on this machine\n", said.stderr)
            self.assertEqual(self.record(), ["# made dist", *(self.dist / "DIGESTS").read_text().splitlines()])
            for name in SHIPPED:
                self.assertEqual((self.folder / f"lib{name}.a").read_text(), f"{name}_c made by kit 1\n")
            said = self.run_tool(*SHIPPED, path=path)
            self.assertEqual((said.returncode, said.stderr), (0, ""))
            shutil.rmtree(self.folder)
        # a newer kit takes it too
        (self.room / "kit").write_text("kit 2\n")
        self.assertEqual(self.made(*SHIPPED), [])

    def test_not_taken(self):
        stub = lambda: (self.dist / "libpass.a").write_text("a stub\n")
        sources = lambda: self.source.write_text("fn g() {}\n")
        missing = lambda: (self.dist / "DIGESTS").unlink()
        for change in (stub, sources, missing):
            change()
            said = self.run_tool("--at-hand", *SHIPPED)
            self.assertEqual((said.returncode, said.stderr), (3, ""))
            self.assertEqual(self.made(*SHIPPED), SHIPPED)
            self.assertEqual(self.record()[0], "# made here")
            shutil.rmtree(self.folder)
            self.run_tool(tool="dist")
            shutil.rmtree(self.folder)

    def test_proved_where_asked(self):
        self.assertEqual(self.made(*SHIPPED), [])
        self.assertEqual(self.made("--prove", *SHIPPED), SHIPPED)
        self.assertEqual(self.made("--prove", *SHIPPED), [])
        self.assertEqual(self.made(*SHIPPED), [])
        self.assertEqual(self.record()[0], "# made here")

    def test_both_do_not_mix(self):
        self.made("pass")
        self.assertEqual(self.record()[0], "# made dist")
        self.assertEqual(self.made("pass", "upper"), ["pass", "upper"])
        self.assertEqual(self.record()[0], "# made here")
        self.assertEqual(self.made("pass", "facts"), [])
        self.assertEqual(self.record()[0], "# made dist")

    def held(self):
        said = self.run_tool("--check", tool="dist")
        return said.returncode, said.stdout

    def test_held(self):
        self.assertEqual(self.held(), (0, "dist: byte for byte what kit 1 makes of the proved crates\n"))

    def test_not_held(self):
        for change, what in (
            (lambda: self.source.write_text("fn g() {}\n"), "DIGESTS is of other sources than crates/ and crates.txt"),
            (lambda: (self.dist / "libpass.a").write_text("a stub\n"), "an archive is not the one that DIGESTS names"),
            (lambda: self.forge("libpass.a", "a stub\n"), "libpass.a is not what kit 1 makes of the proved crates"),
            (lambda: (self.dist / "libplans.a").unlink(), "an archive is not the one that DIGESTS names"),
            (lambda: self.write_behind("DIGESTS", "# more\n"), "DIGESTS has other lines than it should have"),
        ):
            with self.subTest(what=what):
                change()
                self.assertEqual(self.held(), (1, f"dist: NOT UP TO DATE: {what}\ndist: tools/dist brings it up to date\n"))
                self.assertEqual(self.run_tool(tool="dist").returncode, 0)
                self.assertEqual(self.held()[0], 0)

    def write_behind(self, name, text):
        with open(self.dist / name, "a", encoding="utf-8") as file:
            file.write(text)

    def forge(self, name, text):
        """Another archive, with its digest in place of the right one."""
        digest = hashlib.sha256(text.encode()).hexdigest()
        (self.dist / name).write_text(text)
        lines = (self.dist / "DIGESTS").read_text().splitlines()
        lines = [f"{digest}  {name}" if line.endswith(f"  {name}") else line for line in lines]
        (self.dist / "DIGESTS").write_text("\n".join(lines) + "\n")

    def test_another_kit(self):
        (self.room / "kit").write_text("kit 2\n")
        compared = self.root / "tests" / "alike.py"
        for status, last in ((0, ""), (1, "dist: NOT UP TO DATE: it answers otherwise than what is proved here\ndist: tools/dist brings it up to date\n")):
            compared.write_text(f"import sys\nprint('alike', *sys.argv[1:])\nsys.exit({status})\n")
            said = "dist: made by kit 1, and here is kit 2: answers are compared, and not bytes\nalike dist target/staticlib\n"
            self.assertEqual(self.held(), (status, said + last))


if __name__ == "__main__":
    unittest.main()
