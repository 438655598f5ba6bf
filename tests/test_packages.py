#!/usr/bin/env python3
"""Shows that the Rust crates have what callers look for: licence, readme, tested examples, and a text for every public item."""

import pathlib
import re
import tomllib
import unittest

ROOT = pathlib.Path(__file__).resolve().parent.parent
RUST = ROOT / "rust"


def manifest(folder):
    return tomllib.loads((folder / "Cargo.toml").read_text(encoding="utf-8"))


class Packages(unittest.TestCase):
    def test_fields(self):
        workspace = manifest(RUST)["workspace"]
        self.assertEqual(workspace["package"]["license"], "BSD-3-Clause")
        self.assertIn("BSD", (ROOT / "NOTICE").read_text(encoding="utf-8"))
        package = manifest(RUST / "mutual-recursion")["package"]
        for field in ("license", "version", "edition", "rust-version"):
            self.assertEqual(package[field], {"workspace": True})
        self.assertTrue(package["description"])
        self.assertTrue((RUST / "mutual-recursion" / package["readme"]).is_file())

    def test_every_item_has_a_text(self):
        """What has none is a warning, which .ci/lint takes for an error."""
        self.assertRegex((RUST / "mutual-recursion/src/lib.rs").read_text(encoding="utf-8"), r"(?m)^#!\[(warn|deny)\(missing_docs\)\]$")
        self.assertRegex((ROOT / ".ci/lint").read_text(encoding="utf-8"), r"cargo clippy .*-D warnings\n")

    def test_examples(self):
        """Each is tested, and the crate's page names it."""
        crate = RUST / "mutual-recursion"
        tested = {own["name"] for own in manifest(crate)["example"] if own["test"]}
        page = (crate / "README.md").read_text(encoding="utf-8")
        self.assertEqual(tested, {"text", "origins", "borrowed"})
        self.assertEqual({file.stem for file in (crate / "examples").glob("*.rs")}, tested)
        self.assertEqual(set(re.findall(r"cargo run --example (\w+)", page)), tested)
        for name in tested:
            self.assertIn("#[test]", (crate / "examples" / f"{name}.rs").read_text(encoding="utf-8"))


if __name__ == "__main__":
    unittest.main()
