#!/usr/bin/env python3
"""Shows lines.py passing files at the limits and failing on those beyond."""

import pathlib
import tempfile
import unittest

import lines

CODE = """pub fn f(x: u32) -> u32
    requires {{ {} }}
    ensures named {{ F
        {}
    }}
{{
    {}
}}
"""
GHOSTS = """ghost use Rattle.{{x}};
pub trait T {{
    ghost A: {{ x }} = {{ F
        {} }};
    fn f(&self);
}}
pub struct S {{
    n: u32,
    ghost room: {{ {} }},
}}
"""


class Lines(unittest.TestCase):
    def breaches(self, name, text):
        with tempfile.TemporaryDirectory() as made:
            path = pathlib.Path(made) / name
            path.parent.mkdir(parents=True)
            path.write_text(text, encoding="utf-8")
            return list(lines.breaches(pathlib.Path(made)))

    def test_long_files(self):
        for name in ("crates/a/specs/A.antt", "crates/a/proofs/f/Answers.antt", "crates/a/src/lib.rt", "tests/a.py", ".ci/run"):
            self.assertEqual(self.breaches(name, "\n" * 300), [])
            self.assertEqual(self.breaches(name, "\n" * 301), [f"{name}: 301 lines"])

    def test_wide_lines_of_specs(self):
        self.assertEqual(self.breaches("crates/a/specs/b/A.antt", "-- a\n" + "≡" * 140 + "\n"), [])
        self.assertEqual(self.breaches("crates/a/specs/b/A.antt", "-- a\n" + "≡" * 141 + "\n"), ["crates/a/specs/b/A.antt:2: 141 columns"])

    def test_wide_lines_of_proofs(self):
        self.assertEqual(self.breaches("crates/a/proofs/f/Answers.antt", "x" * 200 + "\n"), [])

    def test_what_rt_makes(self):
        self.assertEqual(self.breaches("crates/a/out/rlib/a.rlib/A.antt", "\n" * 301), [])
        self.assertEqual(self.breaches("crates/a/specs/out/A.antt", "\n" * 301), ["crates/a/specs/out/A.antt: 301 lines"])

    def test_wide_lines_of_code(self):
        wide, name = "x" * 132, "crates/a/src/lib.rt"
        self.assertEqual(self.breaches(name, CODE.format("x", wide, wide * 2)), [])
        self.assertEqual(self.breaches(name, CODE.format(wide, "x", "x")), [f"{name}:2: 149 columns"])
        self.assertEqual(self.breaches(name, CODE.format("x", wide + "x", "x")), [f"{name}:4: 141 columns"])

    def test_wide_lines_of_ghosts(self):
        wide, name = "x" * 127, "crates/a/src/lib.rt"
        self.assertEqual(self.breaches(name, GHOSTS.format(wide, "x")), [])
        self.assertEqual(self.breaches(name, GHOSTS.format(wide * 2, "x")), [f"{name}:4: 265 columns"])
        self.assertEqual(self.breaches(name, GHOSTS.format("x", wide)), [f"{name}:9: 148 columns"])


if __name__ == "__main__":
    unittest.main()
