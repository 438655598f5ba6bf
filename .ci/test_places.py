#!/usr/bin/env python3
"""Shows places.py passing a good definition and failing on each kind of breach."""

import pathlib
import subprocess
import sys
import tempfile
import unittest

import places

HERE = pathlib.Path(__file__).resolve().parent

ORIGINAL = """pub(crate) fn outer(x: u32) -> bool {
    fn inner(x: u32) -> bool {
        x == 0
    }
    inner(x)
}

const fn last(x: u32) -> u32 {
    x
}

#[cfg(test)]
mod tests {
    fn helper() {}
}
"""

SPECIFICATION = """# Specification

Cited as "SPECIFICATION 4.7".

## 3. A call

**3.1** One.

## 4. Refusals

**4.7** Two.
**4.8*** Three, starred.
"""

GOOD = """-- What is asked of a number.
-- outer, l. 1, with
-- inner, l. 2 to 4.
unfoldable pub outer : ℕ → Bool
outer x = x == 0

infixl 20 _after_
-- What stands in l. 9 of last.
abbrev pub _after_ : ℕ → ℕ → ℕ
x after y = x

module _ (x : ℕ) where
  abbrev pub same : ℕ  -- SPECIFICATION 3.1.
  same = x
"""


class Places(unittest.TestCase):
    def check(self, definition=GOOD, other=""):
        """What the check says of a definition in one file, with another file beside it, and its exit status."""
        with tempfile.TemporaryDirectory() as made:
            root = pathlib.Path(made)
            for file in places.FILES:
                path = root / places.DEFINITION / f"{file}.antt"
                path.parent.mkdir(parents=True, exist_ok=True)
                path.write_text(definition if file == "Plan" else "")
            path = root / places.ORIGINAL
            path.parent.mkdir(parents=True)
            path.write_text(ORIGINAL)
            for name, text in ((places.SPECIFICATION, SPECIFICATION), ("tests/other.py", other)):
                path = root / name
                path.parent.mkdir()
                path.write_text(text)
            ran = subprocess.run([sys.executable, HERE / "places.py", root], capture_output=True, text=True)
            return ran.returncode, ran.stdout

    def refused(self, expected, *args, **kwargs):
        status, said = self.check(*args, **kwargs)
        self.assertEqual(status, 1, said)
        self.assertIn(expected, said)

    def test_good(self):
        self.assertEqual(self.check()[0], 0, self.check()[1])

    def test_no_comment(self):
        self.refused("Plan.antt:13: same has no place", GOOD.replace("  -- SPECIFICATION 3.1.", ""))

    def test_comment_without_a_place(self):
        self.refused("Plan.antt:13: same has no place", GOOD.replace("SPECIFICATION 3.1.", "The number."))

    def test_wrong_line(self):
        self.refused("Plan.antt:1: outer is not in lines 7 to 7", GOOD.replace("outer, l. 1,", "outer, l. 7,"))

    def test_wrong_last_line(self):
        self.refused("Plan.antt:1: inner is not in lines 2 to 5", GOOD.replace("2 to 4", "2 to 5"))

    def test_wrong_line_in_front_of_the_name(self):
        self.refused("Plan.antt:8: last is not in lines 5 to 5", GOOD.replace("l. 9 of", "l. 5 of"))

    def test_function_named_nowhere(self):
        self.refused("inner is named nowhere", GOOD.replace("inner, l. 2 to 4", "nothing else"))

    def test_citations(self):
        for cited in ("SPECIFICATION 4.7", "SPECIFICATION 4.8, 3.1 and 4", "SPECIFICATION\n# 3.1 to 4.7.", "SPECIFICATION says"):
            self.assertEqual(self.check(other=f"# {cited}\n")[0], 0, cited)

    def test_no_such_paragraph(self):
        self.refused("tests/other.py:2: SPECIFICATION has no 4.6", other="\n# SPECIFICATION 4.6\n")
        self.refused("Plan.antt:13: SPECIFICATION has no 3.11", GOOD.replace("3.1.", "3.11."))

    def test_another_document(self):
        name = "Document " + "01"
        self.refused(f"tests/other.py:2: {name} is not in the repository", other=f"#\n# {name}, as it says.\n")

    def test_no_such_section(self):
        self.refused("tests/other.py:1: SPECIFICATION has no 5", other="# SPECIFICATION 3.1, 4 and 5\n")

    def test_no_such_paragraph_behind_others(self):
        self.refused("tests/other.py:1: SPECIFICATION has no 4.9", other="# SPECIFICATION 3.1 and 4.7 to 4.9\n")


if __name__ == "__main__":
    unittest.main()
