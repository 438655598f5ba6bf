"""A small repository for tests of contracts.py, good at first; each test spoils one thing."""

import pathlib
import subprocess
import sys
import tempfile
import unittest

HERE = pathlib.Path(__file__).resolve().parent

LIB = """// A library's root.
#![tactic(auto)]

mod inner;

ghost use Rattle.std.specs.Prelude.{◌≡◌, suc, ◌+◌};

pub fn twice(x: u32) -> u64
    ensures { result ≡ x + x }
{
    inner::sum(x, x)
}

#[unsafe(no_mangle)]
pub extern "C" fn tree_at(table: &[u8; 4], x: u8) -> [u8; 2]
    // requires { nothing: a comment }
    ensures* named { ⌜ f {n = 2} result ≡ "}" ⌝ -- a } in a comment
    }
{
    [b'}', b'{']
}

impl Counter {
    pub fn next(self) -> Counter
        ensures { result.n ≡ suc self.n }
    {
        Counter { n: self.n + 1 }
    }
}

fn private(x: u32) -> u32
    requires { x < 4 }
{
    x
}
"""
INNER = """pub fn sum(x: u32, y: u32) -> u64
    requires { x ≤ y }
    ensures { result ≡ x + y }
{
    x as u64 + y as u64
}
"""
SPEC = """use Rattle.std.specs.Prelude.{ℕ}
-- why not? an axiom ? no
{- ? {- axiom -} ?h -}
abbrev pub even? : ℕ → ℕ
even? n? = n?

axioms : String
axioms = "is it ? an axiom"
"""
# What `rt ci` says of a crate that it proves, of its tests, and of one that an earlier run proved.
LOG = "target/log/ci"
TRUSTED = "native=nat,char,string logic-built=trusted libraries-built=trusted statements=trusted"
LINE = f"logic=proved functions=5 sum=0 {TRUSTED}"


def proved(crate, line=LINE):
    return f"== {crate}\nfn {crate}::twice: proved\n{line}\nrt: {crate} proved\n== {crate}: its tests\nlogic=proved tests=1\n"


def kept(crate):
    return f"rt: {crate} is kept: an earlier run on this machine proved the same files over the same libraries\n"


class Tree(unittest.TestCase):
    """The repository of one test, and what the check says of it."""

    def setUp(self):
        self.folder = tempfile.TemporaryDirectory(prefix="contracts-")
        self.addCleanup(self.folder.cleanup)
        self.root = pathlib.Path(self.folder.name)
        self.write("crates/tree/src/lib.rt", LIB)
        self.write("crates/tree/src/inner.rt", INNER)
        self.write("crates/tree/specs/Spec.antt", SPEC)
        self.write("crates/tree/proofs/twice/Answers.antt", "t = search rules\n")
        self.write("crates/tree/out/rlib/tree.rlib/Other.antt", "axiom other : ℕ\n")
        self.write("crates/show/src/main.rt", "pub fn bare() {}\nfn main(rt: HostRuntime) {}\n")
        self.write("crates.txt", "tree:\nshow: tree regex\n")
        self.say(proved("show", LINE.replace("sum", "axioms=2 sum")), proved("tree"))

    def write(self, name, text):
        file = self.root / name
        file.parent.mkdir(parents=True, exist_ok=True)
        file.write_text(text, encoding="utf-8")

    def say(self, *parts):
        """Has `rt ci` have said this."""
        self.write(LOG, "".join(parts) + "rt: ok\n2 passed, 0 failed\n")

    def edit(self, name, old, new):
        text = (self.root / name).read_text(encoding="utf-8")
        self.assertIn(old, text)
        self.write(name, text.replace(old, new))

    def check(self):
        command = [sys.executable, str(HERE / "contracts.py"), str(self.root)]
        run = subprocess.run(command, capture_output=True, text=True, check=False)
        return run.returncode, run.stdout

    def assert_breach(self, *lines):
        """The check fails, and these lines are all that it complains of."""
        status, out = self.check()
        self.assertEqual(status, 1, out)
        self.assertEqual(out.splitlines()[:-1], list(lines))
