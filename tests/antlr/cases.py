"""The grammars that are judged, each before the pass and after it."""

import itertools
import os
import pathlib
import re
import subprocess

import notation
from grow import Grower
from tool import Absent, run

ROOT = pathlib.Path(__file__).resolve().parent.parent.parent
EXAMPLES = ROOT / "examples"
READINGS = {"original": [], "textbook": ["--textbook"]}
REFUSED = 1
SEED = 1
# Profiles about refusals: large sheets, and bytes that are no sheet.
NO_GRAMMARS = ("near-7", "near-8", "near-9", "just-9", "damaged")


class Case:
    """A grammar before the pass; of each reading the grammar after it, and the rules that were joined."""

    def __init__(self, name, text, answers):
        self.name, self.before = name, notation.read(text)
        self.after = {reading: notation.read(answer) for reading, answer in answers.items()}
        self.joined = {reading: joined_rules(answer) for reading, answer in answers.items()}


def joined_rules(answer):
    """Those that the head of what `join` prints names."""
    names = re.search(r"^// joined: (.*)$", answer.replace("\n//   ", " "), re.M)[1]
    return [] if names == "none" else notation.NUMBERED.sub(r"\1_\2", names).split(", ")


class Programs:
    """`join`, which is built where none is named, and the harness's `sheets`."""

    def __init__(self, join, made):
        self.join, self.sheets, self.made = join, ROOT / "harness/target/release/sheets", made
        if join is None:
            self.join = ROOT / "rust/target/release/join"
            build("./join", "examples/case-1.sheet")
        target = {"CARGO_HOME": str(ROOT / "harness/target/cargo-home"), "CARGO_TARGET_DIR": str(ROOT / "harness/target")}
        build(*"cargo build --quiet --offline --release --manifest-path harness/Cargo.toml -p sheets".split(), **target)

    def joined(self, file, *options):
        """What `join` prints; nothing where it refuses the sheet."""
        done = subprocess.run([self.join, *options, file], capture_output=True, check=False)
        if done.returncode not in (0, REFUSED):
            raise RuntimeError(f"join {file}: {done.stderr.decode()}")
        return done.stdout.decode() if done.returncode == 0 else None

    def case(self, name, file):
        """Of a text or a sheet; nothing where it is refused."""
        text = file.read_bytes()
        if file.suffix == ".sheet":
            text = run(self.sheets, "plain", given=text)
        answers = {reading: self.joined(file, *options) for reading, options in READINGS.items()}
        return None if None in answers.values() else Case(name, text.decode(), answers)

    def examples(self):
        for file in sorted(file for file in EXAMPLES.iterdir() if file.suffix in (".grammar", ".sheet")):
            yield self.case(file.name, file)

    def generated(self):
        """Sheets of the harness and small grammars, in turn, in which something is joined."""
        for pair in zip(self.with_joins(self.harness_sheets()), self.with_joins(self.small_grammars())):
            yield from pair

    def with_joins(self, files):
        for name, file in files:
            case = self.case(name, file)
            if case is not None and any(case.joined.values()):
                yield case

    def harness_sheets(self):
        """All profiles in turn, for each seed."""
        profiles = [name for name in run(self.sheets, "profiles").decode().split() if name not in NO_GRAMMARS]
        file = self.made / "generated.sheet"
        for seed in itertools.count():
            for profile in profiles:
                file.write_bytes(run(self.sheets, "generate", profile, seed))
                yield f"{profile} {seed}", file

    def small_grammars(self):
        grower, file = Grower(SEED), self.made / "generated.grammar"
        for number in itertools.count(1):
            file.write_text(grower.grammar(), encoding="utf-8")
            yield f"small grammar {number}", file


def build(*words, **variables):
    done = subprocess.run(words, cwd=ROOT, env={**os.environ, **variables}, stdout=subprocess.DEVNULL, check=False)
    if done.returncode != 0:
        raise Absent(f"not built: {' '.join(words)}")
