#!/usr/bin/env python3
"""Uses a clean clone as somebody does who has cargo and a linker and no prover: `rt` is not on the path.

- `./join` prints the first joined grammar in under 30 seconds of all processors' time; what else runs here does not count.
- Once built it needs no cargo, and works by a link and from another folder.
- What cannot be had without a prover is said: `./join --prove`, `./listing`, archives whose bytes are others.
- The Rust crate is a git dependency that finds dist/ by itself, and links no other archive than the one that it names.

The last line is 'N passed, 0 failed' where nothing failed. usage: first_use.py
"""

import os
import pathlib
import resource
import shutil
import subprocess
import sys
import tempfile
import time

from compiled import ROOT, told

GRAMMAR = "examples/heat-pump.grammar"
MOST_SECONDS = 30
LONGEST_RUN = 600
STUB = b"!<arch>\n"
CARGO = """[package]
name = "caller"
edition = "2024"

[dependencies]
mutual-recursion = {{ git = "file://{clone}" }}
"""
CALLER = """use mutual_recursion::{ARCHIVES, Reading, join};

fn main() {
    let mut sheet = [0; 32];
    sheet[0] = 2;
    println!("{} {}", ARCHIVES, join(&sheet, Reading::Original).unwrap().sheet.len());
}
"""


def cloned(place):
    """The files of the repository that git would clone, and those that are not committed yet."""
    said = subprocess.run(["git", "ls-files", "-z", "--cached", "--others", "--exclude-standard"], cwd=ROOT, capture_output=True, check=True)
    for name in filter(None, said.stdout.decode().split("\0")):
        if (ROOT / name).is_symlink() or (ROOT / name).is_file():
            (place / name).parent.mkdir(parents=True, exist_ok=True)
            shutil.copy2(ROOT / name, place / name, follow_symlinks=False)


def path_without(room, *tools):
    """A path on which these tools are not: links to all else of the folders that have one."""
    folders = []
    for at, folder in enumerate(os.environ["PATH"].split(":")):
        if any(os.path.exists(os.path.join(folder, tool)) for tool in tools):
            made = room / f"bin-{'-'.join(tools)}-{at}"
            made.mkdir()
            for name in set(os.listdir(folder)) - set(tools):
                (made / name).symlink_to(os.path.join(os.path.realpath(folder), name))
            folder = str(made)
        folders.append(folder)
    return ":".join(folders)


class Clone:
    """A clone in a folder of its own, and how a word is called there."""

    def __init__(self, room):
        self.room, self.place = room, room / "a clone"
        cloned(self.place)
        self.no_rt, self.neither = path_without(room, "rt"), path_without(room, "rt", "cargo")

    def run(self, *words, path=None, cwd=None):
        own = {name: value for name, value in os.environ.items() if not name.startswith("CARGO") and name != "ARCHIVES"}
        env = {**own, "PATH": path or self.no_rt, "CARGO_HOME": str(self.room / "cargo-home")}
        done = subprocess.run([str(word) for word in words], cwd=cwd or self.place, env=env, capture_output=True, timeout=LONGEST_RUN)
        return done.returncode, done.stdout.decode(), done.stderr.decode()


def rules(text):
    return [line for line in text.splitlines() if not line.startswith("//")]


def spent():
    """The seconds of all processors that ended children took."""
    used = resource.getrusage(resource.RUSAGE_CHILDREN)
    return used.ru_utime + used.ru_stime


def of_join(clone):
    """The program, from nothing and after that."""
    expected = rules((ROOT / "examples" / "heat-pump.joined").read_text(encoding="utf-8"))
    began, before = time.monotonic(), spent()
    status, out, err = clone.run("./join", GRAMMAR)
    took = spent() - before
    print(f"first_use: the first joined grammar took {time.monotonic() - began:.0f} s, and {took:.0f} s of all processors")
    yield f"the first grammar is joined: {status} {err}", status == 0 and rules(out) == expected
    yield "it says that nothing was proved here", "join: building the program" in err and "not proved on this machine" in err
    yield f"it takes under {MOST_SECONDS} s", took < MOST_SECONDS
    (clone.room / "link").symlink_to(clone.place / "join")
    (clone.room / "again").symlink_to("link")
    status, out, err = clone.run(clone.room / "again", clone.place / GRAMMAR, path=clone.neither, cwd="/")
    yield f"built, it needs no cargo: {status} {err}", (status, err, rules(out)) == (0, "", expected)
    for words in (["-h"], ["--help"]):
        status, out, err = clone.run("./join", *words)
        yield f"{words}: {status}", (status, err) == (0, "") and "usage: join" in out and "./join --prove" in out
    status, _, err = clone.run("./join")
    yield "no words", (status, err) == (3, "join: no grammar; ./join --help tells how it is used\n")


def of_provers(clone):
    """What cannot be had without a prover."""
    status, out, err = clone.run("./listing", "examples/case-1.sheet")
    yield f"./listing says what it needs: {status} {err}", (status, out) == (4, "") and "./join --listing needs no rt" in err
    status, out, err = clone.run("./join", "--prove", GRAMMAR)
    yield f"./join --prove says what it needs: {status} {err}", (status, out) == (4, "") and "rt is not on the path" in err
    source = clone.place / "crates" / "pass" / "src" / "lib.rt"
    text = source.read_text(encoding="utf-8")
    source.write_text("// another text\n" + text, encoding="utf-8")
    status, out, err = clone.run("./join", GRAMMAR)
    yield f"other sources: {status} {err}", (status, out) == (4, "") and "dist/ is not of the sources that stand here" in err
    source.write_text(text, encoding="utf-8")
    yield "the same sources again", clone.run("./join", GRAMMAR)[0] == 0


def of_stubs(clone):
    """An archive in place of another is not linked."""
    (clone.place / "target" / "staticlib" / "libpass.a").write_bytes(STUB)
    status, out, err = clone.run("./join", GRAMMAR)
    yield f"a stub at hand is replaced: {status} {err}", status == 0 and "taken from dist/" in err
    shutil.rmtree(clone.place / "target")
    archive = clone.place / "dist" / "libpass.a"
    kept = archive.read_bytes()
    archive.write_bytes(STUB)
    status, out, err = clone.run("./join", GRAMMAR)
    yield f"a stub in dist/ is not taken: {status} {err}", (status, out) == (4, "")
    status, out, err = clone.run("cargo", "build", "--offline", "--release", "--manifest-path", "rust/Cargo.toml", "-p", "mutual-recursion")
    yield "nor linked by the Rust crate", status != 0 and "libpass.a is not the archive that" in err
    archive.write_bytes(kept)


def of_callers(clone):
    """A crate that has the Rust crate from the clone's repository."""
    for words in (["init", "-q"], ["add", "-A"], ["-c", "user.name=a", "-c", "user.email=a@example.org", "commit", "-q", "-m", "all"]):
        status, _, err = clone.run("git", *words)
        yield f"git {words[-1]} {err}", status == 0
    caller = clone.room / "caller"
    (caller / "src").mkdir(parents=True)
    (caller / "Cargo.toml").write_text(CARGO.format(clone=str(clone.place).replace(" ", "%20")))
    (caller / "src" / "main.rs").write_text(CALLER)
    status, out, err = clone.run("cargo", "run", "--quiet", cwd=caller)
    kit = (ROOT / "dist" / "DIGESTS").read_text(encoding="utf-8").split("# kit ")[1].split("\n")[0]
    expected = f"built from these sources by {kit}, proved by the gate; not proved on this machine 32\n"
    yield f"a git dependency: {status} {out} {err}", (status, out) == (0, expected)


def main():
    with tempfile.TemporaryDirectory() as made:
        clone = Clone(pathlib.Path(made))
        return told("first_use", (check for part in (of_join, of_provers, of_stubs, of_callers) for check in part(clone)))


if __name__ == "__main__":
    sys.exit(main())
