"""ANTLR's tool, and the parsers that it generates, by way of Judge.java."""

import os
import pathlib
import re
import shutil
import subprocess

import g4

JARS = [f"/usr/share/java/{name}.jar" for name in ("stringtemplate4", "antlr4", "antlr4-runtime", "antlr3-runtime", "treelayout")]
LONGEST_RUN = 120
CYCLES = 119
# A rule that begins with itself is not asked by itself: where nothing stands behind it, the parser does not see the phrase's end.
WHOLE = "whole_phrase"


class Absent(Exception):
    """What is needed and not there."""


def run(*words, given=None):
    """What a program prints."""
    done = subprocess.run(list(map(str, words)), input=given, capture_output=True, timeout=LONGEST_RUN)
    if done.returncode != 0:
        raise RuntimeError(f"{words}: status {done.returncode}: {done.stderr.decode()}")
    return done.stdout


def class_path():
    """Of the tool; Debian's, if the variable ANTLR names no other."""
    jars = os.environ.get("ANTLR") or ":".join(JARS)
    missing = [jar for jar in jars.split(":") if not os.path.exists(jar)]
    missing += [program for program in ("java", "javac") if shutil.which(program) is None]
    if missing:
        raise Absent(f"not there: {', '.join(missing)} (Debian: apt-get install antlr4 default-jdk-headless)")
    return jars


class Tool:
    """One process that is asked about one grammar after the other; what is made lies in a folder of its own."""

    def __init__(self, made):
        self.made, self.path, self.asked, self.generated = made, f"{made}:{class_path()}", 0, None
        shutil.rmtree(made, ignore_errors=True)
        (made / "asked").mkdir(parents=True)
        run("javac", "-cp", self.path, "-d", made, pathlib.Path(__file__).with_name("Judge.java"))
        words = ["java", "-cp", self.path, "Judge", "tool"]
        self.process = subprocess.Popen(words, stdin=subprocess.PIPE, stdout=subprocess.PIPE, text=True)
        self.version = self.line()

    def line(self):
        line = self.process.stdout.readline()
        if not line:
            raise RuntimeError(f"the tool ended at grammar {self.asked}")
        return line.strip()

    def errors(self, rules):
        """What the tool has against a grammar: of each error its number and its text."""
        self.asked += 1
        file = self.made / "asked" / f"G{self.asked}.g4"
        file.write_text(g4.written(file.stem, rules), encoding="utf-8")
        self.process.stdin.write(f"{file}\n")
        self.process.stdin.flush()
        return [error_of(line) for line in iter(self.line, ".")]

    def grouped(self, rules, words, rule, phrase):
        """How the generated parser groups a phrase. Phrases of one grammar that follow each other share the parser."""
        folder = self.made / "parser"
        text = f"{g4.written('Phrase', rules, words)}{WHOLE}: {rule} EOF;\n"
        if text != self.generated:
            shutil.rmtree(folder, ignore_errors=True)
            folder.mkdir()
            (folder / "Phrase.g4").write_text(text, encoding="utf-8")
            run("java", "-cp", self.path, "org.antlr.v4.Tool", "-o", folder, folder / "Phrase.g4")
            run("javac", "-cp", self.path, "-d", folder, *folder.glob("*.java"))
            self.generated = text
        return run("java", "-cp", f"{folder}:{self.path}", "Judge", "phrase", "Phrase", WHOLE, phrase).decode().strip()

    def end(self):
        self.process.stdin.close()
        self.process.wait()


def error_of(line):
    found = re.match(r"error\((\d+)\): (.*)", line)
    if not found:
        raise RuntimeError(f"the tool says {line!r}")
    return int(found[1]), found[2]


def reported(errors):
    """The sets of rules that are told to be mutually left-recursive. The tool tells a long cycle in several that overlap; those are one."""
    found = []
    for text in (text for number, text in errors if number == CYCLES):
        for part in re.findall(r"\[([^]]*)\]", text):
            names = set(part.split(", "))
            overlapping = [other for other in found if other & names]
            found = [other for other in found if not other & names] + [names.union(*overlapping)]
    return found
