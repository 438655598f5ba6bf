"""The records in which what is promised stands: their fields, each with what it supposes and what it then says."""

import re

from clauses import BOTH, bare, fails, group_end, marked, split

# The records, and the modules that declare them: all that the entries' contracts and `theorems` say is in them.
RECORDS = {
    "Theorems": "crates/laws/specs/Demands/Theorems.antt",
    "Demand3": "crates/laws/specs/Demands/Run.antt",
    "Kept": "crates/laws/specs/Demands/Kept.antt",
    "KeptRust": "crates/laws/specs/Demands/Kept.antt",
    "BoughtRust": "crates/laws/specs/Demands/Kept.antt",
    "BoughtTextbook": "crates/laws/specs/Demands/Kept.antt",
    "EveryCall": "crates/laws/specs/Demands/Kept.antt",
    "Handed": "crates/pass/specs/Handed.antt",
    "HandedOver": "crates/pass/specs/Handed.antt",
}
# The record of cases that meet what the others suppose, and what is written there in other words.
MET, MET_FILE = "Met", "crates/laws/specs/Demands/Met.antt"
OTHERWISE = {
    "Memᴰ q (rules_of stages)": "Memᴰ q (rules_of s stages)",
    "front ++ (t ∷ (middle ++ rest)) ≡ kept.stages": "front ++ (t ∷ (middle ++ rest)) ≡ stages",
    "o.number ≡ 0": "(outcome limits c bs result trail work).number ≡ 0",
    "3 ≤ o.number": "3 ≤ (outcome limits c bs result trail work).number",
}
RECORD = re.compile(r"\s*(?:pub )?record (\S+)\s[^=]*?\bwhere\b", re.S)


def blocks(text):
    """Each run of lines that starts with a line and goes on with those further in, as text."""
    lines = [re.sub(r"(^|\s)--.*", "", line) for line in text.split("\n")]
    depths = [len(line) - len(line.lstrip()) if line.strip() else None for line in lines]
    for start, depth in enumerate(depths):
        if depth is None:
            continue
        end = start + 1
        while end < len(lines) and (depths[end] is None or depths[end] > depth):
            end += 1
        yield "\n".join(lines[start:end])


def indent(line):
    return len(line) - len(line.lstrip())


def fields(block):
    """The fields of a record, from the text behind its `where`: their names, each with the words of its type."""
    depth = min((indent(line) for line in block.split("\n") if line.strip()), default=0)
    found = {}
    for inner in blocks(block):
        words = [word for word in marked(inner) if word != "pub"]
        if indent(inner) == depth and ":" in words:
            at = words.index(":")
            found.update({name: words[at + 1 :] for name in words[:at]})
    return found


def records(text):
    """The records of a file, by their names, with their fields."""
    heads = [(RECORD.match(block), block) for block in blocks(text)]
    return {head[1]: fields(block[head.end() :]) for head, block in heads if head}


def is_binder(words):
    """Whether some words bind names alone, as `(c : Corners) (s : Sheet)` does."""
    at = 0
    while at < len(words):
        end = group_end(words, at)
        inner = words[at + 1 : end - 1]
        if words[at] not in "({" or ":" not in inner or any(word in "({" for word in inner[: inner.index(":")]):
            return False
        at = end
    return True


def suppositions(words):
    """What a statement supposes, in its order; names that it binds are none."""
    return [piece for piece in split(words, {"→"})[:-1] if not is_binder(piece)]


def shown(words):
    """A statement without the names that it binds, on one line."""
    pieces = [*suppositions(words), split(words, {"→"})[-1]]
    text = " → ".join(" ".join(piece) for piece in pieces)
    return re.sub(r"(?<=[({]) | (?=[)}.,])", "", text)


def fields_of(root, record, file):
    """The fields of a record in a file; none where the file is not there."""
    text = (root / file).read_text(encoding="utf-8") if (root / file).is_file() else ""
    return records(text).get(record, {})


def listed(root):
    """The lines of the stored list, as the records have them now."""
    lines = []
    for record, file in [*RECORDS.items(), (MET, MET_FILE)]:
        lines.append(f"{record}, {file}")
        lines += [f"  {name} : {shown(words)}" for name, words in fields_of(root, record, file).items()]
    return lines


def supposed(root):
    """Each field of the records with each thing that it supposes."""
    for record, file in RECORDS.items():
        for name, words in fields_of(root, record, file).items():
            for supposition in suppositions(words):
                yield file, f"{record}.{name}", supposition


def unmet(root):
    """The fields that suppose something of which the record of cases has no case, where there is that record."""
    cases = [split(words, {"×"}) for words in fields_of(root, MET, MET_FILE).values()]
    met = {shown(bare(part)) for parts in cases for part in parts}
    for file, name, supposition in supposed(root) if cases else ():
        text = shown(bare(supposition))
        if OTHERWISE.get(text, text) not in met:
            yield f"{file}: {name} supposes what {MET} has no case of: {text}"


class Meanings:
    """What names stand for in some files: the clauses of what is defined, and the fields of records."""

    def __init__(self, texts):
        self.clauses, self.records, self.judged = {}, {}, {}
        for text in texts:
            self.records.update(records(text))
            for block in blocks(text):
                words = marked(block)
                if "=" in words and ":" not in words[: words.index("=")]:
                    self.clauses.setdefault(words[0], []).append(words[words.index("=") + 1 :])

    def cannot_be(self, words):
        """Whether words fail by their form, or by that of what a name in them stands for."""
        words = bare(words)
        return not words or fails(words) or any(self.stands_for_nothing((bare(part) or [""])[0]) for part in split(words, BOTH))

    def stands_for_nothing(self, name):
        """Whether a name stands for what cannot be: in all its clauses, or in a field of its record."""
        if name not in self.judged:
            self.judged[name] = False
            clauses = [self.cannot_be(clause) for clause in self.clauses.get(name, [])]
            kinds = [self.cannot_be(kind) for kind in self.records.get(name, {}).values()]
            self.judged[name] = (bool(clauses) and all(clauses)) or any(kinds)
        return self.judged[name]
