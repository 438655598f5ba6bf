"""What the C headers and the sources declare, read from their texts: numbers, texts and functions."""

import re


def flat(text):
    """A text in one line, without the stars of a comment."""
    return " ".join(re.sub(r"\n\s*\* ?", " ", text).split())


def figures(text):
    """The numbers in a text, without those of refusals and of what is cited, as 2.15."""
    plain = re.sub(r"\d+\.\d+|Refusal \d", "", text)
    return {int(figure.replace(",", "")) for figure in re.findall(r"\d[\d,]*\d|\d", plain)}


class Header:
    """A header, whose names begin with the header's own: its numbers, the lists they stand in, texts and functions."""

    def __init__(self, text):
        self.text = text
        self.values = {name: int(value) for name, value in re.findall(r"#define (\w+) (\d+)", text)}
        self.enums = {enum: self.enumerators(body) for enum, body in re.findall(r"enum (\w+) \{(.*?)\};", text, re.S)}
        cases = re.findall(r'case (\w+):\s*return ((?:"[^"]*"\s*)+);', text)
        self.texts = {name: "".join(re.findall(r'"([^"]*)"', parts)) for name, parts in cases}

    def enumerators(self, body):
        names, value = [], -1
        for name, given in re.findall(r"\b([A-Z]\w+)(?: = (\d+))?", re.sub(r"/\*.*?\*/", "", body, flags=re.S)):
            value = int(given) if given else value + 1
            names.append(name)
            self.values[name] = value
        return names

    def version(self):
        found = re.search(r'#define \w+_VERSION "(.*)"', self.text)
        return found and found[1]

    def prototypes(self):
        """Of each function of an archive the types of its parameters, as C writes them."""
        found = {}
        for name, parameters in re.findall(r"^void (\w+)\((.*?)\);", self.text, re.S | re.M):
            kinds = [" ".join(one.split()) for one in parameters.split(",")]
            found[name] = [re.sub(r"\w+((?:\[\d+\])*)$", r"\1", kind) for kind in kinds]
        return found


def constants(sources):
    """The associated constants of Rattle sources, as Type::NAME, and the numbers of their enums, as `From` gives them, as Type::Name."""
    found = {}
    for source in sources:
        for owner, body in re.findall(r"^impl (\w+)(?:<'_>)? \{\n(.*?)^\}", source, re.S | re.M):
            for name, value in re.findall(r"pub const (\w+): \w+ = (\d+);", body):
                found[f"{owner}::{name}"] = int(value)
        found.update(numbers(source))
    return found


def numbers(source):
    """Of each enum of a source the number of each variant, where `From<..> for u32` has an arm for each and no other."""
    found = {}
    for owner, body in re.findall(r"^pub enum (\w+) \{\n(.*?)^\}", source, re.S | re.M):
        variants = re.findall(r"^    (\w+),$", body, re.M)
        given = re.search(rf"^impl From<{owner}> for u32 \{{\n(.*?)^\}}", source, re.S | re.M)
        arms = re.findall(rf"\b{owner}::(\w+) => (\d+),\n", given[1]) if given else []
        if [name for name, _ in arms] == variants:
            found.update({f"{owner}::{name}": int(value) for name, value in arms})
    return found


def crossed(kind):
    """The parameters in C of one in Rattle: a slice crosses as pointer and length, an array as a pointer."""
    slices = {"&[u8]": ["const uint8_t *", "size_t "], "&mut [u8]": ["uint8_t *", "size_t "], "u32": ["uint32_t "]}
    if kind in slices:
        return slices[kind]
    sizes, inner = [], kind.removeprefix("&mut ")
    while array := re.fullmatch(r"\[(.*); (\d+)\]", inner):
        sizes.append(f"[{array[2]}]")
        inner = array[1]
    return [f"{ {'u32': 'uint32_t', 'u64': 'uint64_t'}.get(inner, inner)} {''.join(sizes)}"]


def entries(sources):
    """The parameters of the exported functions of Rattle sources, as C writes them."""
    found = {}
    for source in sources:
        for name, parameters in re.findall(r'pub extern "C" fn (\w+)\((.*?)\)', source, re.S):
            kinds = [one.strip() for one in re.findall(r"\w+: ([^,]+)", parameters)]
            found[name] = [c for kind in kinds for c in crossed(kind)]
    return found


def paragraph(specification, number):
    """A paragraph of the specification, in one line."""
    start = specification.index(f"**{number}** ")
    return flat(specification[start:].split("\n\n")[0].split("** ", 1)[1])


def rust_texts(source, kind, prefix):
    """The texts of an enum of the Rust crate, by their names in a header."""
    body = source[source.index("const fn text") :]
    found = {}
    for name, text in re.findall(rf'{kind}::(\w+) => \{{?\s*"((?:[^"\\]|\\.)*)"', body, re.S):
        found[prefix + re.sub(r"([A-Z])", r"_\1", name).upper()] = re.sub(r"\\\n\s*", "", text)
    return found
