"""Where wrong readings of what a grammar derives are tried: no program computes them, so a string shows each.

The strings are the fields of `StringsTold` (laws, Demands/Strings). Of a string that is derived, the edited definitions must prove
that it is not; of one that is not, they must have the tree that the edit names. Of a grammar that can be empty they must prove that
no string of end marks is derived.
"""
import re

from answers.definitions import copy_without, modules, needed
from rooms import CHECKS, Room, refused

LAWS, MODULE = 'laws', 'Demands/Strings'
STRING = 'string '
FIELD = re.compile(r'^  pub (\w+) : (?:(Yes|No) (\([^)]*\)|\w+) (.*)|Empty (.*))$', re.M)
SAID = re.compile(rf'{re.escape(CHECKS)}:\d+:\d+: error: ')   # of the contrary: that it is not proved
OPENED = 'find erase_block erase_element erase_leaf quantified'
HEAD = """use Rattle.std.specs.Prelude.{{[], ◌∷◌}}
use Rattle.std.proofs.Math.Path.{{refl}}
use Rattle.language.specs.Shape.{{token_symbol, unknown_symbol, other_symbol, quantified, erase_leaf, erase_element, erase_block, find}}
use Rattle.laws.specs.Demands.Strings.{{{names}}}
"""
BY_TREE = """use Rattle.language.specs.Derive.{d_eps, d_symbol, d_call, d_unknown, d_seq, d_left, d_right}
use Rattle.language.specs.Derive.{d_absent, d_present, d_none, d_more, d_some}
"""
BY_TEST = """use Rattle.laws.specs.Derivation.Could.{could, failed}
"""
BY_MARKS = """use Rattle.std.specs.Prelude.{◌≡◌, true}
use Rattle.std.proofs.Math.Bool.{false≢true}
use Rattle.grammar.specs.Lists.{all}
use Rattle.language.specs.Shape.{end_symbol, is_mark, Word}
"""
NO_MARK = '\n'.join(f'full ({symbol} ∷ w) m = absurd (false≢true m)' for symbol in
                    ('token_symbol n', 'unknown_symbol n', 'other_symbol c', 'end_symbol'))


def strings(folder):
    """The strings by their names: whether each is derived, its grammar and its symbols; of one that can be empty, no symbols."""
    path = folder / LAWS / f'specs/{MODULE}.antt'
    text = path.read_text(encoding='utf-8') if path.is_file() else ''
    return {STRING + name: (how != 'No', grammar or empty, word) for name, how, grammar, word, empty in FIELD.findall(text)}


def contrary(string, tree, names):
    """A module that proves the contrary of what is stored of a string."""
    is_derived, grammar, word = string
    head = HEAD.format(names=', '.join(names))
    if not word:
        return (f'{head}{BY_TEST}{BY_MARKS}\nfull : (w : Word) → all is_mark w ≡ true → No {grammar} w\n'
                f'unfolding {OPENED} could all is_mark\nfull [] m = failed {grammar} [] refl refl\n{NO_MARK}\n\n'
                f'a0 : Empty {grammar} → ⊥\na0 x = full x.word x.marks x.derives\n')
    if is_derived:
        return f'{head}{BY_TEST}\na0 : No {grammar} {word}\nunfolding {OPENED} could\na0 = failed {grammar} {word} refl refl\n'
    return f'{head}{BY_TREE}\na0 : Yes {grammar} {word}\nunfolding {OPENED}\na0 = record {{ body = _; found = refl; tree = {tree} }}\n'


class Derivations(Room):
    """The crate of laws and those below it, which are checked in its own runs."""

    def __init__(self, place, crates):
        super().__init__(place, crates, crates.reached(LAWS))
        self.kept = self.warm(LAWS)
        text = (crates.folder / LAWS / f'specs/{MODULE}.antt').read_text(encoding='utf-8')
        self.stated = re.findall(r'^abbrev pub (\S+)', text, re.M)

    def tried(self, edits, known):
        """Of edits that name the same module: each with whether its string shows it wrong, where it is refused, why if nowhere."""
        return [(edit, *self.of(edit, known[edit.shown])) for edit in edits]

    def of(self, edit, string):
        self.part(edit.module.replace('/', '.'), 'Derivation.Could' if string[0] else MODULE.replace('/', '.'))
        self.accepts(LAWS)
        (self.place / 'crates' / LAWS / CHECKS).write_text(contrary(string, edit.tree, self.stated), encoding='utf-8')
        library = self.place / 'crates' / LAWS / 'specs/Lib.antt'
        library.write_text(library.read_text(encoding='utf-8') + 'pub mod Checks\n', encoding='utf-8')
        self.make(edit)
        status, said = self.check(LAWS)
        self.undo()
        self.kept.restore()
        where, why = refused(LAWS, status, said)
        if where and not where.endswith(f' in crates/{LAWS}/specs/{edit.module}.antt'):
            where, why = None, f'it is refused at {where}, not in {LAWS}/{edit.module}'
        reached = re.search(rf'^crate {LAWS}: modules ', said, re.M)
        return bool(reached) and not SAID.search(said), where, why

    def part(self, *named):
        """These modules of the laws, and what they use, alone."""
        crate = self.crates.folder / LAWS
        kept = set().union(*(needed(crate, module) for module in named))
        copy_without(crate, self.place / 'crates' / LAWS, {name for _, name in modules(crate)} - kept)
