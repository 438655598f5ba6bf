"""The definitions in the crates' specs: copies without laws, where a name stands, what a computation opens."""
import re
import shutil
import sys

LAWS = ('Laws', 'Starred')  # parts of a module's name where nothing is defined


def modules(crate):
    """The files of a crate's specs with their modules' names, sub-folders too."""
    specs = crate / 'specs'
    for path in sorted(specs.rglob('*.antt')):
        if path.name != 'Lib.antt':
            yield path, '.'.join(path.relative_to(specs).with_suffix('').parts)


def used(text):
    """The modules of crates that a text uses, each with its crate's name."""
    return re.findall(r'^(?:pub )?use Rattle\.(\w+)\.specs\.([\w.+\']+?)(?:\.\{| |$)', text, re.M)


def is_law(module):
    return any(part in LAWS for part in module.split('.'))


def law_files(crate):
    """The files of laws, and those that use them."""
    texts = {module: path.read_text() for path, module in modules(crate)}
    laws = {module for module in texts if is_law(module)}
    while True:
        more = {module for module, text in texts.items() if module not in laws and any(
            is_law(name) or (owner == crate.name and name in laws) for owner, name in used(text))}
        if not more:
            return laws
        laws |= more


def copy_definitions(crate, copy):
    """A crate without its laws and its table: what is checked here are the definitions alone."""
    copy_without(crate, copy, law_files(crate))


def copy_part(crate, copy, module):
    """A crate with one module of its specs, and what that uses, alone."""
    copy_without(crate, copy, {name for _, name in modules(crate)} - needed(crate, module))


def copy_without(crate, copy, gone):
    """A crate without some modules of its specs, and without its proofs."""
    shutil.rmtree(copy, ignore_errors=True)
    shutil.copytree(crate, copy, ignore=shutil.ignore_patterns('must-fail', 'proofs', 'out'))
    for path, module in list(modules(copy)):
        if module in gone:
            path.unlink()
    for node in (copy / 'specs').rglob('*.antt'):
        below = node.with_suffix('') if node.name != 'Lib.antt' else node.parent
        lines = node.read_text().splitlines(keepends=True)
        node.write_text(''.join(line for line in lines if is_there(line, below)))


def needed(crate, module):
    """A module of a crate's specs, those of the crate that it uses, and those in whose folders they stand."""
    texts = {name: path.read_text() for path, name in modules(crate)}
    found, todo = set(), [module]
    while todo:
        name = todo.pop()
        if name in texts and name not in found:
            found.add(name)
            todo += [name.rpartition('.')[0], *(inner for owner, inner in used(texts[name]) if owner == crate.name)]
    return found


def is_there(line, folder):
    """Whether a line names no module of the folder, or one that was copied."""
    named = re.match(r'(?:pub )?mod (\S+)$', line.rstrip())
    return not named or (folder / f'{named[1]}.antt').exists()


def crates_of(crates, first):
    """A crate and those that its definitions use, lowest first."""
    found = []

    def visit(name):
        if name in found:
            return
        laws = law_files(crates / name)
        texts = [path.read_text() for path, module in modules(crates / name) if module not in laws]
        for owner in sorted({owner for text in texts for owner, _ in used(text)} - {name}):
            if (crates / owner).is_dir():
                visit(owner)
        found.append(name)

    visit(first)
    return found


def declared(text):
    """The names that a file declares: functions, types and constructors, not the fields of records."""
    inside, margin = None, 0
    for line in text.splitlines():
        indent = len(line) - len(line.lstrip())
        if line.strip() and inside and indent <= margin:
            inside = None
        found = re.match(r' *(?:abbrev |unfoldable )?pub (data |record )?(\S+)', line)
        if inside == 'data ' and ' : ' in line and not line.lstrip().startswith('--'):
            yield from line.split(' : ')[0].split()
        elif found and not inside:
            yield found[2]
            if found[1]:
                inside, margin = found[1], indent


def imports(crates, names, wanted):
    """Lines that import the wanted names, wherever they stand in the crates of these names."""
    places = {}
    for crate in names:
        for path, module in modules(crates / crate):
            for name in declared(path.read_text()):
                places.setdefault(name, []).append(f'Rattle.{crate}.specs.{module}')
    by_module = {}
    for name in wanted:
        if len(places.get(name, [])) != 1:
            sys.exit(f'{name} must stand in one place of {", ".join(names)}, not in {places.get(name, [])}')
        by_module.setdefault(places[name][0], []).append(name)
    return '\n'.join(f'use {module}.{{{", ".join(own)}}}' for module, own in by_module.items())


def opened(crates, names):
    """Every definition that a computation has to open, by its whole name."""
    found = []
    for crate in names:
        for path, module in modules(crates / crate):
            for name in re.findall(r'^ *unfoldable pub (\S+)', path.read_text(), re.M):
                found.append(f'Rattle.{crate}.specs.{module}.{name}')
    return ' '.join(found)
