"""What lies at the outer boundary of the libraries, where a function asks nothing of its caller.

At the boundary are the `extern "C"` functions; what is open in a library's root file src/lib.rt; what that file hands on with
`pub use`, from another crate, under another name or with all of a module too; and the types that stand in the heads of such
functions and in the fields of such types, with their open methods and those of traits, since a caller has a value of them. What
is meant by a name is told by the `use` lines; where they leave it open, all that it may mean is at the boundary.
"""

from heads import functions, open_modules, paths, traits, types, uses
from lexer import files


def module_of(file):
    return file.parent.name if file.stem == "mod" else file.stem


class Library:
    """A library's files by their modules, with what they declare and bring in."""

    def __init__(self, source):
        self.texts = {file: file.read_text(encoding="utf-8") for file in files(source, ".rt")}
        self.functions = [(module_of(file), function) for file, text in self.texts.items() for function in functions(text)]
        self.types = [(module_of(file), *declared) for file, text in self.texts.items() for declared in types(text).items()]
        self.uses = [(module_of(file), *use) for file, text in self.texts.items() for use in uses(text)]
        self.traits = {trait for text in self.texts.values() for trait in traits(text)}
        self.modules = {module_of(file) for file in self.texts}
        self.open = self.opened({"lib"})

    def opened(self, modules):
        """Some modules, and those that they open to other crates."""
        inner = {name for file, text in self.texts.items() if module_of(file) in modules for name in open_modules(text)}
        return modules if inner <= modules else self.opened(modules | inner)


class Boundary:
    """The names and modules at the outer boundary, each with its crate."""

    def __init__(self, libraries):
        self.libraries = libraries
        self.names, self.modules = set(), set()
        for crate, library in libraries.items():
            self.add_module(crate, "lib")
            for _, function in library.functions:
                if function.exported:
                    self.add_types(crate, paths(function.words))

    def can_reach(self, crate, module, function):
        """Whether a function can be called from another crate: it lies in an open module, or at the boundary."""
        return module in self.libraries[crate].open or self.has(crate, module, function)

    def has(self, crate, module, function):
        is_named = (crate, function.owner or function.name) in self.names
        return function.exported or (crate, module) in self.modules or is_named

    def has_trait(self, crate, trait):
        """Whether a trait is one of this repository's, by the `use` lines of the crate that gives it."""
        library = self.libraries[crate]
        fronts = [path[0] for _, path, local, _ in library.uses if local == trait]
        return trait in library.traits or any(front in self.libraries for front in fronts)

    def trait_asks(self, trait, name):
        """Whether a method of some trait of this repository of that name has a `requires`."""
        every = [function for library in self.libraries.values() for _, function in library.functions]
        return any(function.has("requires") for function in every if function.in_trait and (function.owner, function.name) == (trait, name))

    def add_path(self, crate, path):
        """What a path in a crate leads to: in another crate if its first name is one, in this one otherwise."""
        if path[0] in self.libraries and path[0] not in self.libraries[crate].modules and len(path) > 1:
            crate, path = path[0], ["lib", *path[1:]]
        elif path[0] in self.libraries and len(path) > 2:
            self.add_path(path[0], ["crate", *path[1:]])
        if path[-1] != "*":
            self.add_name(crate, path[-1])
        elif len(path) > 1:
            self.add_module(crate, path[-2])

    def add_types(self, crate, found):
        for path in found:
            self.add_path(crate, path)

    def add_module(self, crate, module):
        """All that is open in a module, and what it hands on."""
        if (crate, module) in self.modules:
            return
        self.modules.add((crate, module))
        library = self.libraries[crate]
        for where, path, _, handed_on in library.uses:
            if where == module and handed_on:
                self.add_path(crate, path)
        for where, name, _ in library.types:
            if where == module:
                self.add_name(crate, name)
        for where, function in library.functions:
            if where == module and function.open():
                self.add_types(crate, paths(function.words))

    def add_name(self, crate, name):
        """A function or a type, here or where a `use` line has it from; and the types that it leads to."""
        if (crate, name) in self.names:
            return
        self.names.add((crate, name))
        library = self.libraries[crate]
        for _, path, local, _ in library.uses:
            if local == name:
                self.add_path(crate, path)
            elif local == "*" and path[0] in self.libraries:
                self.add_name(path[0], name)
        own = [found for _, declared, found in library.types if declared == name]
        for found in own:
            self.add_types(crate, found)
        for _, function in library.functions:
            # what an `impl` of a trait has for a type of the language, as `u32::from`, is no way to one of these types
            if (function.open() or (own and function.trait)) and (function.owner or function.name) == name:
                self.add_types(crate, paths(function.words))
