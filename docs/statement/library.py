"""The library's definitions, as the Rattle kit that is installed has them, and the definitions of the repository that
tests/lint/believe counts."""
import functools
import importlib.machinery
import importlib.util
import pathlib
import shutil

TOP = pathlib.Path(__file__).resolve().parents[2]
# Where the kit has its modules, by how their names begin.
FOLDERS = {"lib": "logic/Lib", "denote": "logic/Denote", "mathlib": "antt/port/mathlib/src"}
PASSED_ON = ("core", "std_alloc", "std_collections", "std_io")  # what `std` gives under its own name


def load_script(path):
    """A script whose name has no .py, as a module."""
    loader = importlib.machinery.SourceFileLoader(path.name, str(path))
    module = importlib.util.module_from_spec(importlib.util.spec_from_loader(path.name, loader))
    loader.exec_module(module)
    return module


believe = load_script(TOP / "tests" / "lint" / "believe")


class Kit(believe.Tree):
    """The library's definitions. A file is read once a name of it is asked for."""

    def __init__(self):
        super().__init__()
        program = shutil.which("rt")
        self.folder = pathlib.Path(program).resolve().parents[1] / "rattle" if program else None
        self.loaded = {}      # module -> the name under which its file was read first
        self.module_at = {}   # and that name by the file

    def path_of(self, module):
        """The file of a module and the crate that it belongs to, or None."""
        first, *rest = module.split(".")
        if first in FOLDERS:
            return self.folder / FOLDERS[first] / ("/".join(rest) + ".antt"), first
        if first != "Rattle" or len(rest) < 3:
            return None, first
        crate, kind, *rest = rest
        if rest[0] == "declared":
            names = ["/".join(rest[1:count]) for count in range(len(rest), 1, -1)] + ["lib"]
            paths = [(self.folder / crate / "src" / f"{name}.rt", crate) for name in names]
        else:
            crates = [crate, *PASSED_ON] if crate == "std" else [crate]
            paths = [(self.folder / name / kind / ("/".join(rest) + ".antt"), name) for name in crates]
        return next((found for found in paths if found[0].is_file()), (None, crate))

    def load(self, module):
        if module in self.loaded or self.folder is None:
            return
        path, crate = self.path_of(module)
        is_there = path is not None and path.is_file()
        self.loaded[module] = self.module_at.setdefault(path, module) if is_there else module
        if is_there and self.loaded[module] == module:
            read = self.read_types if path.suffix == ".rt" else self.read_definitions
            read(path, module, crate)
            self.cut_at_blanks(path)

    def cut_at_blanks(self, path):
        """Here lemmas may follow a definition, behind a blank line."""
        lines = believe.read(path).splitlines()
        for word, places in self.places.items():
            if word.path == path and path.suffix == ".antt":
                ends = [place for place in range(places[0], places[-1]) if not lines[place].strip()]
                kept = [place for place in places if not ends or place <= ends[0]]
                self.places[word], self.texts[word] = kept, self.texts[word][:len(kept)]

    def find(self, module, name, depth=0):
        """The word that a module gives under this name: of a case of a `data`, the `data`."""
        self.load(module)
        module = self.loaded.get(module, module)
        return super().find(module, name, depth) or cases(self, module).get(name)


@functools.cache
def cases(tree, module):
    """The cases of each `data` of a module, each with its `data`."""
    found = {}
    for (there, _), word in tree.scopes.items():
        first, *lines = tree.texts[word]
        if there == module and "data " in first:
            found.update((name, word) for line in lines for name in line.partition(" : ")[0].split())
    return found
