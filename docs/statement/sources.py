"""What the pages are made of: definitions with their comments, and what each name in them means."""
import collections
import functools
import pathlib
import re
import textwrap

from library import TOP, Kit, believe, cases

PATTERNS = {"zero", "suc", "true", "false"}  # cases of the library in lower case
DECLARED = re.compile(r"Rattle\.(\w+)\.specs\.declared\.(.*)")


class Sources:
    """The definitions of the repository and the words of the library."""

    def __init__(self):
        self.tree = believe.whole_tree()
        self.kit = Kit()
        self.crates = {path.name for path in TOP.glob("crates/*")}
        self.names = collections.Counter(word.name for word in self.tree.texts)
        self.apart = set()  # constants and types of the code that definitions cite and that aren't counted

    def is_of_kit(self, word):
        return word.path in self.kit.module_at

    def module_of(self, word):
        return self.kit.module_at[word.path] if self.is_of_kit(word) else believe.module_of(word.path)

    def tree_of(self, word):
        return self.kit if self.is_of_kit(word) else self.tree

    # ---- names

    @functools.cache
    def find(self, module, name):
        """What a name means in a module: a word of the repository, of its code or of the library, or nothing."""
        if module in self.kit.loaded:
            return self.kit.find(module, name)
        found = self.tree.find(module, name) or cases(self.tree, module).get(name)
        if found is not None or name not in self.tree.uses[module]:
            return found
        there, name = self.tree.uses[module][name]
        if there.split(".")[1] not in self.crates:
            return self.kit.find(there, name)
        declared = DECLARED.fullmatch(there)
        return self.of_code(*declared.groups(), name) if declared else self.find(there, name)

    def of_code(self, crate, file, name):
        """A constant or a private type of the code, by the name under which definitions have it."""
        parts = file.split(".")
        paths = [TOP / "crates" / crate / "src" / f"{'/'.join(parts[:count])}.rt" for count in range(len(parts), 0, -1)]
        path = next(filter(pathlib.Path.is_file, paths), TOP / "crates" / crate / "src" / "lib.rt")
        text = believe.read(path)
        found = re.search(rf"^(?:pub(?:\(\w+\))? )?(?:const|struct|enum) {name}\b", text, re.M)
        if found is None:
            return None
        word = believe.Word(crate, path, name)
        lines = believe.block(text, found.start()).splitlines()
        first = believe.line_at(text, found.start())
        self.tree.texts[word] = lines
        self.tree.places[word] = list(range(first, first + len(lines)))
        self.apart.add(word)
        return word

    def pieces(self, module, code, bound=frozenset()):
        """A line of code in pieces, each with the word that it means, or None."""
        for piece in self.splitting(module).split(code):
            if piece.startswith('"') or piece.split(".")[0] in bound:
                yield piece, None
            elif piece:
                yield from self.meaning(module, piece)

    @functools.cache
    def splitting(self, module):
        """What parts the code of a module into texts, names, and operators, such as `+` if it has `◌+◌`."""
        tree = self.kit if module in self.kit.loaded else self.tree
        names = {name for there, name in tree.scopes if there == module} | set(tree.uses[module])
        signs = sorted({name.strip("◌") for name in names if re.fullmatch("◌[^◌]+◌", name)}, key=len, reverse=True)
        operators = "".join(rf"(?<!\S){re.escape(sign)}(?!\S)|" for sign in signs)
        return re.compile(rf'("[^"]*"|{operators}{believe.TOKEN.pattern})')

    @functools.cache
    def meaning(self, module, piece):
        """A piece in parts, each with its word: of `x.y` perhaps x alone has one, or y, if x is a file."""
        for name in (piece, f"◌{piece}◌", "if◌then◌else◌" if piece == "if" else piece):
            word = self.find(module, name)
            if word:
                return [(piece, word)]
        first, dot, last = piece.partition(".")
        if not dot or not first:
            return [(piece, None)]
        file = self.tree.modules[module].get(first)
        if file:
            return [(first + dot, None), (last, self.tree.find(file, last.split(".")[-1]))]
        return [(first, self.find(module, first)), (dot + last, None)]

    def cited(self, module, text):
        """The words that a text cites."""
        return {word for _, word in self.pieces(module, text, bound_in(text)) if word}

    @functools.cache
    def cited_by(self, word):
        """The words that a definition cites: those that believe follows, the library's, and those of the code."""
        own = set() if self.is_of_kit(word) or word in self.apart else self.tree.cited_by(word)
        if word.path.suffix == ".rt" and (word.crate, word.name) != believe.KEEPS:
            return own
        return own | self.cited(self.module_of(word), " ".join(self.tree_of(word).texts[word]))

    # ---- texts

    def shown(self, word):
        """The comment above a word, and its lines as they stand."""
        places = self.tree_of(word).places[word]
        lines = believe.read(word.path).splitlines()
        return comment_above(lines, places[0]), "\n".join(lines[places[0] - 1:places[-1]])

    def place(self, word):
        """Where a word stands."""
        return word.crate if self.is_of_kit(word) else f"{word.path.relative_to(TOP)}:{self.tree.places[word][0]}"

    @functools.cache
    def anchor(self, word):
        """The name of a word on a page, with its crate where it alone doesn't tell."""
        is_alone = self.names[word.name] == 1 and not self.is_of_kit(word) and word not in self.apart
        return word.name if is_alone else f"{word.crate}.{word.name}"


class WorkedRows:
    """The equations of crates/*/proofs/Examples.antt that the prover proves by computing both sides."""

    def __init__(self, sources):
        self.sources = sources
        self.tree = sources.tree
        for path in sorted(TOP.glob("crates/*/proofs/Examples.antt")):
            self.read_proofs(believe.module_of(path))
        rows = sorted(filter(self.is_row, self.tree.texts), key=lambda row: (len(" ".join(self.equation(row))), row))
        self.cited = {row: self.cited_by(row) for row in rows}  # the words of each, the shortest row first

    def read_proofs(self, module):
        """Reads a file of proofs, and those of the repository that it uses."""
        crate, *rest = module.split(".")[1:]
        if crate not in self.sources.crates or rest[0] != "proofs" or module in self.tree.uses:
            return
        self.tree.read_definitions(TOP / "crates" / crate / ("/".join(rest) + ".antt"), module, crate)
        for used, _ in list(self.tree.uses[module].values()):
            if used.startswith("Rattle."):
                self.read_proofs(used)

    def is_row(self, word):
        is_computed = word.path.name == "Examples.antt" and self.tree.texts[word][-1].endswith("= refl")
        return is_computed and "≡" in " ".join(self.equation(word))

    def equation(self, row):
        """The lines of a row without its proof."""
        for line in self.tree.texts[row]:
            if line.startswith("unfolding ") or re.match(rf"{re.escape(row.name)}( [^:]*)? =", line):
                return
            yield line

    def cited_by(self, row):
        """What a row cites, also by way of what its file defines for it."""
        reached = set()
        left = [(row, " ".join(self.equation(row)))]
        while left:
            word, text = left.pop()
            cited = self.sources.cited(believe.module_of(word.path), text) - reached
            reached |= cited
            helpers = [other for other in cited if other.path == row.path and self.is_helper(other)]
            left += [(other, " ".join(self.tree.texts[other])) for other in helpers]
        return reached

    def is_helper(self, word):
        """Whether this is a definition that only proofs have."""
        is_of_proofs = not self.sources.is_of_kit(word) and "proofs" in word.path.parts
        return is_of_proofs and self.tree.texts[word][0].startswith("abbrev ")

    def helpers(self, rows):
        """What the proofs define for these rows."""
        return sorted({word for row in rows for word in self.cited[row] if self.is_helper(word)})


def head_of(path):
    """What a file says first of itself, without who has to read it."""
    lines = []
    for line in believe.read(path).splitlines():
        if not line.startswith(("-- ", "//! ")):
            break
        found = believe.FIRST_LINE.match(line)
        lines.append(line[found.end():] if found else line.partition(" ")[2])
    return " ".join(lines)


def signature(promise):
    """The lines of a function before its clauses or its body; none of a trait or a view."""
    found = []
    for line in believe.read(promise.path).splitlines()[promise.line - 1:]:
        has_begun = re.search(r"\bfn ", found[0] if found else line)
        if not has_begun or believe.CLAUSE.search(line) or line.strip() == "{":
            break
        found.append(line)
    return textwrap.dedent("\n".join(found)).splitlines()


def bound_in(text, own=""):
    """The names that a text binds: in brackets with their type, behind a λ, or on the left of the function's equations.
    """
    bound = re.findall(r"[({]([^(){}:;=]+) : ", text) + re.findall(r"λ \(?([^.:]+?)(?: :|\.)", text)
    if own:
        bound += re.findall(rf"^ *{re.escape(own)} (.*?) = ", text, re.M)
    return {name for names in bound for name in re.findall(r"[^\s(){}]+", names) if name[0].islower()} - PATTERNS


def comment_above(lines, number):
    """The comment that stands above this line of a file."""
    above = []
    for line in reversed(lines[:number - 1]):
        found = re.match(r"\s*(?:--|//(?!!)/?) ?(.*)", line)
        if found and not found[1].startswith("----"):
            above.insert(0, found[1])
        elif found or not line.strip().startswith("#["):
            break
    return "\n".join(above)
