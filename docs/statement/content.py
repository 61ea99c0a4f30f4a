"""What stands on the page of one row of the table, and in which order."""
import collections
import re

from library import FOLDERS, believe
from sources import bound_in, signature

MOST_ROWS = 5  # worked rows beside a definition
VOCABULARY = 5  # a definition that more than one in so many cites comes last
Row = collections.namedtuple("Row", "reader asks contract name")


def rows_of_table():
    """The rows of the table in README.md under "What is proved". A cell that is empty is that of the row above."""
    reader = ""
    for line in believe.read(believe.PAGE).splitlines():
        found = believe.ROW.search(line)
        if found:
            cells = [cell.strip() for cell in line.split("|")[1:]]
            reader = cells[0] or reader
            yield Row(reader, cells[1], cells[2], found[1])


class Page:
    """What stands on the page of one row."""

    def __init__(self, sources, worked, row):
        tree = sources.tree
        name = row.name
        self.sources = sources
        self.worked = worked
        self.row = row
        self.file = f"{name.split('::')[-1]}.html"
        self.promises = promises_of(tree, name)
        self.anchors = anchors_of(self.promises)
        self.seen = tree.measure(name)
        self.roots = {promise: self.cited_by_promise(promise) for promise in self.promises}
        self.types = {promise: self.types_of(promise) for promise in self.promises}
        self.cites = {word: sources.cited_by(word) - {word} for word in self.seen}
        self.depths = self.find_depths()
        self.rows = self.find_rows()
        self.add_what_these_cite()
        self.citing = collections.defaultdict(list)
        for word in [*self.ordered(self.seen), *sorted(self.others, key=by_name)]:
            for cited in self.cites[word]:
                self.citing[cited].append(word)

    def cited_by_promise(self, promise):
        text = " ".join(promise.clauses)
        words = self.sources.cited(believe.module_of(promise.path), text) | self.sources.tree.rests_on(promise)
        return {word for word in words if word.name not in bound_in(text)}

    def types_of(self, promise):
        """The types that a function's head names."""
        names = set(re.findall(r"\b[A-Z]\w+", "\n".join(signature(promise))))
        return set(self.sources.tree.types_named(promise.path, names))

    def find_depths(self):
        """How many steps of definitions lie between the promise and each."""
        depths = {word: 0 for words in self.roots.values() for word in words if word in self.seen}
        left = collections.deque(depths)
        while left:
            word = left.popleft()
            for cited in self.cites[word] & self.seen:
                if cited not in depths:
                    depths[cited] = depths[word] + 1
                    left.append(cited)
        return depths

    def add_what_these_cite(self):
        """Adds the types of functions, and the words of the library and of the code that are cited, also in worked
        rows, and what these cite."""
        self.others = set().union(*self.types.values()) - self.seen
        self.cites.update((word, set()) for word in self.others)
        in_rows = [self.worked.cited[row] for rows in self.rows.values() for row in rows]
        left = [word for words in [*self.roots.values(), *self.cites.values(), *in_rows] for word in words]
        while left:
            word = left.pop()
            is_other = self.sources.is_of_kit(word) or word in self.sources.apart
            if is_other and word not in self.others:
                self.others.add(word)
                is_basic = self.sources.is_of_kit(word) and word.crate in FOLDERS and word.crate != "lib"
                self.cites[word] = set() if is_basic else self.sources.cited_by(word) - {word}
                left += self.cites[word]

    def find_rows(self):
        """The worked rows beside each definition, the shortest first."""
        rows = collections.defaultdict(list)
        for row, words in self.worked.cited.items():
            for word in words & self.seen:
                if len(rows[word]) < MOST_ROWS:
                    rows[word].append(row)
        return rows

    def ordered(self, words):
        """Definitions in the order of the page: files in the order in which they are met, definitions before sources,
        and inside of a file as it stands."""
        first = collections.defaultdict(lambda: len(self.seen))
        for word, depth in self.depths.items():
            first[word.path] = min(first[word.path], depth)
        places = self.sources.tree.places
        return sorted(words, key=lambda word: (word.path.suffix == ".rt", first[word.path], word.path, places[word]))

    def vocabulary(self):
        """What more than a fifth of the definitions cites."""
        def is_common(word):
            return len(self.seen.intersection(self.citing[word])) * VOCABULARY > len(self.seen)

        return {word for word in self.seen if is_common(word)}

    def left_open(self):
        """What the promises cite and another row counts."""
        words = {word for promise in self.promises for word in self.roots[promise]}
        words = words.union(*(self.cites[word] for word in self.seen))
        return sorted(words - self.seen - self.others, key=by_name)

    def of_code(self):
        """The constants and types of the code that aren't counted, by their names."""
        return sorted((word for word in self.others if not self.sources.is_of_kit(word)), key=by_name)

    def library(self):
        """The words of the library, by their names."""
        return sorted(filter(self.sources.is_of_kit, self.others), key=by_name)

    def files(self):
        """The definitions by file, without the vocabulary."""
        files = {}
        for word in self.ordered(self.seen - self.vocabulary()):
            files.setdefault(word.path, []).append(word)
        return files


def promises_of(tree, name):
    """What a row promises: a law or a contract, and the clauses that are read with it, those of a function together."""
    found = {}
    for part in [name, *believe.WITH.get(name, [()])[1:]]:
        for promise in tree.promised(part):
            first = found.setdefault((promise.path, promise.line), promise._replace(clauses=()))
            more = tuple(clause for clause in promise.clauses if clause not in first.clauses)
            found[promise.path, promise.line] = first._replace(clauses=first.clauses + more)
    return list(found.values())


def promise_name(promise):
    return f"{believe.crate_of(promise.path)}::{promise.name}"


def anchors_of(promises):
    """The name of each promise on a page, with its place where several functions of a crate have one name."""
    counts = collections.Counter(map(promise_name, promises))
    names = {promise: promise_name(promise) for promise in promises}
    return {promise: name if counts[name] == 1 else f"{name}:{promise.path.stem}:{promise.line}"
            for promise, name in names.items()}


def by_name(word):
    return word.name.strip("◌").lower(), word
