"""The file of figures: what one run has measured, each value once for each of its rounds, and which rows there have
to be."""
import json
import pathlib
import re
from statistics import median

PATH = pathlib.Path(__file__).resolve().with_name("figures.json")

GEOMETRIES = ("default", "greatest")
OF_WAFFD = tuple(f"waffd {workers}" for workers in (1, 2, 4))
ORDINARY = ("batch", "once", "twice")
SLOTS = {
    "write": (1, 16, 64, 256),
    "ordered": (16, 64),
    "stripe": (16, 64),
    "read": (1, 16, 64, 256, 1024),
    "mixed": (16, 64),
}
IN_ONE_FILE = ("ordered", "stripe")
SERVED = [(mix, slots) for mix, all_slots in SLOTS.items() for slots in all_slots]
PIPED = [(mix, slots) for mix in ("write", "read") for slots in (1, 16, 64)]
PLAIN = ("write", "read", "metadata", "churn", "mixed")
EVERY = (0, 16, 64)
MORE_READS = 10  # times more lines of reads than of others
FEWER_ALONE = 10  # times fewer lines with 1 slot, and of those that write one file or one stripe

# Behind the point, of what is kept.
DIGITS = {"lines/s": None, "cpu us": 3, "syncs": 1, "bytes": None, "peak MB": 2, "ms": 2, "us": 2, "records": None}


class Missing(Exception):
    """There is no such figure."""


def served(geometry, mix, slots, output="file"):
    """A row of the part `serve`."""
    return f"serve {geometry} {mix} {slots} {output}"


def wanted():
    """The rows of a whole run: words, of which the first is the part, and the others what the row is of."""
    yield "disk"
    for geometry in GEOMETRIES:
        yield f"opening {geometry}"
        for mix, slots in SERVED:
            yield served(geometry, mix, slots)
        for mix, slots in PIPED:
            yield served(geometry, mix, slots, "pipe")
    yield "every default"
    yield from (f"plain {mix}" for mix in PLAIN)


def programs_of(row):
    """The programs that take turns in a row."""
    if row.endswith(" pipe"):
        return "waffd 2", "batch", "twice"
    of_part = {
        "disk": ("disk",),
        "opening": (*OF_WAFFD, "floor"),
        "serve": (*ORDINARY, *OF_WAFFD),
        "every": tuple(f"every {every}" for every in EVERY),
        "plain": ("serial", "waffd"),
    }
    return of_part[row.split()[0]]


class Figures:
    """What the file has: of the run, and each row with the values of its programs."""

    def __init__(self, told):
        self.told = told
        self.rows = told["rows"]

    @staticmethod
    def read():
        """The figures of the file."""
        return Figures(json.loads(PATH.read_text(encoding="utf-8")))

    def values(self, row, program, what):
        """The values of all rounds."""
        try:
            return self.rows[row][program][what]
        except KeyError:
            raise Missing(f"there is no {what} of {program} in the row {row}") from None

    def median(self, row, program, what):
        return median(self.values(row, program, what))

    def ratio(self, row, program, other, what):
        """The median of the ratios of the first program to the other, round by round."""
        rounds = zip(self.values(row, program, what), self.values(row, other, what))
        return median(one / two for one, two in rounds)

    def holes(self):
        """What is missing of a whole run."""
        for row in wanted():
            for program in programs_of(row):
                found = self.rows.get(row, {}).get(program, {})
                if {len(values) for values in found.values()} != {self.told["repeat"]}:
                    yield f"{program} has no values, or not as many as there were rounds, in the row {row}"

    def text(self):
        """The text of the file: a line for each row, and for each program of it."""
        return re.sub(r' ("[^"]+": \{)', r"\n \1", json.dumps(self.told)) + "\n"
