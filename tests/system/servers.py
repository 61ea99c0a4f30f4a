"""Devices in files, and the state to which each recovers; random lines."""
import os
import random
import shutil

from .program import REFERENCE, bytes_of, put_bytes, run
from .meaning import (
    FIELDS, MOST_DIGITS, Geometry, Search, empty_state, lines_that_make, lines_that_read, options_of, state_of_replies)

SMALL = Geometry(1, 1, 2, 1, 2, 4, 2, 4)
WIDE = Geometry(2, 2, 2, 1, 2, 4, 2, 8)
NARROW = Geometry(1, 1, 1, 64, 1, 4, 1, 4)
COMMON = Geometry(1, 4, 4, 4, 16, 64, 64, 256)
GREATEST = Geometry(4, 8, 8, 64, 64, 256, 64, 1024)

# Places of the small device: the root zone, the two images, and the chain byte, the first gate and the first record
# of each half.
ROOT = 64
IMAGE_0 = 4424
IMAGE_1 = 6632
CHAIN_0 = 128
GATE_0 = 192
RECORD_0 = 196
CHAIN_1 = 2276
GATE_1 = 2340


def text_of(lines):
    """What a client sends of these lines."""
    return "".join(line + "\n" for line in lines).encode()


def replies_of(end, what):
    """The lines that a run printed which had to end well."""
    if end[0] != 0 or end[2]:
        raise AssertionError(f"{what}: {end[0]} {end[2]!r:.200}")
    return end[1].decode().splitlines()


def plain(g, lines):
    """What the serial server answers, as the program of reference has it."""
    return replies_of(run(["plain", *options_of(g)], text_of(lines), program=(REFERENCE,)), "plain")


def with_bytes(data, *changes):
    """These bytes, of which some have other values."""
    data = bytearray(data)
    for at, byte in changes:
        data[at] = byte
    return bytes(data)


def count_of_answers(output):
    """How many lines were answered, the last one perhaps in part."""
    count = output.count(b"\n")
    if output and not output.endswith(b"\n"):
        count += 1
    return count


def state_left(g, start, lines, output, told, whole=False):
    """The state that a server has left, by what the next one told of it. It began with the state `start`, was given
    these lines, and this came out. Asserts that what came out may be, and the state too."""
    made = lines_that_make(g, start)
    reads = lines_that_read(g)
    wanted = text_of(plain(g, made + lines)[len(made):])
    if not wanted.startswith(output) or (whole and output != wanted):
        raise AssertionError(f"it answered other than the serial server, in the first {len(output)} bytes")
    answered = len(lines) if whole else count_of_answers(output)
    left = state_of_replies(g, told)
    logged = Search(g, start, lines, answered, left).find()
    if logged is None:
        what = "a change is missing, or what is there none has made"
        raise AssertionError(f"of {answered} lines that were answered {what}")
    if plain(g, made + logged + reads)[len(made + logged):] != told:
        raise AssertionError("the serial server has another state")
    return left


class File:
    """The file of a small device, as it was formatted and as the opening of a server leaves it."""

    def __init__(self, folder):
        self.path = os.path.join(folder, "served")
        if replies_of(run(["format", self.path, *options_of(SMALL)]), "format") != ["formatted 8840"]:
            raise AssertionError("format told another length")
        self.formatted = bytes_of(self.path)
        self.opened = with_bytes(self.formatted, (ROOT, 1), (IMAGE_1, 2))

    def serve(self, given=b"", *options, **streams):
        """The end of a server of it."""
        return run(["serve", self.path, *options], given, **streams)

    def format(self):
        """The file has the bytes again that `format` gave it."""
        put_bytes(self.path, self.formatted)


class Device:
    """A device in a file and the state to which it recovers, as far as the replies report it."""

    def __init__(self, folder, server):
        self.g, self.workers, self.slots, self.every = server
        self.path = os.path.join(folder, "device")
        self.copy = os.path.join(folder, "copy")
        replies_of(run(["format", self.path, *options_of(self.g)]), "format")
        self.state = empty_state(self.g)

    def __str__(self):
        return f"{tuple(self.g)}, {self.workers} workers, {self.slots} slots, every {self.every}"

    def words(self, path=None):
        """The words of a server of it, or of its copy."""
        options = ["--workers", str(self.workers), "--slots", str(self.slots), "--every", str(self.every)]
        return ["serve", path or self.path, *options]

    def judge(self, lines, output, whole):
        """Asserts that what came out for these lines, and what the next run answers, may be. That is run on a copy:
        so this file stays as it was left."""
        shutil.copyfile(self.path, self.copy)
        reads = text_of(lines_that_read(self.g))
        told = replies_of(run(self.words(self.copy), reads), "the next run")
        self.state = state_left(self.g, self.state, lines, output, told, whole)


WEIGHTS = {
    "write": 48, "punch": 8, "read": 10, "create": 9, "delete": 2, "seal": 2, "unseal": 4, "makevol": 5, "dropvol": 1,
    "list": 2, "usage": 2, "summary": 1, "setlabel": 5, "label": 3}
KINDS = list(WEIGHTS)
SHARES = list(WEIGHTS.values())
NO_MESSAGES = (
    "", "what", "READ 0 0 0 0", "read 0 0 0", "summary 0", " summary", "write 0 0 0 0 6", "read 00 0 0 0",
    "read 0 0 0 65536", "a" * 1101, "write 0 0 0 0 " + "61" * 513)
MOST = (2, 3, 3, 12)  # aggregates, volumes of each, files and blocks: so random messages meet


class Drawing:
    """Draws lines. No two writes have the same data, so each change that was lost is seen."""

    def __init__(self, seed, g):
        self.random = random.Random(seed)
        self.g = g
        self.count = 0  # how many data were drawn

    def data(self, most):
        """Digits of so many bytes at most: a number of their own, and behind it the same bytes now and then."""
        self.count += 1
        digits = f"{self.count:08x}"
        if self.random.randrange(8) == 0:
            padding = self.random.randrange(most - 3)
            digits += "5a" * padding
        return digits

    def number(self, is_out, limit, most):
        """A number of a message: out of range, or a small one."""
        return limit if is_out else self.random.randrange(min(limit, most))

    def line(self):
        """Seldom one that is no message."""
        if self.random.randrange(50) == 0:
            return self.random.choice(NO_MESSAGES)
        kind = self.random.choices(KINDS, SHARES)[0]
        limits = (self.g.aggregates, self.g.volumes, self.g.files, self.g.blocks)[:FIELDS[kind]]
        are_out = [self.random.randrange(200) == 0 for _ in limits]
        words = [kind]
        words += [str(self.number(*of)) for of in zip(are_out, limits, MOST)]
        if kind in MOST_DIGITS:
            words.append(self.data(MOST_DIGITS[kind] // 2))
        return " ".join(words)

    def lines(self, count):
        return [self.line() for _ in range(count)]
