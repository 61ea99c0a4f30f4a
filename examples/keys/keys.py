"""Keys and values on a device of `waffd`: an example of a program over examples/client.

Each key has a head block: with the value, if that is short, or with the numbers of the data blocks that hold it. The
README beside this file shows how to format the device, how to use the store, and what it promises.
"""
import collections
import itertools
import os
import struct
import sys

sys.path.append(os.path.join(os.path.dirname(os.path.realpath(__file__)), os.pardir, "client"))
import client

VOLUMES, FILES, BLOCKS = 8, 8, 64  # of the device
BLOCK_COUNT = VOLUMES * FILES * BLOCKS
SIZE = 512  # bytes of a block
IS_HEAD, IS_DATA = b"H", b"D"  # the first byte of a block
LENGTHS = struct.Struct("<BI")  # behind it in a head: of the key and of the value
PAYLOAD = SIZE - len(IS_DATA)
OPTIONS = ("--slots", "256")
TOGETHER = 64  # lines that are sent at once

Head = collections.namedtuple("Head", "key length value numbers")  # the value, or the numbers of its data blocks


def place_of(number):
    """A block as a line names it. 64 blocks in a row lie in as many stripes, so they are written side by side."""
    rest, volume = divmod(number, VOLUMES)
    block, file = divmod(rest, FILES)
    return f"0 {volume} {file} {block}"


def write_of(number, data):
    """The line that writes a block."""
    return f"write {place_of(number)} {data.hex()}"


def pieces_of(key, value):
    """What each data block holds of a value: none where it fits into the head."""
    room = SIZE - len(IS_HEAD) - LENGTHS.size - len(key)
    pieces = [] if len(value) <= room else [value[at:at + PAYLOAD] for at in range(0, len(value), PAYLOAD)]
    if not 0 < len(key) < 256 or 2 * len(pieces) > room:
        raise ValueError(f"a key of {len(key)} bytes with a value of {len(value)}")
    return pieces


def packed(head):
    """The bytes of a head block."""
    rest = struct.pack(f"<{len(head.numbers)}H", *head.numbers) if head.numbers else head.value
    return IS_HEAD + LENGTHS.pack(len(head.key), head.length) + head.key + rest


def unpacked(data):
    """The head that a block holds, or None."""
    if data[:1] != IS_HEAD:
        return None
    key_length, length = LENGTHS.unpack_from(data, 1)
    begin = len(IS_HEAD) + LENGTHS.size
    key, rest = data[begin:begin + key_length], data[begin + key_length:]
    if length <= len(rest):
        return Head(key, length, rest[:length], [])
    return Head(key, length, b"", list(struct.unpack_from(f"<{-(-length // PAYLOAD)}H", rest)))


class Store(client.Closing):
    """Keys and values, each of them bytes, for one thread. What has returned is durable. After an exception make a new
    one, which reads what is there."""

    def __init__(self, new_server):
        self.servers = client.Retrying(new_server)
        self.make_files()
        self.places = {}  # of each key its head block, and its data blocks behind that
        for number, data in enumerate(self.read(range(BLOCK_COUNT))):
            head = unpacked(data)
            if head:
                self.places[head.key] = [number, *head.numbers]
        used = set(itertools.chain.from_iterable(self.places.values()))
        self.unused = [number for number in reversed(range(BLOCK_COUNT)) if number not in used]

    def put(self, values):
        """Sets the values of these keys. A crash leaves each of them its old value or its new one, and no mixture: a
        head names only data blocks that are durable, and is itself a single block."""
        pieces = {key: pieces_of(key, value) for key, value in values.items()}
        needed = sum(len(pieces[key]) + (key not in self.places) for key in values)
        if needed > len(self.unused):
            raise ValueError(f"{needed} blocks are needed, and {len(self.unused)} are unused")
        lines, heads, old = [], [], []
        for key, value in values.items():
            numbers = [self.unused.pop() for _ in pieces[key]]
            at, *no_longer_used = self.places.get(key) or [self.unused.pop()]
            lines += [write_of(number, IS_DATA + piece) for number, piece in zip(numbers, pieces[key])]
            heads.append(write_of(at, packed(Head(key, len(value), value, numbers))))
            old += no_longer_used
            self.places[key] = [at, *numbers]
        self.change(lines)
        self.change(heads)
        self.unused += old

    def delete(self, keys):
        """Removes these keys."""
        places = [self.places.pop(key) for key in set(keys) if key in self.places]
        self.change([f"punch {place_of(at)}" for at, *_ in places])
        self.unused += itertools.chain.from_iterable(places)

    def get(self, key):
        """The value of a key, or None."""
        if key not in self.places:
            return None
        data, *pieces = self.read(self.places[key])
        head = unpacked(data)
        return b"".join(piece[len(IS_DATA):] for piece in pieces)[:head.length] if pieces else head.value

    def close(self):
        """Ends its server in order."""
        self.servers.close()

    def make_files(self):
        """Makes what a new device lacks, and nothing that is there: no server would refuse one of these lines."""
        lists = list(self.servers.answers([f"list 0 {volume}" for volume in range(VOLUMES)]))
        lines = [f"makevol 0 {volume}" for volume, reply in enumerate(lists) if reply == "error volume"]
        for (volume, reply), file in itertools.product(enumerate(lists), range(FILES)):
            if str(file) not in reply.split():
                lines.append(f"create 0 {volume} {file}")
        self.change(lines, also_fine=("error exists",))  # to one that was carried out, and is sent again

    def change(self, lines, also_fine=()):
        """Carries lines out, in any order, over any number of kills."""
        for line, reply in zip(lines, self.servers.answers(lines, TOGETHER)):
            if reply != "done" and reply not in also_fine:
                raise ValueError(f"{line[:40]} was answered: {reply}")

    def read(self, numbers):
        """What each of these blocks holds."""
        lines = [f"read {place_of(number)}" for number in numbers]
        for line, reply in zip(lines, self.servers.answers(lines, TOGETHER)):
            word, _, digits = reply.partition(" ")
            if word == "error":
                raise ValueError(f"{line} was answered: {reply}")
            yield bytes.fromhex(digits).ljust(SIZE, b"\0")


def store_on(device, program="./waffd"):
    """The store of a device, with servers of its own, which lock it."""
    def new_server():
        with client.locked(device) as file:
            return client.start(file, program, OPTIONS)
    return Store(new_server)
