"""Reads the bytes of a device of `waffd`, as docs/log.md and docs/image.md have them, with nothing of the program.

`recovered(data)` is the state to which a device recovers. `Device` has its parts; anything of them may be wrong.
"""
import collections
import itertools
import struct

Geometry = collections.namedtuple("Geometry", "aggregates volumes stripes width files blocks quota half")
Volume = collections.namedtuple("Volume", "sealed files label")
Piece = collections.namedtuple("Piece", "number key at size")  # `at` is a place in its image

RANGES = Geometry((1, 4), (1, 8), (1, 8), (1, 64), (1, 64), (1, 256), (1, 64), (4, 1024))
# How many numbers a message has, in the order of the kinds, from 1 on.
FIELDS = {
    "makevol": 2, "dropvol": 2, "create": 3, "delete": 3, "seal": 2, "unseal": 2, "write": 4, "punch": 4, "read": 4,
    "list": 2, "usage": 2, "summary": 0, "setlabel": 2, "label": 2}
KINDS = list(FIELDS)
CHANGES = set(KINDS[:8]) | {"setlabel"}
DATA = {"write": 512, "setlabel": 32}  # how many bytes of data a message has

# Places and lengths, in bytes.
MAGIC = b"\1WAFFSRV"
NUMBERS = 8
HEADER = 64
ROOT = 64
HALVES = 128
HALF_HEAD = 64
IMAGE_HEAD = 64
VOLUME = 64
LABEL = 16
ENTRY = 520
ENTRY_HEAD = 8
RECORD = 520
VERSIONS = (1, 2)


class Refused(ValueError):
    """Why a device is refused, in the program's words, and where."""

    def __init__(self, text, at=None, detail=""):
        super().__init__(text)
        self.at = at
        self.detail = detail


# ---- places


def half_at(g, number):
    """Where a half of the log begins; behind the second one the images."""
    return HALVES + number * (HALF_HEAD + (1 + RECORD) * g.half)


def image_at(g, number):
    """Where an image begins; behind the second one the parts of a device end."""
    size_of_volume = VOLUME + ENTRY * g.stripes * g.quota
    return half_at(g, 2) + number * (IMAGE_HEAD + g.aggregates * g.volumes * size_of_volume)


def gate_at(g, half, number):
    return half_at(g, half) + HALF_HEAD + number


def record_at(g, half, number):
    return half_at(g, half) + HALF_HEAD + g.half + RECORD * number


def pieces_of(g):
    """The pieces of an image, in order. The key is that of the state: a volume, or a stripe of one."""
    at = IMAGE_HEAD
    for number, key in enumerate(empty_state(g)):
        size = VOLUME if len(key) == 2 else ENTRY * g.quota
        yield Piece(number, key, at, size)
        at += size


# ---- states
#
# A state is a table of pieces: `(a, v)` is None or the volume's seal, files and label, and `(a, v, s)` has the blocks
# of a stripe by file and block. Data is hexadecimal digits to the last byte that isn't zero.


def empty_state(g):
    state = {}
    for a, v in itertools.product(range(g.aggregates), range(g.volumes)):
        state[a, v] = None
        state.update({(a, v, s): {} for s in range(g.stripes)})
    return state


def digits(data):
    """The digits of data to the last byte that isn't zero, and at least one byte."""
    return (data.rstrip(b"\0") or b"\0").hex()


def filled(text, size):
    """The bytes of these digits, with zeros behind them."""
    return bytes.fromhex(text).ljust(size, b"\0")


def stripe_of(g, file, block):
    """The number of the stripe in which a block lies."""
    return (file + block // g.width) % g.stripes


def lines_of_volume(place, volume):
    """Lines that make a volume with its files."""
    at = "{} {}".format(*place)
    return [f"makevol {at}", f"setlabel {at} {volume.label}", *(f"create {at} {file}" for file in sorted(volume.files))]


def lines_of_blocks(place, blocks):
    at = "{} {}".format(*place)
    return [f"write {at} {file} {block} {data}" for (file, block), data in sorted(blocks.items())]


def lines_of_seal(place, volume):
    return ["seal {} {}".format(*place)] if volume.sealed else []


def lines_of(state):
    """Lines that make a state from the empty one, as examples/copy writes them."""
    blocks = collections.defaultdict(dict)
    for key, value in state.items():
        if len(key) == 3:
            blocks[key[:2]].update(value)
    for place, volume in volumes_of(state).items():
        yield from lines_of_volume(place, volume)
        yield from lines_of_blocks(place, blocks[place])
        yield from lines_of_seal(place, volume)
    yield "summary"


def volumes_of(state):
    """The volumes that are made."""
    return {key: value for key, value in state.items() if len(key) == 2 and value}


def summary_of(state):
    """How many volumes, files and blocks there are, as the reply to `summary`."""
    volumes = volumes_of(state).values()
    blocks = sum(len(value) for key, value in state.items() if len(key) == 3)
    return f"summary {len(volumes)} {sum(len(volume.files) for volume in volumes)} {blocks}"


# ---- images


def decode_volume(g, data, version):
    if data[0] != 1:
        return None
    bits = int.from_bytes(data[8:16], "little")
    label = digits(data[LABEL:LABEL + DATA["setlabel"]]) if version == 2 else "00"
    return Volume(data[1] == 1, frozenset(file for file in range(g.files) if bits >> file & 1), label)


def encode_volume(volume):
    if volume is None:
        return bytes(VOLUME)
    bits = sum(1 << file for file in volume.files)
    head = struct.pack("<BB6xQ", 1, volume.sealed, bits)
    return (head + filled(volume.label, DATA["setlabel"])).ljust(VOLUME, b"\0")


def decode_stripe(g, data, number, volume):
    """The blocks of a stripe: entries that can't be there are left out, and so differ from the encoding."""
    blocks = {}
    for at in range(0, len(data), ENTRY):
        is_used, file, block = struct.unpack_from("<BBH", data, at)
        is_here = volume is not None and file in volume.files and block < g.blocks
        if is_used == 1 and is_here and stripe_of(g, file, block) == number:
            blocks[file, block] = digits(data[at + ENTRY_HEAD:at + ENTRY])
    return blocks


def encode_stripe(g, blocks):
    entries = [struct.pack("<BBH4x", 1, *place) + filled(data, DATA["write"]) for place, data in sorted(blocks.items())]
    return b"".join(entries).ljust(ENTRY * g.quota, b"\0")


def first_difference(data, other):
    return next((at for at, (byte, wanted) in enumerate(zip(data, other)) if byte != wanted), None)


class Image:
    """One of the images: its version, the state that it holds, and which of its pieces are bad, with where."""

    def __init__(self, g, data, number):
        self.at = image_at(g, number)
        self.version = data[self.at]
        self.has_version = self.version in VERSIONS and not any(data[self.at + 1:self.at + IMAGE_HEAD])
        self.state = empty_state(g)
        self.bad = {}
        for piece in pieces_of(g) if self.has_version else ():
            at = self.at + piece.at
            self.read(g, piece, data[at:at + piece.size])

    def read(self, g, piece, data):
        """Decodes a piece. It is bad if it isn't the encoding of what it decodes to."""
        if not any(data):
            return
        if len(piece.key) == 2:
            value = decode_volume(g, data, self.version)
            wanted = encode_volume(value)
        else:
            value = decode_stripe(g, data, piece.key[2], self.state[piece.key[:2]])
            wanted = encode_stripe(g, value)
        self.state[piece.key] = value
        if data != wanted:
            self.bad[piece.number] = self.at + piece.at + first_difference(data, wanted)

    def check(self):
        """Raises the first reason to refuse it."""
        if not self.has_version:
            raise Refused("bad version", self.at, "its head isn't 1 or 2 and 63 zeros")
        for number, at in sorted(self.bad.items()):
            raise Refused(f"bad piece {number}", at, "it isn't the encoding of what the piece decodes to")


# ---- records


def message_of(record):
    """The kind, the numbers and the data of a record, or None where it is no record."""
    kind, *numbers = struct.unpack_from("<BBBBH", record)
    if not 0 < kind <= len(KINDS):
        return None
    name = KINDS[kind - 1]
    size = DATA.get(name, 0)
    has_more = any(numbers[FIELDS[name]:]) or any(record[6:8]) or any(record[8 + size:])
    return None if has_more else (name, numbers[:FIELDS[name]], digits(record[8:8 + size]) if size else None)


def text_of(message):
    """A message as its line."""
    if message is None:
        return "(no message)"
    name, numbers, data = message
    return " ".join([name, *map(str, numbers), *([data] if data else [])])


def refusal(g, state, message):
    """What is wrong with a change at this state, or None."""
    name, numbers, _ = message
    limits = (g.aggregates, g.volumes, g.files, g.blocks)
    if any(number >= limit for number, limit in zip(numbers, limits)):
        return "range"
    volume = state[tuple(numbers[:2])]
    if name == "makevol":
        return "exists" if volume else None
    if volume is None:
        return "volume"
    if volume.sealed and name not in ("seal", "unseal"):
        return "sealed"
    if name == "create":
        return "exists" if numbers[2] in volume.files else None
    if len(numbers) > 2 and numbers[2] not in volume.files:
        return "file"
    if name == "write":
        a, v, file, block = numbers
        stripe = state[a, v, stripe_of(g, file, block)]
        return "space" if (file, block) not in stripe and len(stripe) >= g.quota else None
    return None


def run(g, state, message):
    """Has a change that isn't refused change the state."""
    name, numbers, data = message
    place = tuple(numbers[:2])
    volume = state[place]
    stripes = [place + (s,) for s in range(g.stripes)]
    if name == "makevol":
        state[place] = Volume(False, frozenset(), "00")
    elif name == "dropvol":
        state[place] = None
        state.update({key: {} for key in stripes})
    elif name == "create":
        state[place] = volume._replace(files=volume.files | {numbers[2]})
    elif name == "delete":
        state[place] = volume._replace(files=volume.files - {numbers[2]})
        for key in stripes:
            state[key] = {at: block for at, block in state[key].items() if at[0] != numbers[2]}
    elif name in ("seal", "unseal"):
        state[place] = volume._replace(sealed=name == "seal")
    elif name == "setlabel":
        state[place] = volume._replace(label=data)
    else:
        key = place + (stripe_of(g, *numbers[2:]),)
        state[key] = {at: block for at, block in state[key].items() if at != tuple(numbers[2:])}
        if name == "write":
            state[key][tuple(numbers[2:])] = data


# ---- a device


class Device:
    """The bytes of a device whose header is sound. Anything else of it may be wrong."""

    def __init__(self, data):
        if len(data) < HALVES:
            raise Refused("device too short", len(data), f"a device has at least {HALVES} bytes")
        if data[:NUMBERS] != MAGIC:
            raise Refused("not formatted", first_difference(data, MAGIC), "it doesn't begin with 1 and WAFFSRV")
        self.g = g = Geometry(*struct.unpack_from("<8H", data, NUMBERS))
        for number, (name, (least, most)) in enumerate(RANGES._asdict().items()):
            if not least <= g[number] <= most:
                raise Refused("bad geometry", NUMBERS + 2 * number, f"{name} is {g[number]}, not {least} to {most}")
        if any(data[24:HEADER]):
            at = 24 + first_difference(data[24:HEADER], bytes(HEADER))
            raise Refused("bad geometry", at, "it isn't zero, as the rest of the header")
        if len(data) < image_at(g, 2):
            raise Refused("device too short", len(data), f"its geometry takes {image_at(g, 2)} bytes")
        self.data = data
        self.named = 1 if data[ROOT] == 1 else 0

    def image(self, number):
        return Image(self.g, self.data, number)

    def is_linked(self, half):
        """Whether a half links to the other one."""
        return self.data[half_at(self.g, half)] == 1

    def gates(self, half):
        return self.data[gate_at(self.g, half, 0):gate_at(self.g, half, self.g.half)]

    def front(self, half):
        """How many records the committed prefix of a half has."""
        return sum(1 for _ in itertools.takewhile(lambda gate: gate == 1, self.gates(half)))

    def message(self, half, number):
        at = record_at(self.g, half, number)
        return message_of(self.data[at:at + RECORD])

    def halves_in_force(self):
        return [self.named, 1 - self.named] if self.is_linked(self.named) else [self.named]

    def recovered(self):
        """The state to which it recovers, and how many records are in force; or why it is refused."""
        image = self.image(self.named)
        image.check()
        if self.is_linked(0) and self.is_linked(1):
            raise Refused("bad chain", half_at(self.g, 1), "the chain bytes of both halves are 1")
        state = image.state
        count = 0
        for half in self.halves_in_force():
            for number in range(self.front(half)):
                message = self.message(half, number)
                problem = "it is no change"
                if message and message[0] in CHANGES:
                    problem = refusal(self.g, state, message)
                if problem:
                    what = f"{text_of(message)}: {problem}"
                    raise Refused(f"bad record {half} {number}", record_at(self.g, half, number), what)
                run(self.g, state, message)
                count += 1
        return state, count


def recovered(data):
    """The geometry of a device, the state to which it recovers, and how many records are in force. Raises Refused."""
    device = Device(data)
    return (device.g, *device.recovered())
