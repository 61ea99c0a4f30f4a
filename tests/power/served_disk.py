"""A disk that is served from here to QEMU, by NBD: each write, its completion and each flush come into a log. From it
images are made of what a cut of the power may leave."""
import collections
import enum
import mmap
import random
import socket
import struct


class Kept(enum.Enum):
    """Which of the writes that weren't durable a disk keeps when its power is cut. The value is printed."""

    NONE = "none"
    ALL = "all"
    SOME = "some"
    ALL_BUT_ONE = "all but one"
    ONE = "one"
    THE_FIRST = "the first"
    TORN_4096 = "torn 4096"  # of all of them some pieces of so many bytes
    TORN_512 = "torn 512"


PIECES = {Kept.TORN_4096: 4096, Kept.TORN_512: 512}  # in bytes
PATIENCE = 120  # seconds for QEMU to connect

# The protocol of NBD: requests and answers, and what is agreed on before the first request.
READ = 0
WRITE = 1
FLUSH = 3
REQUEST = struct.Struct(">IHHQQI")
ANSWER = struct.Struct(">IIQ")
ANSWER_MAGIC = 0x67446698
OPTION = struct.Struct(">QII")
OPTION_ANSWER = struct.Struct(">QIII")
OPTION_ANSWER_MAGIC = 0x3E889045565A9
GO = 7
DONE = 1
INFO = 3
UNSUPPORTED = 0x80000001
FLAGS = 1 | 4  # flushes are served, and no write goes through the cache

Write = collections.namedtuple("Write", "at bytes")
Flush = collections.namedtuple("Flush", "")
Completed = collections.namedtuple("Completed", "number")  # the place in the log of the write or the flush


def private_copy(path):
    """The bytes of a file, whose changes stay in memory."""
    with open(path, "rb") as file:
        return mmap.mmap(file.fileno(), 0, access=mmap.ACCESS_COPY)


class Log:
    """What the disk was asked to do, over the bytes of the file `base`. A disk that lies keeps nothing at a flush."""

    def __init__(self, base, lies=False):
        self.base = base
        self.lies = lies
        self.events = []
        self.heard = collections.defaultdict(list)  # of each port of a guest: the length of the log then, and the bytes

    def before(self, cut):
        """The numbers of the writes before a cut: the durable ones, complete when a flush came that is complete too,
        and the others."""
        durable = []
        volatile = []
        complete = {}
        for number, event in enumerate(self.events[:cut]):
            if isinstance(event, Write):
                volatile.append(number)
            elif isinstance(event, Completed):
                complete[event.number] = number
                if isinstance(self.events[event.number], Flush) and not self.lies:
                    durable += [write for write in volatile if complete.get(write, cut) < event.number]
                    volatile = [write for write in volatile if complete.get(write, cut) >= event.number]
        return durable, volatile

    @staticmethod
    def kept(volatile, mode, rate, chance):
        """Those of the writes that weren't durable of which something is kept. The same is drawn in each mode."""
        one = {chance.choice(volatile)} if volatile else set()
        some = {write for write in volatile if chance.random() < rate}
        first = set(volatile[:chance.randint(0, len(volatile))])
        every = set(volatile)
        sets = {
            Kept.NONE: set(), Kept.SOME: some, Kept.ALL_BUT_ONE: every - one, Kept.ONE: one, Kept.THE_FIRST: first}
        return sets.get(mode, every)

    def image(self, cut, mode, seed):
        """The disk after the power was cut there, and in words what was kept of the writes that weren't durable."""
        chance = random.Random(seed)
        durable, volatile = self.before(cut)
        rate = chance.choice((0.1, 0.5, 0.5, 0.9))
        kept = self.kept(volatile, mode, rate, chance)
        disk = private_copy(self.base)
        for number in sorted(kept.union(durable)):
            at, data = self.events[number]
            end = at + len(data)
            if number not in kept or mode not in PIECES:
                disk[at:end] = data
                continue
            unit = PIECES[mode]
            for piece in range(at - at % unit, end, unit):
                low = max(piece, at)
                high = min(piece + unit, end)
                if chance.random() < rate:  # a piece is old or new
                    disk[low:high] = data[low - at:high - at]
        told = f"{mode.value}: {len(durable)} writes durable, {len(volatile)} not, of these {len(kept)} kept"
        return disk, told


def listening(path):
    """A socket of this name, at which QEMU will knock."""
    ear = socket.socket(socket.AF_UNIX)
    ear.bind(path)
    ear.listen(1)
    ear.settimeout(PATIENCE)
    return ear


def words(name, path, options=""):
    """The words of QEMU for a disk of this name, which it is to connect to there. No writes are merged."""
    server = f"server.type=unix,server.path={path},export=disk,cache.no-flush=off"
    kept = f"write-cache=on,discard=off,write-zeroes=off,request-merging=off{options}"
    return ["-blockdev", f"driver=nbd,node-name={name},{server}", "-device", f"virtio-blk-pci,drive={name},{kept}"]


class ServedDisk:
    """One that QEMU is connected to, with the bytes of the file `base`. `hold` is the share of the writes and flushes
    whose completion is held back, so that some are in flight."""

    def __init__(self, base, chance, ear):
        self.chance = chance
        self.bytes = private_copy(base)
        self.log = Log(base)
        self.hold = 0
        self.held = []  # requests that are held back: the place in the log, and NBD's handle
        self.heard = bytearray()
        self.socket = ear.accept()[0]
        self.shake_hands()

    def shake_hands(self):
        """Agrees with QEMU on the disk: its size, and what it can do. Other options aren't supported."""
        one = self.socket
        one.sendall(b"NBDMAGICIHAVEOPT" + struct.pack(">H", 3))
        one.recv(4, socket.MSG_WAITALL)
        size = struct.pack(">HQH", 0, len(self.bytes), FLAGS)
        blocks = struct.pack(">HIII", 3, 512, 4096, 1 << 25)
        option = None
        while option != GO:
            _, option, length = OPTION.unpack(one.recv(OPTION.size, socket.MSG_WAITALL))
            one.recv(length, socket.MSG_WAITALL)
            answers = [(INFO, size), (INFO, blocks), (DONE, b"")] if option == GO else [(UNSUPPORTED, b"")]
            for kind, data in answers:
                one.sendall(OPTION_ANSWER.pack(OPTION_ANSWER_MAGIC, option, kind, len(data)) + data)

    def serve(self):
        """Takes the requests that have come whole."""
        heard = self.heard
        at = 0
        while len(heard) - at >= REQUEST.size:
            _, _, kind, handle, place, length = REQUEST.unpack_from(heard, at)
            begin = at + REQUEST.size
            data = bytes(heard[begin:begin + length]) if kind == WRITE else b""
            if kind == WRITE and len(data) < length:
                break
            at = begin + len(data)
            if kind == READ:
                self.answer(handle, self.bytes[place:place + length])
            elif kind in (WRITE, FLUSH):
                self.take(Write(place, data) if kind == WRITE else Flush(), handle)
        del heard[:at]

    def take(self, event, handle):
        """Does a write or a flush, and holds its completion back now and then."""
        if isinstance(event, Write):
            self.bytes[event.at:event.at + len(event.bytes)] = event.bytes
        self.held.append((len(self.log.events), handle))
        self.log.events.append(event)
        if self.chance.random() >= self.hold:
            self.complete(-1)

    def complete(self, which):
        """Completes a request that is held back."""
        number, handle = self.held.pop(which)
        self.log.events.append(Completed(number))
        self.answer(handle)

    def answer(self, handle, data=b""):
        self.socket.sendall(ANSWER.pack(ANSWER_MAGIC, 0, handle) + data)
