"""A disk of a guest that loses what wasn't flushed where the power is cut. It is served from here, like those of
tests/power, by a thread for each."""
import contextlib
import os
import random
import threading

from tests.power.served_disk import Kept, ServedDisk, listening, words
from tests.system.program import put_bytes

# What it may keep of the writes that weren't flushed. It writes 4,096 bytes whole.
KEPT = (
    Kept.NONE, Kept.NONE, Kept.ALL, Kept.SOME, Kept.ALL_BUT_ONE, Kept.ONE, Kept.THE_FIRST, Kept.TORN_4096)


class Disk:
    """Its bytes are in the file `path` while its machine is off. `tell` is called with what a cut of the power has
    left."""

    def __init__(self, path, seed, tell):
        self.path = path
        self.chance = random.Random(f"{os.path.basename(path)} {seed}")
        self.tell = tell
        self.thread = None
        self.served = None

    def make(self, mebibytes):
        """Makes it an empty one."""
        with open(self.path, "wb") as file:
            file.truncate(mebibytes << 20)

    def begin(self, name):
        """The words of QEMU, which is started now. The disk is served until QEMU ends."""
        self.settle()
        path = f"{self.path}.socket"
        with contextlib.suppress(FileNotFoundError):
            os.remove(path)
        self.thread = threading.Thread(target=self.serve, args=(listening(path),), daemon=True)
        self.thread.start()
        return words(name, path)

    def serve(self, ear):
        with ear, contextlib.suppress(OSError):
            self.served = ServedDisk(self.path, self.chance, ear)
            for piece in iter(lambda: self.served.socket.recv(1 << 20), b""):
                self.served.heard += piece
                self.served.serve()

    def settle(self):
        """Once QEMU has ended: the file has what was flushed, and of the other writes what is drawn. QEMU flushes all
        where it isn't killed."""
        if self.thread:
            self.thread.join()
        if self.served:
            log = self.served.log
            image, kept = log.image(len(log.events), self.chance.choice(KEPT), self.chance.random())
            put_bytes(f"{self.path}-next", image)
            os.replace(f"{self.path}-next", self.path)  # what the log stands on is still open
            self.tell(f"{os.path.basename(self.path)} keeps {kept}")
        self.thread = None
        self.served = None
