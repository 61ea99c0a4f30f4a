"""The link between the two machines. The rig takes each frame of one and gives it to the other, unless it is cut."""
import contextlib
import enum
import os
import socket
import struct
import threading

OTHER = {"alpha": "beta", "beta": "alpha"}
PATIENCE = 1  # seconds for QEMU to take a frame
REPLICATION_PORT = 7789
IPV4 = 0x0800
TCP = 6


class Cut(enum.Enum):
    """What doesn't come through."""

    NOTHING = enum.auto()
    FRAMES = enum.auto()  # none does, as where a switch between the machines is broken
    CARRIER = enum.auto()  # none does, and both machines notice that the cable is gone
    REPLICATION = enum.auto()  # those of DRBD don't, those of Corosync do


def is_replication(frame):
    """Whether a frame of Ethernet is DRBD's."""
    if len(frame) < 38 or struct.unpack_from(">H", frame, 12)[0] != IPV4 or frame[23] != TCP:
        return False
    ports = struct.unpack_from(">HH", frame, 14 + 4 * (frame[14] & 15))
    return REPLICATION_PORT in ports


class Link:
    """`words(name)` are those of QEMU's command line."""

    def __init__(self, folder):
        self.folder = folder
        self.cut = Cut.NOTHING
        for name in OTHER:
            ear = socket.socket(socket.AF_UNIX, socket.SOCK_DGRAM)
            ear.bind(f"{folder}/{name}.link")
            threading.Thread(target=self.carry, args=(ear, OTHER[name]), daemon=True).start()

    def words(self, name, number):
        path = f"{self.folder}/{name}"
        ends = f"local.type=unix,local.path={path}.port,remote.type=unix,remote.path={path}.link"
        device = f"virtio-net-pci,netdev=link,mac=52:54:00:00:01:0{number},romfile="
        return ["-netdev", f"dgram,id=link,{ends}", "-device", device]

    def carry(self, ear, name):
        """Takes what one machine sends to the other. What is sent to one that is off is lost."""
        path = f"{self.folder}/{name}.port"
        out = socket.socket(socket.AF_UNIX, socket.SOCK_DGRAM)
        out.settimeout(PATIENCE)
        while True:
            frame = ear.recv(1 << 16)
            if self.lets_through(frame) and os.path.exists(path):
                with contextlib.suppress(OSError):
                    out.sendto(frame, path)

    def lets_through(self, frame):
        if self.cut == Cut.REPLICATION:
            return not is_replication(frame)
        return self.cut == Cut.NOTHING
