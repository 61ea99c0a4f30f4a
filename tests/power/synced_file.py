"""The file of a device, as shim.c reports what is done to it: its bytes at the last sync, and what was written
since."""
import struct

HEAD_OF_EVENT = struct.Struct("<cQQ")  # as shim.c reports what is done to the file: a kind, a place and a length
EMPTIED = HEAD_OF_EVENT.pack(b"T", 0, 0)  # as it would report that `format` opens the file


class SyncedFile:
    """The file as docs/device.md has it, from what shim.c has reported: its bytes at the last sync, and where it was
    written since."""

    def __init__(self, start, heard):
        self.start = start
        self.events = []  # the number of the disk's event then, the kind, the place and the bytes
        rest = b""
        for when, data in heard:
            rest += data
            while len(rest) >= HEAD_OF_EVENT.size:
                kind, at, length = HEAD_OF_EVENT.unpack_from(rest)
                end = HEAD_OF_EVENT.size + length
                if len(rest) < end:
                    break
                self.events.append((when, kind, at, rest[HEAD_OF_EVENT.size:end]))
                rest = rest[end:]

    def problem(self, cut, data):
        """What is wrong with bytes that were synced. Nothing is while the length isn't synced."""
        now = bytearray(self.start or b"")
        synced = self.start
        written_since = []
        for _, kind, at, new in [event for event in self.events if event[0] <= cut]:
            if kind == b"S":
                synced = bytes(now)
                written_since = []
            elif kind == b"T":
                now = now[:at].ljust(at, b"\0")
                synced = None
            else:
                now[at:at + len(new)] = new
                written_since.append(slice(at, at + len(new)))
        if synced is None:
            return None
        left = bytearray(data or b"")
        if len(left) == len(synced):
            for part in written_since:
                left[part] = synced[part]
        if left == synced:
            return None
        return f"synced bytes have changed, or of {len(synced)} there are {len(left)}"
