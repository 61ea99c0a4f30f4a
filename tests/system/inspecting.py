"""The reader of devices in examples/inspect: it finds what `show` and `serve` find, refuses what they refuse, and
leaves a device as it is."""
import contextlib
import fcntl
import io
import os
import random
import subprocess
import sys
import unittest.mock

from .program import PROGRAM, TOP, Case, bytes_of, put_bytes, run
from .meaning import Geometry, lines_that_read, options_of, state_of_replies
from .servers import (
    CHAIN_0, CHAIN_1, COMMON, GATE_0, GATE_1, IMAGE_0, IMAGE_1, RECORD_0, ROOT, SMALL, WIDE, Drawing, replies_of,
    text_of, with_bytes)

sys.path.append(os.path.join(TOP, "examples", "inspect"))
import device_format
import inspect_device

COMMAND = os.path.join(TOP, "examples", "inspect", "inspect_device.py")
COPY = os.path.join(TOP, "examples", "copy", "copy.py")
# A few sizes of each, so that random bytes of a device meet what they can break.
MIXED = Geometry(2, 2, 2, 1, 3, 6, 2, 6)
SERVERS = ((SMALL, 30), (WIDE, 80), (MIXED, 80), (COMMON, 300))  # with how many lines they are killed behind
DAMAGED = 250  # devices with random bytes
BYTES = (0, 1, 2, 3, 7, 8, 13, 14, 255)

# The device of docs/log.md, byte by byte: three records in half 1, and both images empty.
LINES = ("makevol 0 0", "create 0 0 1", "write 0 0 1 3 6162")
REPORT = """\
geometry: 1 1 2 1 2 4 2 4
length: 8840, of which its parts take 8840
root: 1, so area 1 is named
half 0 at 128: chain byte 0, 0 of 4 records committed, not in force
half 1 at 2276: chain byte 0, 3 of 4 records committed, in force
  record 0: makevol 0 0
  record 1: create 0 0 1
  record 2: write 0 0 1 3 6162
image 0 at 4424: version 2, not named, summary 0 0 0
image 1 at 6632: version 2, named, summary 0 0 0
recovers to: summary 1 1 1, with 3 records in force
"""
RECORD_1 = GATE_1 + 4
STRIPE_1 = IMAGE_1 + 64 + 64
# Bytes of this device that are changed, and the last line then.
DAMAGE = (
    ("the first byte of the header", ((0, 0),), "refused: not formatted at 0: it doesn't begin with 1 and WAFFSRV"),
    ("a letter of the header", ((5, 0),), "refused: not formatted at 5: it doesn't begin with 1 and WAFFSRV"),
    ("a number of the geometry", ((12, 9),), "refused: bad geometry at 12: stripes is 9, not 1 to 8"),
    ("the rest of the header", ((63, 1),), "refused: bad geometry at 63: it isn't zero, as the rest of the header"),
    ("a larger geometry", ((8, 4),), "refused: device too short at 8840: its geometry takes 21704 bytes"),
    ("the version", ((IMAGE_1, 3),), "refused: bad version at 6632: its head isn't 1 or 2 and 63 zeros"),
    ("the version, which is an older one then", ((IMAGE_1, 1),), REPORT.splitlines()[-1]),
    ("the version of the image that isn't named", ((IMAGE_0, 3),), REPORT.splitlines()[-1]),
    ("a piece", ((STRIPE_1 + 8, 5),),
     f"refused: bad piece 1 at {STRIPE_1 + 8}: it isn't the encoding of what the piece decodes to"),
    ("both chain bytes", ((CHAIN_0, 1), (CHAIN_1, 1)),
     f"refused: bad chain at {CHAIN_1}: the chain bytes of both halves are 1"),
    ("a record", ((RECORD_1 + 520, 1),), f"refused: bad record 1 1 at {RECORD_1 + 520}: (no message): it is no change"),
    ("the volume of a record", ((RECORD_1 + 522, 1),),
     f"refused: bad record 1 1 at {RECORD_1 + 520}: create 0 1 1: range"),
    ("a commit byte", ((GATE_1 + 1, 7),), "recovers to: summary 1 0 0, with 1 records in force"),
    ("the root byte", ((ROOT, 0),), "recovers to: summary 0 0 0, with 0 records in force"),
    ("the chain byte, and a record of the other half",
     ((CHAIN_1, 1), (GATE_0, 1), (RECORD_0, 5)), "recovers to: summary 1 1 1, with 4 records in force"),
)


def shown(path):
    """What `show` tells of a device: the summary and the number of records, or why it is refused."""
    status, output, faults = run(["show", path])
    if status:
        return faults.decode().removeprefix("waffd: ").strip()
    lines = output.decode().splitlines()
    return lines[3], lines[2]


def inspected(data):
    """The same by the reader."""
    try:
        _, state, count = device_format.recovered(data)
    except device_format.Refused as refused:
        return str(refused)
    return device_format.summary_of(state), f"records {count}"


def printed(*words):
    """What the command prints, and its status."""
    end = subprocess.run([sys.executable, COMMAND, *words], capture_output=True, text=True, check=False)
    return end.stdout, end.returncode


class Inspect(Case):
    def killed(self, g, lines):
        """The bytes of a device whose server was killed once it had answered these lines."""
        path = self.at("killed")
        replies_of(run(["format", path, *options_of(g)]), "format")
        words = [PROGRAM, "serve", path, "--slots", "1024"]
        child = self.started(words, stdin=subprocess.PIPE, stdout=subprocess.PIPE)
        with child.stdin, child.stdout:
            child.stdin.write(text_of(lines))
            child.stdin.flush()
            for _ in lines:
                child.stdout.readline()
            child.kill()
            child.wait()
        return bytes_of(path)

    def test_report(self):
        """the command prints the parts of the device of docs/log.md, and its state as a copy has it"""
        path = self.at("d")
        put_bytes(path, self.killed(SMALL, LINES))
        with open(path, "rb") as file:
            fcntl.flock(file, fcntl.LOCK_EX)  # of another process: it isn't asked for
            self.assertEqual(printed(path), (REPORT, 0))
        before = bytes_of(path)
        lines = printed("--state", path)[0]
        self.assertEqual(bytes_of(path), before)
        copied = subprocess.run([sys.executable, COPY, path, "-", PROGRAM], capture_output=True, text=True, check=True)
        self.assertEqual(lines, copied.stdout)

    def test_states(self):
        for g, count in SERVERS:
            with self.subTest(f"the state of a device {tuple(g)} is that which a server finds"):
                data = self.killed(g, Drawing(count, g).lines(count))
                found, state, _ = device_format.recovered(data)
                path = self.at("found")
                put_bytes(path, data)
                self.assertEqual((found, inspected(data)), (g, shown(path)))
                replies = replies_of(run(["serve", path], text_of(lines_that_read(g))), "serve")
                self.assertEqual(state, state_of_replies(g, replies))

    def test_damage(self):
        path = self.at("d")
        whole = self.killed(SMALL, LINES)
        for what, changes, last in DAMAGE:
            with self.subTest(f"damage of {what}"):
                put_bytes(path, with_bytes(whole, *changes))
                output, status = printed(path)
                self.assertEqual((output.splitlines()[-1], status), (last, int(last.startswith("refused"))))
                self.assertEqual(inspected(bytes_of(path)), shown(path))
        for size in (0, 127, 8839):
            with self.subTest(f"a device that was cut to {size} bytes"):
                put_bytes(path, whole[:size])
                self.assertIn(f"refused: device too short at {size}: ", printed(path)[0])
                self.assertEqual(inspected(whole[:size]), shown(path))

    def test_random_damage(self):
        """devices with random bytes are refused, or recover, as by the program"""
        drawing = random.Random(1)
        whole = self.killed(MIXED, Drawing(7, MIXED).lines(60))
        used = [at for at, byte in enumerate(whole) if byte]
        path = self.at("d")
        for _ in range(DAMAGED):
            at = drawing.choice(used) + drawing.choice((0, 0, 1, 2, 8, 520))
            changes = [(at, drawing.choice(BYTES)), (ROOT, drawing.randrange(2))]
            data = with_bytes(whole, *changes[:drawing.choice((1, 2))])
            put_bytes(path, data)
            self.assertEqual(inspected(data), shown(path), changes)

    def test_meanwhile(self):
        """a server that writes while the device is read is told of"""
        before = self.killed(SMALL, LINES)
        after = with_bytes(before, (GATE_1 + 3, 1))
        errors = io.StringIO()
        with unittest.mock.patch.object(inspect_device, "read", side_effect=[before, after]), \
                unittest.mock.patch.object(sys, "argv", ["inspect", "d"]), \
                contextlib.redirect_stderr(errors), contextlib.redirect_stdout(io.StringIO()):
            self.assertEqual(inspect_device.main(), 0)
        wanted = f"it changed while it was read, first at {GATE_1 + 3} (commit bytes of half 1): a server writes to it"
        self.assertEqual(errors.getvalue(), f"inspect: {wanted}\n")
