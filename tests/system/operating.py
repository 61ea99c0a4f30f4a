"""What the pages tell whoever operates a server: the unit and the commands of operations/service; the copy; the stack;
what a crash leaves."""
import fcntl
import itertools
import os
import re
import shutil
import subprocess
import sys
import time
import unittest

from . import fronts
from .fronts import FULL_BLOCK
from .program import PATIENCE, PROGRAM, TOP, Case, bytes_of, put_bytes, run
from .meaning import Geometry, lines_that_read, options_of
from .servers import COMMON, GREATEST, Drawing, replies_of, text_of

COPY = os.path.join(TOP, "examples", "copy", "copy.py")
# Runs copy.py with the words behind, and has it wait for no lock.
HURRIED = (sys.executable, "-c", """
import os, runpy, sys
sys.path.append(os.path.join(os.path.dirname(sys.argv[1]), os.pardir, "client"))
import client
client.locked.__defaults__ = (0,)
del sys.argv[0]
runpy.run_path(sys.argv[0], run_name="__main__")
""", COPY)
SOCKETS = "/run/waffd/"
FIRST_SYNC_OF_A_CHANGE = 6  # the opening makes five


class Service(fronts.Unit):
    """The unit, and what the page tells to do with it."""

    @unittest.skipUnless(shutil.which("systemd-analyze"), "systemd-analyze isn't installed")
    def test_unit(self):
        """systemd's own tool takes the unit, and lets it start only on a device that is there"""
        end = run(["verify", self.unit], program=["systemd-analyze"])
        self.has_ended(end, 0, b"", lambda text: b"waffd" not in text)
        self.assertTrue(self.may_start())
        put_bytes(self.device, b"")
        self.assertFalse(self.may_start())

    def test_restart(self):
        """where a program or a folder isn't there the unit isn't started again"""
        final = self.values["RestartPreventExitStatus"].split()
        for name, status in (("usr/local/bin/waffd", "69"), ("srv/waffd", "66")):
            os.rename(self.at(name), self.at(status))
            self.assertEqual(str(self.starts().wait(PATIENCE)), status)
            self.assertIn(status, final)

    def test_backup(self):
        """the commands of the page back a device up, restore it for its user alone, and keep the one before"""
        run(["serve", self.device], b"makevol 0 0\n")
        self.does("Back up")
        run(["serve", self.device], b"makevol 0 1\n")
        self.does("Restore a copy")
        self.does("Upgrade")
        self.does("Install it")
        self.holds_volumes(self.device, 1)
        self.assertEqual(os.stat(self.device).st_mode & 0o777, 0o600)
        kept, = self.devices_before()
        self.holds_volumes(kept, 2)

    def holds_volumes(self, device, count):
        """Asserts that a device holds so many volumes."""
        self.assertEqual(run(["serve", device], b"summary\n")[1], b"summary %d 0 0\n" % count)

    def devices_before(self):
        """Those that a restore has kept."""
        return [os.path.join(self.at("srv/waffd"), name) for name in sorted(os.listdir(self.at("srv/waffd")))
                if name.startswith("device.")]

    def test_lines(self):
        """the commands of the page write what a running server holds as lines, with the geometry, and restore them"""
        g = Geometry(1, 4, 8, 1, 16, 64, 8, 4)
        run(["format", self.device, *options_of(g)])
        self.starts()
        self.asks(self.connects(), FULL_BLOCK, b"done\n" * 3)
        self.does("Back up while it runs")
        self.assertTrue(self.does("A drill").endswith(b"the lines can be restored\n"))
        os.unlink(self.device)  # it is lost, and with it the geometry
        self.does("Restore lines")
        shown = run(["show", self.device])[1].decode().splitlines()
        self.assertEqual((shown[0], shown[3]), (f"geometry {' '.join(map(str, g))}", "summary 1 1 1"))
        self.assertEqual(self.devices_before(), [])

    def test_the_way_back(self):
        """the commands of the page lead back after an upgrade, with what was acknowledged since"""
        old = bytes_of(self.at("usr/local/bin/waffd"))
        shutil.copy(self.at("usr/local/bin/waffd"), self.at("usr/local/bin/waffd.old"))
        put_bytes(self.at("usr/local/bin/waffd"), old + b"a later version")
        run(["serve", self.device], FULL_BLOCK)
        self.does("Go back after an upgrade")
        self.assertEqual(bytes_of(self.at("usr/local/bin/waffd")), old)
        self.does("Restore lines")
        self.assertEqual(run(["serve", self.device], b"summary\n")[1], b"summary 1 1 1\n")

    @unittest.skipUnless(shutil.which("strace"), "strace isn't installed")
    @unittest.skipUnless(shutil.which("systemd-analyze"), "systemd-analyze isn't installed")
    def test_a_failed_sync(self):
        """after a failed sync the unit may not start, and it is told how full the disk is and whose the device is"""
        inject = f"inject=fdatasync:error=EIO:when={FIRST_SYNC_OF_A_CHANGE}+"
        server = self.starts("strace", "-f", "-o", self.at("calls"), "-e", "trace=fdatasync", "-e", inject)
        self.asks(self.connects(), b"makevol 0 0\n", b"")
        _, found = self.has_stopped(server, 1, b"waffd: device fault\n")
        self.assertRegex(found, f"(?s)Filesystem.* Use%.*\n.* {self.device}\n")
        self.assertIn(b"(INJECTED)", bytes_of(self.at("calls")))
        self.assertFalse(self.may_start())

    def test_library(self):
        """the C library that the page names is the one that the program needs"""
        needed = re.findall(rb"\0GLIBC_2\.(\d+)(?=\0)", bytes_of(PROGRAM))
        self.assertIn(f"the GNU C library, 2.{max(map(int, needed))} or later", self.page)


class Copy(Case):
    """examples/copy, from a device `old` to a device `new`."""

    def device(self, name, g, lines=()):
        """Makes a device that holds what these lines make."""
        run(["format", self.at(name), *options_of(g)])
        replies_of(run(["serve", self.at(name)], text_of(lines)), "serve")

    def copy(self):
        """The end of a copy."""
        return run([COPY, self.at("old"), self.at("new"), PROGRAM], program=[])

    def test_copy(self):
        """random states are copied to other geometries, and what each query answers stays"""
        for seed, to in enumerate((COMMON, GREATEST, Geometry(1, 4, 8, 1, 16, 64, 8, 4))):
            self.device("old", COMMON, [*Drawing(seed, COMMON).lines(1000), "makevol 0 3", "seal 0 3"])
            self.device("new", to)
            self.has_ended(self.copy(), 0, lambda text: text.startswith(b"copied "), b"")
            reads = text_of(lines_that_read(COMMON))
            self.assertEqual(run(["serve", self.at("new")], reads), run(["serve", self.at("old")], reads))

    def test_lines(self):
        """random states become lines, which make the same state again on devices of other geometries, and in plain"""
        for seed, to in enumerate((COMMON, GREATEST, Geometry(2, 4, 8, 1, 16, 64, 8, 4))):
            self.device("old", COMMON, [*Drawing(seed, COMMON).lines(1000), "makevol 0 3", "seal 0 3"])
            self.device("new", to)
            reads = text_of(lines_that_read(COMMON))
            status, lines, told = self.copies("old")
            self.assertEqual(status, 0)
            self.has_ended(self.copies("-", "new", given=lines), 0, told, b"")
            self.assertEqual(run(["serve", self.at("new")], reads), run(["serve", self.at("old")], reads))
            self.assertEqual(self.copies("new")[1], lines)
            replies = replies_of(run(["plain", *options_of(to)], lines), "plain")
            self.assertEqual(set(replies[:-1]), {"done"})
            self.assertEqual(replies[-1], told.decode().strip().replace("copied", "summary"))

    def copies(self, source, target="-", given=b""):
        """The end of a copy of a device, or of lines."""
        words = [path if path == "-" else self.at(path) for path in (source, target)]
        return run([COPY, *words, PROGRAM], given, program=[])

    def test_lines_that_are_cut_off(self):
        """lines that end early, and others than a copy writes, are refused, and the new device stays empty"""
        self.device("old", COMMON, ["makevol 0 3", "create 0 3 9", "write 0 3 9 0 6162"])
        self.device("new", COMMON)
        new = bytes_of(self.at("new"))
        lines = self.copies("old")[1]
        for length in range(len(lines) - 1):
            if length % 5 == 0 or length > len(lines) - 10:
                cut_off = b"copy: the lines were cut off, as the last one is not `summary`\n"
                self.has_ended(self.copies("-", "new", given=lines[:length]), 1, b"", cut_off)
        for wrong in (b"punch 0 3 9 0", b"create 0 3", b"write 0 3 9 x 61", b""):
            told = b"copy: line 1 is none that a copy writes: %s\n" % wrong
            self.has_ended(self.copies("-", "new", given=wrong + b"\n" + lines), 1, b"", told)
        self.holds("the new device stays", self.at("new"), new)

    def test_the_greatest(self):
        """a full device of the greatest geometry is copied"""
        volumes = list(itertools.product(range(GREATEST.aggregates), range(GREATEST.volumes)))
        blocks = list(itertools.product(range(GREATEST.quota), (0, 4), range(0, GREATEST.blocks, GREATEST.width)))
        lines = [f"makevol {a} {v}" for a, v in volumes]
        lines += [f"create {a} {v} {file}" for file in (0, 4) for a, v in volumes]
        lines += [f"write {a} {v} {f} {b + at} {at:02x}{v:02x}" for at, f, b in blocks for a, v in volumes]
        self.device("old", GREATEST, lines)
        self.device("new", GREATEST)
        began = time.monotonic()
        self.has_ended(self.copy(), 0, b"copied 32 64 16384\n", b"")
        print(f"       {time.monotonic() - began:.1f} s:")
        self.assertEqual(self.copies("new")[1], self.copies("old")[1])

    def test_show(self):
        """show refuses a copy that was cut off, or whose bytes are another's"""
        self.device("old", COMMON, ["makevol 0 3"])
        whole = bytes_of(self.at("old"))
        rows = (
            (whole, b""), (whole[:-1], b"waffd: device too short\n"),
            (bytes(len(whole)), b"waffd: not formatted\n"), (whole + bytes(9), b""))
        for data, text in rows:
            put_bytes(self.at("copy"), data)
            self.assertEqual(run(["show", self.at("copy")])[2], text)

    def test_what_does_not_fit(self):
        """what doesn't fit is told before anything is written, and so is a new device that isn't empty"""
        held = ["makevol 0 3", "create 0 3 9", *(f"write 0 3 9 {block} 61" for block in (0, 1, 63))]
        rows = (
            (COMMON._replace(volumes=3), " is out of range"),
            (COMMON._replace(files=9), ": file 9 is out of range"),
            (COMMON._replace(blocks=63), ": block 63 of file 9 is out of range"),
            (COMMON._replace(quota=1), ": stripe 1 would have 2 blocks"))
        for to, text in rows:
            self.device("old", COMMON, held)
            self.device("new", to)
            new = bytes_of(self.at("new"))
            self.has_ended(self.copy(), 1, b"", f"copy: volume 0 3{text}\n".encode())
            self.holds(f"and the new device stays{text}", self.at("new"), new)
        self.device("new", COMMON, ["makevol 0 0"])
        self.has_ended(self.copy(), 1, b"", b"copy: the new device isn't empty\n")

    def test_page(self):
        """the commands of the page copy a device; a file or a program that isn't there, and a locked file, are told"""
        os.symlink(os.path.abspath(PROGRAM), self.at("waffd"))
        os.symlink(os.path.join(TOP, "examples"), self.at("examples"))
        self.device("old", COMMON, ["makevol 0 3"])
        page = bytes_of(os.path.join(os.path.dirname(COPY), "README.md")).decode()
        for command in re.findall(r"^    (.*)", page, re.M):
            if SOCKETS not in command:  # there is none
                subprocess.run(command, shell=True, cwd=self.folder, check=True, capture_output=True)
        self.assertEqual(replies_of(run(["serve", self.at("new")], b"summary\n"), "serve"), ["summary 1 0 0"])
        for words in (["missing", "new"], ["old", "missing"], ["old", "new", "missing"]):
            self.has_refused(words, b"copy: missing: No such file or directory\n")
        with open(self.at("new"), "rb") as file:
            fcntl.flock(file, fcntl.LOCK_EX)
            self.has_refused(["old", "new"], b"copy: new is served already\n", program=HURRIED)
        self.has_refused(["old", "old"], b"copy: old and old are one file\n")
        with open("/dev/full", "wb") as full:
            self.has_refused(["old"], b"copy: No space left on device\n", stdout=full)

    def has_refused(self, words, text, **how):
        """Asserts that a copy ends so in the folder of the devices."""
        self.has_ended(run(words, cwd=self.folder, **{"program": [COPY], **how}), 1, b"", text)


class Stack(Case):
    @unittest.skipIf(os.path.realpath(PROGRAM).endswith(".by-rattle"), "what the other compiler makes takes more")
    def test_stack(self):
        """four workers serve the greatest geometry with a stack of 32 KiB"""
        run(["format", self.at("great"), *options_of(GREATEST)])
        words = ["serve", self.at("great"), "--workers", "4", "--slots", "64"]
        lines = text_of(Drawing(1, GREATEST).lines(20000))
        small = run(words, lines, program=["sh", "-c", 'ulimit -s 32 && exec "$0" "$@"', PROGRAM])
        self.has_ended(small, 0, run(["plain", *options_of(GREATEST)], lines)[1], b"")


class Costs(Case):
    @unittest.skipUnless(shutil.which("strace"), "strace isn't installed")
    def test_an_empty_session(self):
        """a session that changes nothing syncs and writes as much as the page says"""
        page = bytes_of(os.path.join(TOP, "docs", "program.md")).decode()
        self.assertIn("8 syncs", page)
        strace = ("strace", "-f", "-o", self.at("calls"), "-e", "trace=pwrite64,fsync,fdatasync")
        for g, amount in ((COMMON, "1.07 MB"), (GREATEST, "17 MB")):
            run(["format", self.at("device"), *options_of(g)])
            run(["serve", self.at("device")], program=(*strace, PROGRAM))
            calls = bytes_of(self.at("calls")).decode()
            size = sum(map(int, re.findall(r"pwrite64\(.* = (\d+)$", calls, re.M)))
            self.assertEqual((calls.count("sync("), f"{size / 1e6:.3g} MB"), (8, amount))
            self.assertIn(amount, page)


class Crash(Case):
    def test_what_a_crash_leaves(self):
        """a kill leaves of the protocol's three lines what the page lists, and never the second without the first"""
        page = bytes_of(os.path.join(TOP, "docs", "protocol.md")).decode()
        lines = re.findall(r"^    (write 0 0 0 \d \w\w) {7}stripe", page, re.M)
        self.assertEqual(len(lines), 3)
        replies_of(run(["format", self.at("device")]), "format")
        run(["serve", self.at("device")], b"makevol 0 0\ncreate 0 0 0\n")
        made = bytes_of(self.at("device"))
        for turn in range(120):
            found = self.left_by_a_kill(made, lines, turn % 30 * 0.00002)
            self.assertIn(found[:2], (["hole", "hole"], ["block aa", "hole"], ["block aa", "block bb"]))
            self.assertIn(found[2], ("hole", "block cc"))

    def left_by_a_kill(self, made, lines, seconds):
        """What the three blocks hold where a server of a device that was made so is killed so long after it was sent
        these lines."""
        put_bytes(self.at("device"), made)
        words = [PROGRAM, "serve", self.at("device")]
        server = self.started(words, stdin=subprocess.PIPE, stdout=subprocess.PIPE, bufsize=0)
        server.stdin.write(b"summary\n")
        server.stdout.readline()
        server.stdin.write(text_of(lines))
        time.sleep(seconds)
        server.kill()
        server.communicate()
        reads = b"read 0 0 0 0\nread 0 0 0 1\nread 0 0 0 4\n"
        return run(["serve", self.at("device")], reads)[1].decode().splitlines()
