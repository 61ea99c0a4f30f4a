"""What a device's file holds after each refusal of `serve`, after `serve` and after the next one; each call of the
device fails in turn, alone and with all behind it, and the next run has all that was acknowledged. What `format`
syncs before it tells that it has made a device."""
import os
import random
import re
import shutil
import subprocess
import unittest

from .meaning import Geometry, options_of
from .program import (
    DEVICE_FAULT, EACH_KIND, MADE, PROGRAM, READ_FAULT, REPLIES, Case, bytes_of, is_beginning, put_bytes, run)
from .servers import (
    CHAIN_0, CHAIN_1, GATE_0, GATE_1, GREATEST, IMAGE_0, IMAGE_1, RECORD_0, ROOT, SMALL, Device, File, text_of,
    with_bytes)

TOLD = b"formatted 8840\n"
# The syncs of the new file and of its folder, one more and a read, then six writes and three syncs.
CALLS_OF_FORMAT = 13
NOBODY = 65534
VOLUMES = 4
WIDE = Geometry(1, VOLUMES, 4, 1, 1, 4, 4, 1024)
LEAST_CALLS = 50  # of the device, while some thirty changes are logged
# What is set in a device that was just formatted, and how it is reported.
DAMAGED = (
    ("not formatted", (0, 0)),
    ("not formatted", (1, 0)),
    ("bad geometry", (8, 5)),
    ("bad geometry", (24, 1)),
    ("bad version", (IMAGE_0, 0)),
    ("bad version", (IMAGE_0, 3)),
    ("bad version", (IMAGE_0 + 1, 1)),
    ("bad version", (ROOT, 1)),
    ("bad piece 0", (4488, 2)),
    ("bad piece 1", (4552, 1)),
    ("bad piece 2", (5592, 2)),
    ("bad record 0 0", (GATE_0, 1)),
    ("bad record 0 0", (GATE_0, 1), (RECORD_0, 9)),
    ("bad record 0 0", (GATE_0, 1), (RECORD_0, 2)),
    ("bad record 0 1", (GATE_0, 1), (RECORD_0, 1), (193, 1), (716, 1)),
    ("bad chain", (CHAIN_0, 1), (CHAIN_1, 1)))
# Of the device, each of another part, up to the one that is bad.
READS = {
    "not formatted": 1, "bad geometry": 1, "bad version": 3, "bad piece 0": 4, "bad piece 1": 5, "bad piece 2": 6,
    "bad chain": 8, "bad record 0 0": 9, "bad record 0 1": 10}
PIECES = 4 * 8 * (1 + 8)  # of an image of the greatest device


class NoFile(Case):
    """What is no file."""

    def test_no_file(self):
        """a folder, a pipe and a block device are no devices"""
        pipe = self.at("pipe")
        os.mkfifo(pipe)
        image = self.at("image")
        put_bytes(image, bytes(1 << 20))
        paths = [self.folder, pipe]
        looped = subprocess.run(["losetup", "--find", "--show", image], capture_output=True, text=True, check=False)
        block = looped.stdout.strip()
        if block:
            self.addCleanup(subprocess.run, ["losetup", "--detach", block], check=True)
            paths.append(block)
        for path in paths:
            for command in ("format", "show", "serve"):
                self.ends(f"{command} of {path}", run([command, path], MADE), 1, b"", DEVICE_FAULT)
        self.assertEqual(bytes_of(image), bytes(1 << 20))


class Damage(Case):
    """Devices of which some bytes are wrong."""

    def refuses(self, name, file, data, text):
        """Checks that `serve` refuses a device of these bytes, and leaves them."""
        put_bytes(file.path, data)
        self.ends(f"serve of a device {name}: {text}", file.serve(MADE), 1, b"", f"waffd: {text}\n".encode())

    def test_damage(self):
        file = File(self.folder)
        rows = [(f"where {changes} are set", with_bytes(file.formatted, *changes), text) for text, *changes in DAMAGED]
        for length in (0, 127, 8839):
            rows.append((f"of {length} bytes", file.formatted[:length], "device too short"))
        for name, data, text in rows:
            self.refuses(name, file, data, text)
            self.holds("and the file stays", file.path, data)

    def test_a_bad_record_behind_a_cut(self):
        """The checkpoint that was cut short is finished before the record of the other half is looked at."""
        file = File(self.folder)
        cut_short = with_bytes(file.formatted, (CHAIN_0, 1), (GATE_1, 1))
        finished = with_bytes(file.opened, (CHAIN_0, 1), (GATE_1, 1))
        for name, data in (("with a bad record behind a cut", cut_short), ("refused before", finished)):
            self.refuses(name, file, data, "bad record 1 0")
            self.holds("and that checkpoint is finished", file.path, finished)


class Files(Case):
    """What the file holds after a run, and what the next run finds."""

    def shows(self, name, file, area, records, summary):
        """A check of what `show` prints."""
        with self.subTest(name):
            shown = run(["show", file.path])[1].decode().splitlines()  # with the geometry and the version
            self.assertEqual(shown[1:4], [f"area {area}", f"records {records}", f"summary {summary}"])

    def test_no_input(self):
        file = File(self.folder)
        self.ends("serve on no input", file.serve(), 0, b"", b"")
        self.holds("leaves two points of the empty state", file.path, with_bytes(file.formatted, (IMAGE_1, 2)))
        file.format()
        self.ends("serve without workers", file.serve(MADE, "--workers", "0"), 2, b"", b"waffd: no workers\n")
        self.holds("leaves an opened device", file.path, file.opened)

    def test_changes(self):
        file = File(self.folder)
        three = b"".join(MADE.splitlines(keepends=True)[:3])
        for every, area in ((0, 0), (2, 1)):
            file.format()
            end = file.serve(three, "--every", str(every))
            self.ends(f"three changes, every {every}", end, 0, b"done\ndone\ndone\n", b"")
            self.shows("are in the last point", file, area, 0, "1 1 1")
            end = file.serve(b"read 0 0 0 0\nsummary\n")
            self.ends("and in the next run", end, 0, b"block 6162\nsummary 1 1 1\n", b"")

    def test_a_failed_read(self):
        file = File(self.folder)
        end = self.between("refuse.c").run("FAIL_READ", 2, ["serve", file.path], MADE + b"dropvol")
        self.ends("serve where the second read fails", end, 1, REPLIES, READ_FAULT)
        self.shows("leaves the changes in the log", file, 1, 3, "1 1 1")
        self.ends("and in the next run", file.serve(b"read 0 0 0 0\n"), 0, b"block 6162\n", b"")

    def test_a_longer_file(self):
        file = File(self.folder)
        put_bytes(file.path, file.formatted + b"more" * 1000)
        self.ends("serve on a longer file", file.serve(MADE), 0, REPLIES, b"")
        with self.subTest("leaves what is behind"):
            self.assertEqual(bytes_of(file.path)[8840:], b"more" * 1000)


def least_batches(stripes, slots):
    """In how few batches writes to these stripes can be logged, where so many lines may be outstanding. A batch has the
    first unlogged write to each stripe, and replies are sent in order."""
    logged = [False] * len(stripes)
    unsent = batches = 0
    while unsent < len(stripes):
        first = {}
        for at in range(unsent, min(unsent + slots, len(stripes))):
            if not logged[at]:
                first.setdefault(stripes[at], at)
        for at in first.values():
            logged[at] = True
        batches += 1
        while unsent < len(stripes) and logged[unsent]:
            unsent += 1
    return batches


class Calls(Case):
    """How many calls of the device a run makes."""

    def makes(self, name, words, reads, changes=None):
        """Checks how many reads of the device a run of these words makes, and how many writes and syncs, if that is
        given."""
        with self.subTest(name):
            _, (calls, changing, *_) = self.between("stop.c").counts(self.at("counts"), words)
            self.assertEqual(calls - changing, reads)
            if changes is not None:
                self.assertEqual(changing, changes)

    def test_refusals(self):
        """What is refused was read up to its first fault, and `serve` has made two syncs: the file's, and the opening's
        first."""
        file = File(self.folder)
        for text, *changes in DAMAGED:
            put_bytes(file.path, with_bytes(file.formatted, *changes))
            reads = READS[text]
            for command, syncs in (("show", 0), ("serve", 2)):
                name = f"{command} where {changes} are set: {reads} reads and {syncs} syncs"
                self.makes(name, [command, file.path], reads, syncs)

    def changing_calls(self, stripes, *options):
        """How many writes and syncs a run makes that writes to these stripes of new volumes, of four stripes each."""
        lines = [f"makevol 0 {volume}\ncreate 0 {volume} 0\n" for volume in range(VOLUMES)]
        lines += [f"write 0 {stripe // 4} 0 {stripe % 4} 61\n" for stripe in stripes]
        run(["format", self.at("wide"), *options_of(WIDE)])
        words = ["serve", self.at("wide"), *options]
        end, (_, changing, *_) = self.between("stop.c").counts(self.at("counts"), words, "".join(lines).encode())
        self.assertEqual(end, (0, b"done\n" * (len(stripes) + 2 * VOLUMES), b""))
        return changing

    def test_batches_are_as_large_as_they_can_be(self):
        """Each batch takes two writes and two syncs. The replies of a batch leave at once, so that as many lines as
        there are slots can go into the next ones. Where the processors are busy a batch may be smaller: so the best of
        some runs counts."""
        chosen = random.Random(1)
        stripes = [chosen.randrange(4 * VOLUMES) for _ in range(900)]
        for slots in (1, 16, 64):
            with self.subTest(slots=slots):
                least = least_batches(stripes, slots)
                made = min(self.changing_calls(stripes, "--slots", str(slots)) for _ in range(3))
                made -= self.changing_calls([], "--slots", str(slots))
                self.assertLessEqual(made / 4, 1.03 * least)

    def test_each_part_is_read_once(self):
        """The header, the root byte, an image's head and its pieces, the chain byte and the commit bytes."""
        run(["format", self.at("great"), *options_of(GREATEST)])
        for command in ("show", "serve"):
            name = f"{command} reads each part of the greatest device once"
            self.makes(name, [command, self.at("great")], 5 + PIECES)


class DeviceFaults(Case):
    """Each call of the device fails in turn, alone or with all behind it. After the one that failed there is none."""

    def test_each_call(self):
        lines = (EACH_KIND * 3).decode().splitlines()
        between = self.between("stop.c")
        for turn in ("FAIL_CALL", "FAIL_CALLS_FROM"):
            for slots, every in ((1, 2), (16, 0)):
                def attempt(number):
                    self.number = number
                    self.device = Device(self.folder, (SMALL, 2, slots, every))
                    return between.run_to_fault(turn, number, self.device.words(), text_of(lines))

                def judge(found):
                    end, calls = found
                    self.has_ended(end, 1, lambda output: is_beginning(output, output), DEVICE_FAULT)
                    self.assertEqual(calls, self.number, "calls of the device, the last of them failed")
                    self.device.judge(lines, end[1], False)

                self.each(f"{turn}: {slots} slots, every {every}", LEAST_CALLS, attempt, judge)


class Formatting(Case):
    """What `format` calls, and where it fails."""

    @unittest.skipUnless(shutil.which("strace"), "strace isn't installed, so what `format` syncs isn't seen")
    def test_syncs(self):
        """The file and then its folder are synced, then what is written to the file, and then the line is printed."""
        rows = (("in a folder", self.at("made")), ("in this folder", "made_here"), ("over a file", self.at("made")))
        for name, path in rows:
            with self.subTest(f"format syncs the file, its folder, and what it writes: {name}"):
                self.syncs_in_order(path)

    def syncs_in_order(self, path):
        """Looks at the calls of `format`, of which none but the first is a sync of the folder."""
        strace = ("strace", "-y", "-e", "trace=fsync,fdatasync,pwrite64,write", "-o", self.at("found"), PROGRAM)
        end = run(["format", path, *options_of(SMALL)], program=strace, cwd=self.folder)
        self.has_ended(end, 0, TOLD, b"")
        calls = re.findall(r"^(\w+)\(\d+<(.*?)>.* = (?!-)", bytes_of(self.at("found")).decode(), re.M)
        folder = os.path.realpath(self.folder)
        file = os.path.join(folder, os.path.basename(path))
        self.assertEqual(calls[:2], [("fsync", file), ("fsync", folder)])
        of_file = [name for name, of in calls if of == file]
        self.assertEqual(len(of_file), len(calls) - 2, f"beside the folder's sync and the line: {calls}")
        self.assertEqual(of_file[-1], "fdatasync", f"{calls}")
        self.assertEqual(calls[-1][0], "write", f"{calls}")

    def test_a_folder_that_may_not_be_read(self):
        """A folder that lets this user make files and not read it: the new file's name isn't synced, and that is no
        fault."""
        closed = self.at("closed")
        os.mkdir(closed)
        os.chmod(closed, 0o333)
        os.chmod(self.folder, 0o711)
        user = NOBODY if os.geteuid() == 0 else None  # root may read each folder
        end = run(["format", os.path.join(closed, "made"), *options_of(SMALL)], user=user)
        os.chmod(closed, 0o700)
        self.ends("format in a folder that can't be read", end, 0, TOLD, b"")

    def test_a_folder_that_can_not_be_opened(self):
        """Any other refusal to open the folder is a fault.

        Here the new file takes the last number that a file may have."""
        words = ["format", self.at("made"), *options_of(SMALL)]
        for most in range(4, 64):
            limited = f'ulimit -n {most} && exec "$0" "$@"'
            end = run(words, program=["sh", "-c", limited, PROGRAM])
            if os.path.exists(self.at("made")):
                self.has_ended(end, 1, b"", DEVICE_FAULT)
                return
        self.fail("no limit lets the file be made")

    def test_the_calls_of_a_great_format(self):
        """The greatest image takes 130 writes of 65,536 bytes, and one of the rest.

        It has 8,521,792 bytes."""
        words = ["format", self.at("great"), *options_of(GREATEST)]
        end, (calls, *_) = self.between("stop.c").counts(self.at("counts"), words)
        self.has_ended(end, 0, b"formatted 18110848\n", b"")
        self.assertEqual(calls, CALLS_OF_FORMAT + 130)

    def test_faults(self):
        """Each call of the device fails in turn, alone or with all behind it: nothing is printed but the fault, and
        there is no call after the one that failed."""
        for is_over in (False, True):
            for turn in ("FAIL_CALL", "FAIL_CALLS_FROM"):
                self.fails_in_turn(turn, is_over)

    def fails_in_turn(self, turn, is_over):
        """Checks `format` of a new file, or over a device, of which each call fails."""
        words = ["format", self.at("faulty"), *options_of(SMALL)]
        between = self.between("stop.c")

        def attempt(number):
            self.number = number
            if os.path.exists(self.at("faulty")):
                os.unlink(self.at("faulty"))
            if is_over:
                run(words)
            return between.run_to_fault(turn, number, words)

        def judge(found):
            end, calls = found
            self.has_ended(end, 1, b"", DEVICE_FAULT)
            self.assertEqual(calls, self.number, "calls of the device, the last of them failed")

        what = "over a device" if is_over else "of a new file"
        self.each(f"{turn}: format {what}", CALLS_OF_FORMAT, attempt, judge)
