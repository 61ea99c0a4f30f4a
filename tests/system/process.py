"""The program as a process: exit statuses, streams that are closed, full or of the wrong kind, terminals and pipes,
one read or write that fails; that a reply comes before the next line is sent, how many calls of the system piped
input takes, and what is told to whoever operates a server."""
import os
import pty
import re
import resource
import shutil
import signal
import socket
import subprocess
import termios
import time
import unittest

from .program import (
    DEVICE_FAULT, MADE, PATIENCE, PROGRAM, READ_FAULT, REPLIES, TOP, WRITE_FAULT, Case, bytes_in, bytes_of,
    is_beginning, put_bytes, read_until, run)
from .servers import COMMON, SMALL, Device, File, text_of

HELP = ("--help", "-h", "help", "plain --help", "help plain", "serve --help", "serve -h", "help serve")
WRONG_WORDS = (
    "", "flat", "help flat", "--plain", "plain x", "plain --files", "plain --files two", "plain --files 65536")
WRONG_OPTIONS = (
    "", "DEVICE other", "DEVICE --what", "DEVICE --workers", "DEVICE --workers x", "DEVICE --workers 65",
    "DEVICE --workers=-1", "DEVICE --slots 0", "DEVICE --slots 1025", "DEVICE --every 1025",
    "DEVICE --workers 2 --workers 2", "DEVICE --files 2")
OPTIONS = (
    "DEVICE", "--workers 1 DEVICE", "DEVICE --workers=64 --slots=1024 --every=1024", "DEVICE --slots 1 --every 1",
    "--every 0 DEVICE --workers 8")


def is_version(text):
    """The version, and what `rt version` prints of the kit, without the letter of its revision, and of the logic."""
    kit = subprocess.run(["rt", "version"], capture_output=True, check=True).stdout.strip()
    kit = re.sub(rb"[a-z]* logic ", b", logic ", kit)
    return re.fullmatch(rb"waffd \S+ \(" + re.escape(kit) + rb"\)\n", text) is not None


def is_of_clap(text):
    """Whether a fault is told by the parser of the command line, and not by the program."""
    return bool(text) and not text.startswith(b"waffd: ")


class Statuses(Case):
    """How the program ends by the words that it is given."""

    def test_help(self):
        for text in HELP:
            usage = f"Usage: {os.path.basename(PROGRAM)}"
            if "serve" in text:
                usage += " serve"

            def has_usage(output):
                return usage.encode() in output

            self.ends("help: " + text, run(text.split(), MADE), 0, has_usage, b"")
        for word in ("--version", "-V"):
            self.ends(f"version: {word}", run([word], MADE), 0, is_version, b"")

    def test_plain(self):
        self.ends("plain answers and ends with 0", run(["plain"], MADE), 0, REPLIES, b"")
        self.ends("plain on no input", run(["plain"]), 0, b"", b"")
        for text in WRONG_WORDS:
            self.ends("wrong words: " + (text or "none"), run(text.split(), MADE), 2, b"", is_of_clap)
        end = run([b"plain", b"\xff"], MADE)
        self.ends("words that are not UTF-8", end, 2, b"", lambda text: b"invalid UTF-8" in text)
        for number in ("0", "65"):
            end = run(["plain", "--files", number], MADE)
            self.ends(f"--files {number}", end, 2, b"", b"waffd: geometry out of range\n")

    def test_serve(self):
        file = File(self.folder)
        for text in WRONG_OPTIONS:
            end = run(["serve", *text.replace("DEVICE", file.path).split()], MADE)
            self.ends("wrong words: serve " + text, end, 2, b"", is_of_clap)
            self.holds("and the file stays", file.path, file.formatted)
        for text in OPTIONS:
            file.format()
            end = run(["serve", *text.replace("DEVICE", file.path).split()], MADE)
            self.ends("serve " + text, end, 0, REPLIES, b"")
        for path in (self.at("none"), self.at("none/device"), self.folder, "/dev/null", "/dev/full", "/dev/tty"):
            self.ends(f"serve {path}", run(["serve", path], MADE), 1, b"", DEVICE_FAULT)
        with self.subTest("and no file is made"):
            self.assertFalse(os.path.exists(self.at("none")))

    def test_a_busy_file(self):
        """A file that the system doesn't let be written, since a program runs from it."""
        path = self.at("runs")
        shutil.copy("/bin/sleep", path)
        child = self.started([path, "60"])  # which has begun to run by then
        self.ends("serve of a file that is busy", run(["serve", path], MADE), 1, b"", DEVICE_FAULT)
        self.ends("show of it, which only reads", run(["show", path]), 1, b"", b"waffd: not formatted\n")
        child.kill()
        child.wait()
        self.ends("serve of a file that is no device", run(["serve", path], MADE), 1, b"", b"waffd: not formatted\n")


class Streams(Case):
    """Standard input, output and error that are closed, full or of the wrong kind."""

    def opened(self, path, mode):
        """A file that is closed at the end of the test."""
        file = open(path, mode)
        self.addCleanup(file.close)
        return file

    def streams(self):
        """What is wrong with streams: how a run that answers lines ends then, and the streams."""
        ours, theirs = os.pipe()
        os.close(ours)
        self.addCleanup(os.close, theirs)
        for_writing = self.opened("/dev/null", "wb")
        for_reading = self.opened("/dev/null", "rb")
        full = self.opened("/dev/full", "wb")
        return (
            ("standard input closed", (1, b"", READ_FAULT), {"closed": [0]}),
            ("standard output closed", (1, b"", WRITE_FAULT), {"closed": [1]}),
            ("standard error closed", (0, REPLIES, b""), {"closed": [2]}),
            ("output and error closed", (1, b"", b""), {"closed": [1, 2]}),
            ("all closed", (1, b"", b""), {"closed": [0, 1, 2]}),
            ("standard input for writing alone", (1, b"", READ_FAULT), {"stdin": for_writing}),
            ("standard output for reading alone", (1, None, WRITE_FAULT), {"stdout": for_reading}),
            ("to a full device", (1, None, WRITE_FAULT), {"stdout": full}),
            ("to a pipe that nobody reads", (1, None, WRITE_FAULT), {"stdout": theirs}))

    def test_plain(self):
        for name, wanted, streams in self.streams():
            self.ends(f"plain, {name}", run(["plain"], MADE, **streams), *wanted)
        self.ends("standard error closed, wrong words", run(["flat"], closed=[2]), 2, b"", b"")
        for word in ("--help", "--version"):
            self.ends(f"{word} with the output closed", run([word], closed=[1]), 1, b"", WRITE_FAULT)
        full = self.opened("/dev/full", "wb")
        self.ends("--help to a full device", run(["--help"], stdout=full), 1, None, WRITE_FAULT)

    def test_serve(self):
        file = File(self.folder)
        no_input = ("output closed and no input", (0, b"", b""), {"closed": [1], "given": b""})
        for name, wanted, streams in (*self.streams(), no_input):
            file.format()
            self.ends(f"serve, {name}", file.serve(**{"given": MADE, **streams}), *wanted)
            end = file.serve(b"summary\n")
            self.ends("and the next run goes on", end, 0, lambda text: text.startswith(b"summary "), b"")

    def test_numbers(self):
        """With a stream closed its number is taken, by something that can't be written, before a file is opened."""
        for closed in ([1], [2], [1, 2]):
            with self.subTest(f"the number of a closed stream is taken: {closed}"):
                self.takes_numbers(closed)

    def takes_numbers(self, closed):
        """Looks at the numbers while a run waits for input."""
        def close():
            for number in closed:
                os.close(number)

        ours, theirs = os.pipe()
        child = self.started([PROGRAM, "plain"], stdin=ours, stdout=subprocess.DEVNULL, stderr=subprocess.DEVNULL,
                             preexec_fn=close)
        os.close(ours)
        os.write(theirs, b"s")
        end = time.monotonic() + PATIENCE
        while bytes_in(theirs) and time.monotonic() < end:
            time.sleep(0.01)
        try:  # it waits for the rest of the line now
            for number in closed:
                shown = bytes_of(f"/proc/{child.pid}/fdinfo/{number}")
                flags = int(shown.split(b"flags:")[1].split()[0], 8)
                self.assertEqual(flags & os.O_ACCMODE, os.O_RDONLY)
        finally:
            os.close(theirs)
            child.wait(PATIENCE)

    def test_devices(self):
        """A device's file never takes the number of a stream that is closed, so no text is printed into it."""
        made = self.at("made")
        path = self.at("device")
        told = b"formatted 1332608\n"
        self.ends("format tells the length", run(["format", made]), 0, told, b"")
        with self.subTest("the file has that length"):
            self.assertEqual(os.path.getsize(made), 1332608)
        whole = bytes_of(made)
        for closed, *wanted in (([1], 1, b"", WRITE_FAULT), ([2], 0, told, b""), ([0, 1, 2], 1, b"", b"")):
            self.ends(f"format with {closed} closed", run(["format", path], closed=closed), *wanted)
            self.holds("and the device has no text in it", path, whole)
            os.unlink(path)
        self.ends("show of no file with 2 closed", run(["show", self.at("none")], closed=[2]), 1, b"", b"")
        self.ends("show with 1 closed", run(["show", made], closed=[1]), 1, b"", WRITE_FAULT)
        self.holds("and the device stays", made, whole)


# Lines that a client sends at once, with their replies.
CONVERSATION = (
    (b"makevol 0 0\n", b"done\n"),
    (b"create 0 0 0\nsummary\n", b"done\nsummary 1 1 0\n"),
    (b"what\n", b"error line\n"),
    (b"read 0 0 0 0\n", b"hole\n"),
    (b"write 0 0 0 0 61\n", b"done\n"),
    (b"write 0 0 0 1 62\nwrite 0 0 0 2 63\nread 0 0 0 1\n", b"done\ndone\nblock 62\n"),
    (b"punch 0 0 0 0\n", b"done\n"),
    (b"sum", b""),
    (b"mary\n", b"summary 1 1 2\n"))


def without_echo(terminal):
    """Has a terminal send back nothing but what is written to it, byte for byte."""
    attributes = termios.tcgetattr(terminal)
    attributes[1] &= ~termios.ONLCR
    attributes[3] &= ~termios.ECHO
    termios.tcsetattr(terminal, termios.TCSANOW, attributes)


class Conversations(Case):
    """A client that waits for each reply."""

    def converse(self, child, name, to, source, end):
        """Checks that each reply comes before the next line is sent, and that `end` ends the process."""
        with self.subTest("a reply comes before the next line is sent: " + name):
            for line, reply in CONVERSATION:
                os.write(to, line)
                found = read_until(source, lambda found: len(found) >= len(reply))
                self.assertEqual(found, reply, f"after {line!r}")
        end()
        with self.subTest("and the end of the input ends it, once"):
            self.assertEqual(child.wait(PATIENCE), 0)

    def by_pipes(self, words):
        child = self.started([PROGRAM, *words], stdin=subprocess.PIPE, stdout=subprocess.PIPE)
        name = "by pipes, " + " ".join(words[:1] + words[2:])
        self.converse(child, name, child.stdin.fileno(), child.stdout.fileno(), child.stdin.close)

    def at_a_terminal(self, words):
        ours, theirs = pty.openpty()
        without_echo(theirs)
        child = self.started([PROGRAM, *words], stdin=theirs, stdout=theirs, start_new_session=True)
        self.converse(child, f"at a terminal, {words[0]}", ours, ours, lambda: os.write(ours, b"\x04"))
        os.close(ours)
        os.close(theirs)

    def test_plain(self):
        self.by_pipes(["plain"])
        self.at_a_terminal(["plain"])

    def test_serve(self):
        file = File(self.folder)
        for options in ("--slots 1", "", "--workers 8 --slots 64 --every 2"):
            file.format()
            self.by_pipes(["serve", file.path, *options.split()])
        file.format()
        self.at_a_terminal(["serve", file.path])


class SingleFaults(Case):
    """One read of the input, or one write of the output, fails."""

    def setUp(self):
        super().setUp()
        self.refusing = self.between("refuse.c")

    def refuse(self, name, least, turn, word, lines, output, told):
        """Checks runs of a word of which each read, or each write, fails."""
        def attempt(number):
            return self.refusing.run(turn, number, [word], lines)

        def judge(end):
            self.has_ended(end, 1, output, told)

        self.each(name, least, attempt, judge)

    def test_plain(self):
        # Replies of 200 KiB, more than one write takes, which differ from place to place.
        changes = [(i % 64, b"%04x" % i * 200) for i in range(1, 400)]
        blocks = b"".join(b"write 0 0 0 %d %s\nread 0 0 0 %d\n" % (block, data, block) for block, data in changes)
        lines = b"makevol 0 0\ncreate 0 0 0\n" + blocks
        status, whole, _ = run(["plain"], lines)
        with self.subTest("a long input"):
            self.assertTrue(status == 0 and len(whole) > 200000)

        def begins(output):
            return is_beginning(output, whole)

        self.refuse("plain, a read fails", 2, "FAIL_READ", "plain", lines, begins, READ_FAULT)
        name = "plain, a write fails, and none follows"
        self.refuse(name, 2, "FAIL_WRITE", "plain", lines, whole.startswith, WRITE_FAULT)
        self.refuse("help, a write fails", 1, "FAIL_WRITE", "--help", lines, None, WRITE_FAULT)

    def test_serve(self):
        changes = ["makevol 0 0", "create 0 0 0"]
        changes += [f"write 0 0 0 {i % 4} {i:04x}{'5a' * 200}" for i in range(1, 400)]
        lines = [line for i, change in enumerate(changes) for line in (change, f"read 0 0 0 {i % 4}")]
        for turn, told in (("FAIL_READ", READ_FAULT), ("FAIL_WRITE", WRITE_FAULT)):
            def attempt(number):
                self.device = Device(self.folder, (SMALL, 2, 64, 0))
                return self.refusing.run(turn, number, self.device.words(), text_of(lines))

            def judge(end):
                self.has_ended(end, 1, None, told)
                self.device.judge(lines, end[1], False)

            self.each(f"serve, {turn}", 2, attempt, judge)


COUNTED_LINES = 100000
LINES_A_CALL = 4  # at least, of reads of the input and of writes of the output


class Calls(Case):
    """How many calls of the system piped input takes. What is answered is written before a wait for the workers, so how
    many writes there are is the scheduler's."""

    def test_piped_input(self):
        between = self.between("stop.c")
        volumes = range(COMMON.volumes)
        made = [line for v in volumes for line in (f"makevol 0 {v}", f"create 0 {v} 0")]
        for kind, data in (("read", ""), ("write", " 6162")):
            turns = [divmod(number, len(volumes)) for number in range(COUNTED_LINES)]
            lines = [f"{kind} 0 {v} 0 {block % COMMON.blocks}{data}" for block, v in turns]
            put_bytes(self.at("lines"), text_of(made + lines))
            device = Device(self.folder, (COMMON, 2, 256, 0))
            with open(self.at("lines"), "rb") as given:
                end, (calls, _, reads, writes) = between.counts(self.at("counts"), device.words(), stdin=given)
            taken = f"{reads} reads, {writes} writes, {calls} calls of the device"
            with self.subTest(f"{COUNTED_LINES} {kind} lines take {taken}"):
                self.has_ended(end, 0, None, b"")
                self.assertLessEqual((reads + writes) * LINES_A_CALL, COUNTED_LINES)


LINE = b"makevol 0 0\n"
DONE = b"done\n"
ENDING = (signal.SIGTERM, signal.SIGINT, signal.SIGHUP, signal.SIGKILL)


def take_signals():
    """A signal that is ignored here, as SIGINT is in the background, isn't by the server."""
    for number in ENDING:
        if number != signal.SIGKILL:
            signal.signal(number, signal.SIG_DFL)


# In the place of the program: it begins once somebody writes to `go`.
SLOW_FORMAT = """#!/bin/sh
read word < go
exec {} "$@"
"""


class Operating(Case):
    """What docs/program.md says to whoever operates a server: signals, one server at a time, `show` beside one, a
    server on a socket."""

    def setUp(self):
        super().setUp()
        self.device = self.at("device")
        self.has_ended(run(["format", self.device]), 0)

    def serve(self, *before, **streams):
        """A server that runs, with pipes where no other streams are given."""
        pipes = {"stdin": subprocess.PIPE, "stdout": subprocess.PIPE, "stderr": subprocess.PIPE}
        how = {"preexec_fn": take_signals, **pipes, **streams}
        return self.started([*before, PROGRAM, "serve", self.device], bufsize=0, **how)

    def replies(self, server, line, reply):
        """Asserts that a line has this reply."""
        server.stdin.write(line)
        self.assertEqual(server.stdout.readline(), reply)

    def has_stopped(self, server, status, output=b"", faults=b"", given=None):
        """Asserts that a server ends so at the end of its input."""
        printed = server.communicate(given, timeout=PATIENCE)
        self.assertEqual((printed, server.returncode), ((output, faults), status))

    def has_records(self, count):
        """Asserts that so many records are in force."""
        self.assertIn(b"records %d\n" % count, run(["show", self.device])[1])

    def test_signals(self):
        """a signal ends a server at once, and what was answered is in the log; the end of the input leaves no record"""
        for number in ENDING:
            with self.subTest(f"a server is ended by {number.name}, and what was answered is in the log"):
                run(["format", self.device])
                server = self.serve()
                self.replies(server, LINE, DONE)
                server.send_signal(number)
                self.has_stopped(server, -number)
                self.has_records(1)
        with self.subTest("the next server has what was answered, and the end of its input leaves no record"):
            self.has_ended(run(["serve", self.device], b"summary\n"), 0, b"summary 1 0 0\n", b"")
            self.has_records(0)

    @unittest.skipUnless(shutil.which("flock"), "flock isn't installed")
    def test_one_at_a_time(self):
        """of two servers under flock the second has no lock until the first is gone, and show runs beside it"""
        lock = ("flock", "--nonblock", "--no-fork", "--conflict-exit-code", "75", self.device)
        first = self.serve(*lock)
        self.replies(first, b"summary\n", b"summary 0 0 0\n")
        self.has_stopped(self.serve(*lock), 75)
        self.assertEqual(run(["show", self.device])[::2], (0, b""))
        first.kill()
        first.communicate()
        self.has_stopped(self.serve(*lock), 0, b"summary 0 0 0\n", given=b"summary\n")

    @unittest.skipUnless(shutil.which("flock"), "flock isn't installed")
    def test_a_device_of_its_own(self):
        """the page's command makes a device, and waits for a format that goes on though its caller was killed"""
        page = bytes_of(os.path.join(TOP, "docs", "program.md")).decode()
        words = ["sh", "-c", "exec " + re.search("^    (flock d.lock .*)$", page, re.M)[1]]
        put_bytes(self.at("waffd"), SLOW_FORMAT.format(os.path.abspath(PROGRAM)).encode())
        os.chmod(self.at("waffd"), 0o755)
        os.mkfifo(self.at("go"))
        first = self.started(words, cwd=self.folder, stdout=subprocess.PIPE)
        with open(self.at("go"), "wb") as go:  # once it formats
            first.kill()
            second = self.started(words, cwd=self.folder, stdout=subprocess.PIPE)
            time.sleep(0.1)
            self.assertIsNone(second.poll())
            go.write(b"go\n")
        self.assertEqual((second.communicate(timeout=PATIENCE)[0], second.returncode), (b"", 0))
        self.has_ended(run(["show", self.at("d")]), 0)

    def test_socket(self):
        """a connection that blocks is both streams of a server"""
        with socket.create_server(("127.0.0.1", 0)) as listener:
            client = socket.create_connection(listener.getsockname())
            connection = listener.accept()[0]
        with client:
            server = self.serve(stdin=connection, stdout=connection)
            connection.close()
            client.sendall(b"summary\nwhat\n")
            client.shutdown(socket.SHUT_WR)
            with client.makefile("rb") as replies:
                self.assertEqual(replies.read(), b"summary 0 0 0\nerror line\n")
            faults = server.communicate(timeout=PATIENCE)[1]
            self.assertEqual((faults, server.returncode), (b"", 0))

    def test_socket_that_does_not_block(self):
        """a socket that doesn't block ends a server with a read fault"""
        ours, theirs = socket.socketpair()
        theirs.setblocking(False)
        server = self.serve(stdin=theirs, stdout=theirs)
        faults = server.communicate(timeout=PATIENCE)[1]
        self.assertEqual((faults, server.returncode), (READ_FAULT, 1))
        ours.close()
        theirs.close()

    def test_limit(self):
        """a write beyond ulimit -f ends a server by a signal"""
        def limit():
            resource.setrlimit(resource.RLIMIT_FSIZE, (1000, 1000))

        server = self.serve(preexec_fn=limit)
        server.communicate(b"summary\n", timeout=PATIENCE)
        self.assertEqual(server.returncode, -signal.SIGXFSZ)
