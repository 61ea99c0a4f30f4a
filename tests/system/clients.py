"""The client of examples/client, its command, and the client on docs/program.md: what they take for a reply, what a
client may leave unread, which lines have no reply after a kill, and what it leaves to send these again."""
import itertools
import os
import re
import select
import signal
import socket
import subprocess
import sys
import textwrap
import threading
import time
import unittest.mock

from .program import PATIENCE, PROGRAM, TOP, Case, bytes_in, bytes_of, read_until, run
from .meaning import changes_of, empty_state, lines_that_read, refusal
from .servers import COMMON, SMALL, WIDE, Device, Drawing, plain, replies_of, text_of

sys.path.append(os.path.join(TOP, "examples", "client"))
import client

LONGEST_REPLY = 1031
ROOM = 32 << 10  # bytes that a pipe takes in any case: half of what Linux has for one
# In the place of the program: one reply, and the beginning of another one.
TORN = "#!/bin/sh\nread line\nprintf 'done\\nblock 5a5a'\nkill -KILL $$\n"
FULL_BLOCK = ["makevol 0 0", "create 0 0 0", f"write 0 0 0 0 {'5a' * 512}"]
FULL_REPLY = f"block {'5a' * 512}"
COMMAND = os.path.join(TOP, "examples", "client", "client.py")
# A client that is given its folder, a device and a program, and sends changes without an end.
WRITER = """
import itertools, sys
folder, device, program = sys.argv[1:]
sys.path.append(folder)
import client
with client.locked(device) as file:
    server = client.start(file, program)
for number, _ in enumerate(server.answers(itertools.chain(["makevol 0 0"], itertools.repeat("seal 0 0")), 8)):
    if number == 100:
        print("begun", flush=True)
"""
# A client that is given its folder and a socket, and sends lines of many lengths without an end.
SENDER = """
import sys
folder, path = sys.argv[1:]
sys.path.append(folder)
import client
server = client.connect(path)
while True:
    server.send(number * 3 * "x" for number in range(1, 360))
"""
# Geometry, workers, slots and every.
SERVERS = ((SMALL, 2, 16, 0), (WIDE, 4, 64, 3), (COMMON, 2, 16, 0), (COMMON, 2, 1024, 100))
KILLS = max(40, int(os.environ.get("KILLS", 0)) // 8)  # over all of these servers
LINES = 4000


def client_of(device, *words, program=PROGRAM):
    """A client of a server of its own, of this device."""
    with client.locked(device) as file:
        return client.start(file, program, words)


def lines_that_pass(g, lines):
    """Those of the lines that a serial server doesn't refuse where it is given no others."""
    state = empty_state(g)
    found = []
    for line in lines:
        message, pieces = changes_of(g, state, line)
        if message is not None and refusal(g, state, message) is None:
            found.append(line)
            state.update(pieces)
    return found


class Replies(Case):
    """What is a reply, and what becomes of lines that have none."""

    def setUp(self):
        super().setUp()
        self.device = self.at("d")
        self.has_ended(run(["format", self.device]), 0)

    def connects(self, *words, program=PROGRAM):
        """A client of a server of its own, which doesn't outlive the test."""
        server = client_of(self.device, *words, program=program)
        self.addCleanup(server.process.wait)
        self.addCleanup(server.process.kill)
        return server

    def is_lost(self, replies, count):
        """Asserts that a server is lost behind so many replies: what is told of it."""
        found = []
        with self.assertRaises(client.Lost) as raised:
            found.extend(replies)
        self.assertEqual(len(found), count)
        return raised.exception

    def test_a_torn_reply(self):
        """the beginning of a reply is none: its line is unanswered, and so are those that come later"""
        self.put_script("torn", TORN)
        torn = self.connects(program=self.at("torn"))
        lost = self.is_lost(torn.replies(torn.send(["seal 0 0", "read 0 0 0 0", "summary"])), 1)
        self.assertEqual((lost.unanswered, lost.status), (["read 0 0 0 0", "summary"], -9))
        later = self.is_lost(torn.replies(torn.send(["label 0 0"] * 3)), 0)
        self.assertEqual(later.unanswered, [*lost.unanswered, *["label 0 0"] * 3])
        self.assertRaises(client.Lost, torn.close)

    def runs_a_page(self, *path):
        """The end of the program on a page, in the folder."""
        page = bytes_of(os.path.join(TOP, *path)).decode()
        text = re.search(r"^\n((?: {4}import .*\n)(?: {4}.*\n|\n)*)", page, re.M)[1]
        return run(["-c", textwrap.dedent(text)], program=[sys.executable], cwd=self.folder)

    def test_the_page(self):
        """nor does the client of docs/program.md take it for one"""
        self.put_script("waffd", TORN)
        end = self.runs_a_page("docs", "program.md")
        self.has_ended(end, 1, b"", lambda faults: faults.endswith(b"EOFError: no whole reply\n"))

    def test_the_readme(self):
        """the program of the README does what it says"""
        os.symlink(os.path.abspath(PROGRAM), self.at("waffd"))
        os.symlink(os.path.join(TOP, "examples"), self.at("examples"))
        self.has_ended(self.runs_a_page("examples", "client", "README.md"), 0, b"", b"")
        self.has_ended(run(["serve", self.device], b"summary\n"), 0, b"summary 1 1 64\n", b"")

    def test_a_kill(self):
        """a killed server leaves whole replies, and each line has one or is unanswered"""
        server = self.connects("--slots", "1024")
        self.assertEqual(server.ask(FULL_BLOCK), ["done"] * 3)
        lines = [f"read 0 0 0 {number % 2}" for number in range(20000)]
        request = server.send(lines)
        server.process.kill()
        found = []
        with self.assertRaises(client.Lost) as raised:
            found.extend(server.replies(request))
        self.assertEqual(found, [(FULL_REPLY, "hole")[number % 2] for number in range(len(found))])
        self.assertEqual(raised.exception.unanswered, lines[len(found):])

    def test_a_fault(self):
        """a server with a fault isn't started again, and its text is told"""
        os.truncate(self.device, 100)
        lost = self.is_lost(client.carry_out(lambda: client_of(self.device), ["summary"]), 0)
        self.assertEqual((lost.status, lost.unanswered), (1, ["summary"]))
        self.assertEqual(str(lost), "waffd has ended with status 1: waffd: device too short")

    def test_starts_without_a_reply(self):
        """where each server is killed before it answers, there are a few starts, with longer and longer pauses"""
        self.put_script("killed", "#!/bin/sh\nkill -KILL $$\n")
        with unittest.mock.patch("time.sleep") as sleep:
            replies = client.carry_out(lambda: client_of(self.device, program=self.at("killed")), ["summary"])
            lost = self.is_lost(replies, 0)
        self.assertEqual((lost.status, lost.unanswered), (-signal.SIGKILL, ["summary"]))
        self.assertEqual(sleep.mock_calls, [unittest.mock.call(pause) for pause in (1, 2, 3, 4, 5)])

    def test_broken_off(self):
        """where the caller breaks off, or a line can't be sent, the server has ended in order"""
        lines = itertools.chain(["makevol 0 0"], itertools.repeat("seal 0 0"))
        replies = client.carry_out(lambda: client_of(self.device), lines)
        self.assertEqual(next(replies), "done")
        replies.close()
        client.locked(self.device).close()
        self.has_ended(run(["show", self.device]), 0, lambda text: b"records 0\nsummary 1 0 0\n" in text)
        with self.assertRaises(ValueError):
            list(client.carry_out(lambda: client_of(self.device), ["two\nlines"]))
        client.locked(self.device).close()

    def test_a_server_that_hangs(self):
        """a program may wait for a reply as long as it likes, and then kill the server or end the connection"""
        for breaks_off in (
                lambda server: server.process.kill(), lambda server: server.connection.shutdown(socket.SHUT_RDWR)):
            server = self.connects()
            server.process.send_signal(signal.SIGSTOP)
            request = server.send(["summary"])
            self.assertFalse(request.is_over.wait(0.1))
            breaks_off(server)
            server.process.send_signal(signal.SIGCONT)
            self.assertEqual(self.is_lost(server.replies(request), 0).unanswered, ["summary"])

    def test_lines_behind_the_end(self):
        """lines that come while a client is being closed are lost, and it is closed in order all the same"""
        server = self.connects()
        server.process.send_signal(signal.SIGSTOP)
        closed = []
        closing = threading.Thread(target=lambda: closed.append(server.close()))
        closing.start()
        while server.is_open:
            time.sleep(0.01)
        late = server.send(["seal 0 0"])
        server.process.send_signal(signal.SIGCONT)
        lost = self.is_lost(server.replies(late), 0)
        self.assertEqual((lost.status, lost.unanswered), (0, ["seal 0 0"]))
        closing.join()
        self.assertEqual(closed, [None])

    def test_a_device_that_is_served(self):
        """a client waits until the server of the one before has ended, and else tells which device is served"""
        server = self.connects()
        with self.assertRaises(BlockingIOError) as raised:
            client.locked(self.device, wait=0)
        self.assertEqual(str(raised.exception), f"{self.device} is served already")
        closing = threading.Timer(0.3, server.close)
        began = time.monotonic()
        closing.start()
        client.locked(self.device).close()
        self.assertGreater(time.monotonic() - began, 0.2)
        closing.join()

    def test_a_killed_client(self):
        """a client that is started again at once gets the device, though the server of the killed one goes on"""
        for _ in range(10):
            words = [sys.executable, "-c", WRITER, os.path.dirname(COMMAND), self.device, os.path.abspath(PROGRAM)]
            killed = self.started(words, stdout=subprocess.PIPE)
            self.assertEqual(killed.stdout.readline(), b"begun\n")
            killed.kill()
            killed.communicate()
            client.locked(self.device).close()

    def test_threads(self):
        """each of many threads gets the replies to its own lines"""
        server = self.connects()
        server.ask(["makevol 0 0", "create 0 0 0"])

        def work(number):
            lines = [f"write 0 0 0 {number} {number:02x}{turn:02x}11" for turn in range(100)]
            wanted = [reply for turn in range(100) for reply in ("done", f"block {number:02x}{turn:02x}11")]
            asked = [line for change in lines for line in (change, f"read 0 0 0 {number}")]
            found[number] = server.ask(asked) == wanted

        found = {}
        threads = [threading.Thread(target=work, args=(number,)) for number in range(16)]
        for thread in threads:
            thread.start()
        for thread in threads:
            thread.join()
        self.assertEqual(found, dict.fromkeys(range(16), True))
        server.close()


class Ends(Case):
    """A client whose server is a socket of the test."""

    def setUp(self):
        super().setUp()
        ours, self.server = socket.socketpair()
        self.addCleanup(self.server.close)
        self.server.settimeout(PATIENCE)
        self.client = client.Client(ours)

    def test_a_slow_source(self):
        """a line is sent before the next one is drawn, and a reply that has come is given before that"""
        found = []
        counts = []

        def lines():
            for number in range(3):
                yield str(number)
                counts.append(len(found))
                self.assertEqual(self.server.recv(100), f"{number}\n".encode())
                self.server.sendall(b"done\n")
                while self.client.requests:
                    time.sleep(0.01)

        for reply in self.client.answers(lines()):
            found.append(reply)
        self.assertEqual((found, counts), (["done"] * 3, [0, 1, 2]))

    def test_no_server(self):
        """more replies than lines end the connection, though a thread is sending, and its descriptor is closed"""
        lines = ["x" * 1000] * 1000
        asking = threading.Thread(target=self.client.ask, args=(lines,), daemon=True)
        asking.start()
        self.server.recv(1, socket.MSG_PEEK)
        self.server.sendall(b"done\n" * 1001)
        asking.join(PATIENCE)
        self.assertFalse(asking.is_alive())
        self.client.reader.join()
        self.assertEqual(self.client.connection.fileno(), -1)


class Killed(Case):
    """A client that is killed while it sends."""

    def test_whole_lines(self):
        """a killed client leaves no beginning of a line, which a server would take for a whole one"""
        with socket.socket(socket.AF_UNIX) as listener:
            listener.bind(self.at("socket"))
            listener.listen()
            listener.settimeout(PATIENCE)
            for turn in range(40):
                killed = self.started([sys.executable, "-c", SENDER, os.path.dirname(COMMAND), self.at("socket")])
                with listener.accept()[0] as connection:
                    found = self.sent_by(killed, connection, turn)
                self.assertEqual(found[-1:], b"\n", f"after {len(found)} bytes: {found[-10:]}")

    def sent_by(self, killed, connection, turn):
        """All that a client has sent that is killed while a full buffer keeps it waiting, after some thousand bytes."""
        found = read_until(connection, lambda found: len(found) > turn * 7919, 4096)
        time.sleep(0.01)
        killed.kill()
        killed.wait()
        return found + read_until(connection, lambda found: False, 1 << 16)


class Command(Case):
    """The command, with a front that hangs up behind some replies."""

    def listens(self, count):
        """A front whose only client gets so many replies."""
        listener = socket.socket(socket.AF_UNIX)
        listener.bind(self.at("socket"))
        listener.listen()

        def serve():
            with listener, listener.accept()[0] as connection, connection.makefile("rb") as lines:
                for line in itertools.islice(lines, count):
                    connection.sendall(b"done\n" if line.endswith(b"\n") else b"")

        serving = threading.Thread(target=serve)
        serving.start()
        self.addCleanup(serving.join)

    def end(self, given, **streams):
        """The end of a client that is given this."""
        return run([self.at("socket")], given, program=[COMMAND], **streams)

    def test_the_last_line(self):
        """a last line without a newline is one, too"""
        self.listens(2)
        self.has_ended(self.end(b"makevol 0 0\nseal 0 0"), 0, b"done\ndone\n", b"")

    def test_lost(self):
        """at a loss it prints the lines without a reply, also those that weren't sent"""
        self.listens(5)
        lines = text_of(map(str, range(20000)))
        told = b"client: the connection has ended\n" + text_of(map(str, range(5, 20000)))
        self.has_ended(self.end(lines), 1, b"done\n" * 5, told)

    def test_nobody_listens(self):
        """so it does where nobody listens"""
        told = f"client: {self.at('socket')}: No such file or directory\nlist 0 0\nsummary\n".encode()
        self.has_ended(self.end(b"list 0 0\nsummary"), 1, b"", told)

    def test_end_of_the_replies(self):
        """a program that waits for a reply finds their end, and may then end its lines"""
        self.listens(1)
        streams = {"stdin": subprocess.PIPE, "stdout": subprocess.PIPE, "stderr": subprocess.PIPE}
        child = self.started([COMMAND, self.at("socket")], bufsize=0, **streams)
        for line, reply in ((b"list 0 0\n", b"done\n"), (b"summary\n", b"")):
            child.stdin.write(line)
            self.assertEqual(read_until(child.stdout, lambda found: found.endswith(b"\n")), reply)
        self.assertTrue(select.select([child.stdout], [], [], 0)[0])  # the end
        faults = child.communicate(b"seal 0 0")[1]
        self.assertEqual(faults, b"client: the connection has ended\nsummary\nseal 0 0\n")

    def test_a_full_disk(self):
        """where its replies can't be written it tells so, and which lines were not sent"""
        self.listens(1)
        with open("/dev/full", "wb") as full:
            self.has_ended(self.end(b"summary\n", stdout=full), 1, b"", b"client: [Errno 28] No space left on device\n")


class Unread(Case):
    """How much a client may send without reading."""

    def test_what_is_not_read(self):
        """as many lines as the page says are all answered before a reply is read, at any number of slots"""
        page = bytes_of(os.path.join(TOP, "docs", "protocol.md")).decode()
        count = ROOM // LONGEST_REPLY
        changes = ROOM // len(b"error exists\n")
        self.assertIn(f"\n- {count} lines of any kind", page)
        self.assertIn(f"\n- {changes:,} lines that change", page)
        run(["format", self.at("d")])
        run(["serve", self.at("d")], text_of(FULL_BLOCK))
        for slots in ("1", "2", "4", "6", "16", "1024"):
            words = [PROGRAM, "serve", self.at("d"), "--slots", slots]
            server = self.started(words, stdin=subprocess.PIPE, stdout=subprocess.PIPE, bufsize=0)
            server.stdin.write(b"read 0 0 0 0\n" * count)
            self.assertEqual(self.unread(server.stdout, count * LONGEST_REPLY), count * LONGEST_REPLY, slots)
            server.communicate()

    def unread(self, pipe, size):
        """How many bytes are in a pipe, once these are so many or patience ended."""
        end = time.monotonic() + PATIENCE
        found = 0
        while found < size and time.monotonic() < end:
            found = bytes_in(pipe)
            time.sleep(0.01)
        return found

    def test_all_at_once(self):
        """a client sends far more than two pipes hold, and gets each reply"""
        run(["format", self.at("d")])
        server = client_of(self.at("d"))
        replies = server.ask([*FULL_BLOCK, *["read 0 0 0 0"] * 20000])
        self.assertEqual(replies, ["done"] * 3 + [FULL_REPLY] * 20000)
        server.close()


class Kills(Case):
    """Servers are killed, and new ones get the lines without a reply again, in order."""

    def test_sent_again(self):
        """over any number of kills, lines that aren't refused leave the state that they make without a kill"""
        for server in SERVERS:
            device = Device(self.folder, server)
            with self.subTest(f"{KILLS // len(SERVERS)} kills, and lines without a reply are sent again: {device}"):
                self.goes_on(device)

    def goes_on(self, device):
        """Asserts that all lines are carried out, though servers are killed on the way: one at each of these replies,
        and each third one in its opening."""
        drawing = Drawing(f"clients {device}", device.g)
        lines = lines_that_pass(device.g, drawing.lines(LINES))
        moments = set(drawing.random.sample(range(len(lines)), KILLS // len(SERVERS)))
        servers = []

        def new_client():
            servers.append(client_of(*device.words()[1:]))
            if len(servers) % 3 == 0:
                time.sleep(0.01 * drawing.random.random())
                servers[-1].process.kill()
            return servers[-1]

        replies = []
        # Few lines are in flight, so that each moment is one of its own.
        with unittest.mock.patch.multiple(client, IN_FLIGHT=64, PAUSES=(0,) * 6):
            for reply in client.carry_out(new_client, lines, 8):
                replies.append(reply)
                if len(replies) in moments:
                    servers[-1].process.kill()
        self.assertEqual(len(replies), len(lines))
        killed = sum(server.process.wait() == -signal.SIGKILL for server in servers)
        self.assertGreaterEqual(killed, len(moments) // 2)
        reads = lines_that_read(device.g)
        told = replies_of(run(device.words(), text_of(reads)), "the next run")
        self.assertTrue(told == plain(device.g, lines + reads)[len(lines):], "it has another state")
