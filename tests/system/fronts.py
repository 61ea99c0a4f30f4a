"""The unit of operations/service as systemd would run it, and its front: clients side by side, one that is alone, those
that go, and the ends."""
import contextlib
import itertools
import os
import re
import shlex
import shutil
import signal
import socket
import subprocess
import sys
import threading
import time
import unittest

from .program import LONGEST_RUN, PATIENCE, PROGRAM, TOP, Case, bytes_of, put_bytes, read_until, run
from .meaning import options_of
from .servers import GREATEST, replies_of, text_of

sys.path.append(os.path.join(TOP, "examples", "client"))
import client

SERVICE = os.path.join(TOP, "operations", "service")
COPY = os.path.join(TOP, "examples", "copy", "copy.py")
FULL_BLOCK = b"makevol 0 0\ncreate 0 0 0\nwrite 0 0 0 0 " + b"61" * 512 + b"\n"
# A socket takes these lines, but not their replies.
MANY = [f"setlabel 0 0 {number:04x}01\n".encode() + b"read 0 0 0 0\n" * 200 for number in range(80)]
REPLIES_OF_ONE = 201  # to the lines of one of these
LAST_LABEL = "ff"
MANY_CHANGES = ["makevol 0 0", *["setlabel 0 0 61"] * 5000, f"setlabel 0 0 {LAST_LABEL}"]
# In the place of the server: its first reply comes once there is a file, and each other one a while after its line,
# which is longer than the idle limit of a test.
SLOW_SERVER = """#!/bin/sh
read line
: >started
until [ -e open ]; do sleep 0.01; done
echo "$line"
while read line; do
    sleep 1.2
    echo "$line"
done
"""
# In the place of the server: it answers behind its first line once there is a file, and writes down what it gets.
STUCK_SERVER = """#!/bin/sh
read line
echo "$line"
while read line; do
    echo "$line" >>got
    until [ -e open ]; do sleep 0.01; done
    echo "$line"
done
"""
# Runs front.py, which is the first of the words behind, with less time for a client.
HURRIED = ("python3", "-c", """
import os, sys
sys.path.append(os.path.dirname(sys.argv[1]))
import front
front.PATIENCE = front.STANDSTILL = 1
sys.exit(front.main(sys.argv[2:]))
""")


def slow_down(_):
    """Never enough, after a rest."""
    time.sleep(0.005)
    return False


class Writer(threading.Thread):
    """A client that writes a number into two blocks of its volume, one after the other, and then the next number."""

    def __init__(self, connection, volume):
        super().__init__(daemon=True)
        self.connection, self.volume = connection, volume
        self.is_over = False
        self.seen = []  # of each write: file, number, when it was sent and when it was answered

    def run(self):
        for number in itertools.count(1):
            for file in (0, 15):
                sent = time.monotonic()
                self.connection.sendall(b"write 0 %d %d 0 %08x01\n" % (self.volume, file, number))
                assert self.connection.recv(100) == b"done\n"
                self.seen.append((file, number, sent, time.monotonic()))
            if self.is_over:
                return


@unittest.skipUnless(os.access("/usr/bin/flock", os.X_OK), "flock isn't installed")
class Unit(Case):
    """The unit, with other paths, as systemd would run it."""

    def setUp(self):
        super().setUp()
        self.page = self.elsewhere(bytes_of(os.path.join(SERVICE, "README.md")).decode())
        self.does("Install it")
        self.device = self.at("srv/waffd/device")
        self.unit = self.at("etc/systemd/system/waffd.service")
        text = self.elsewhere(bytes_of(self.unit).decode())
        put_bytes(self.unit, text.encode())
        self.values = dict(re.findall(r"^(\w+)=(.*)", text.replace("\\\n", ""), re.M))

    def elsewhere(self, text):
        """A text of the example with other paths, and without the user `waffd`."""
        text = text.replace("crates/waffd/out/waffd", os.path.abspath(PROGRAM))
        text = text.replace("runuser -u waffd -- ", "")
        text = text.replace("-o waffd", "")
        return re.sub(r'(?<=[ =!"(])/(?=usr/local/|etc/|srv\b|run/)', self.folder + "/", text)

    def does(self, heading, number=0):
        """What the commands of a part of the page print, of one block."""
        part = re.search(rf"\n##+ {heading}\n(.*?)(?=\n##+ |\Z)", self.page, re.S)[1]
        blocks = re.findall(r"(?:^    .*\n)+", part, re.M)
        script = "useradd() { :; }; systemctl() { :; }; sync() { :; }\n" + blocks[number].replace("\n    ", "\n")
        return subprocess.run(["sh", "-e", "-c", script], cwd=TOP, check=True, capture_output=True).stdout

    def starts(self, *before):
        """A server as the unit starts it, behind other words."""
        shutil.rmtree(self.at("run/waffd"), ignore_errors=True)
        os.makedirs(self.at("run/waffd"))
        words = [*before, *shlex.split(self.values["ExecStart"])]
        return self.started(words, stderr=subprocess.PIPE, umask=int(self.values["UMask"], 8))

    def connects(self, name="socket"):
        """A client at the socket of this name, once this is there."""
        client = socket.socket(socket.AF_UNIX)
        self.addCleanup(client.close)
        client.settimeout(PATIENCE)
        for _ in range(1000):
            if client.connect_ex(self.at(f"run/waffd/{name}")) == 0:
                return client
            time.sleep(0.01)
        self.fail("there is no socket")

    def asks(self, client, lines, replies):
        """Asserts that a client gets these replies."""
        client.sendall(lines)
        self.assertEqual(read_until(client, lambda found: len(found) >= len(replies)), replies)

    def may_start(self):
        """Whether systemd would start the unit now."""
        asserts = [line for line in bytes_of(self.unit).decode().splitlines() if line.startswith("Assert")]
        end = subprocess.run(["systemd-analyze", "condition", *asserts], capture_output=True, check=False)
        return end.returncode == 0

    def has_stopped(self, server, status, text=b""):
        """The server has ended so: what the front has printed. Then the unit's last command runs: what it has."""
        printed = server.communicate(timeout=LONGEST_RUN)[1]
        told = b"".join(re.findall(rb"^front: .*\n", printed, re.M))
        self.assertEqual((re.sub(rb"^front: .*\n", b"", printed, flags=re.M), server.returncode), (text, status))
        words = shlex.split(self.values["ExecStopPost"].lstrip("+").replace("$$", "$").replace("%%", "%"))
        env = {**os.environ, "EXIT_STATUS": str(status)}
        found = subprocess.run(words, env=env, check=True, stdout=subprocess.PIPE, stderr=subprocess.DEVNULL).stdout
        return told.decode(), found.decode()


class Front(Unit):
    """Clients of the front."""

    def test_clients(self):
        """one server answers all clients; a second one has no lock; SIGTERM ends it in order

        One client stays, one takes nothing, one ends what it sends within a line, and one hangs up within a line."""
        server = self.starts(*HURRIED)
        self.asks(self.connects(), FULL_BLOCK, b"done\n" * 3)
        self.connects().sendall(b"".join(MANY[:40]))
        ending = self.connects()
        ending.sendall(b"read 0 0 0 0\n" * 1000 + b"create 0 0 1\nmakevol 0 1")
        ending.shutdown(socket.SHUT_WR)
        self.assertEqual(read_until(ending, lambda found: False, 1 << 16).count(b"\n"), 1001)
        closing = self.connects()
        closing.sendall(b"makevol 0 2")
        closing.close()
        self.assertEqual(self.does("Talk to it"), b"summary 1 2 1\n")
        self.assertEqual(os.stat(self.at("run/waffd/socket")).st_mode & 0o77, 0)
        for words in ([self.at("run/waffd/socket"), "true"], [self.at("other"), self.at("missing")]):
            end = run(words, program=[self.at("usr/local/lib/waffd/front.py")])
            self.has_ended(end, 70, b"", lambda text: text and b"Traceback" not in text)
        self.has_stopped(self.starts(), 75)
        server.send_signal(signal.SIGTERM)
        told, _ = self.has_stopped(server, 0)
        self.assertRegex(told, r"front: the device was open after [\d.]+ s\nfront: .*: \d+ lines handed on, 0 owed\n$")
        self.assertIn(b"records 0\n", run(["show", self.device])[1])
        self.assertFalse(os.path.exists(self.at("run/waffd.fault")))

    def test_names(self):
        """the sockets are gone after each end, so that the next start finds their names free"""
        for number, status in ((signal.SIGTERM, 0), (signal.SIGKILL, 128 + signal.SIGKILL)):
            server = self.starts()
            self.asks(self.connects("alone"), b"label 0 0\n", b"error volume\n")
            self.ends_server(server, number)
            self.has_stopped(server, status)
            self.assertEqual(os.listdir(self.at("run/waffd")), [])

    def ends_server(self, front, number):
        """Sends a signal: SIGTERM to the front, others to its server."""
        if number == signal.SIGTERM:
            front.send_signal(number)
        else:
            subprocess.run(["pkill", f"-{number}", "-P", str(front.pid)], check=True)

    def test_replies(self):
        """clients that send many lines at once each get the replies to their own, in order"""
        server = self.starts()
        makes = b"makevol 0 0\n" + b"".join(b"create 0 0 %d\n" % number for number in range(8))
        self.asks(self.connects(), makes, b"done\n" * 9)
        for _ in range(20):
            clients = [self.connects() for _ in range(8)]
            for number, one in enumerate(clients, 1):
                one.sendall(b"".join(b"write 0 0 %d 0 %02x%02x\nread 0 0 %d 0\n" % (number - 1, number, at, number - 1)
                                     for at in range(1, 51)))
            for number, one in enumerate(clients, 1):
                self.asks(one, b"", b"".join(b"done\nblock %02x%02x\n" % (number, at) for at in range(1, 51)))
                one.close()
        server.kill()

    def test_alone(self):
        """all others wait while a client is alone, and so does the next one that wants to be"""
        server = self.starts()
        first = self.connects("alone")
        self.asks(first, FULL_BLOCK, b"done\n" * 3)
        others = [self.connects(), self.connects("alone")]
        for one in others:
            one.sendall(b"summary\n")
            one.settimeout(0.3)
            self.assertRaises(TimeoutError, one.recv, 100)
            one.settimeout(PATIENCE)
        self.asks(first, b"create 0 0 1\n", b"done\n")
        first.close()
        for one in others:
            self.asks(one, b"", b"summary 1 2 1\n")
        server.kill()

    def test_alone_for_long(self):
        """a client that stays alone is let go, and the others are answered"""
        self.starts(*HURRIED)
        first, second = self.connects("alone"), self.connects()
        self.asks(first, b"makevol 0 0\n", b"done\n")
        self.asks(second, b"summary\n", b"summary 1 0 0\n")
        self.assertEqual(read_until(first, lambda found: False), b"")

    def test_a_client_that_has_gone(self):
        """of its lines those that the server hasn't got are never run, and the others before who connects later"""
        self.put_script("stuck", STUCK_SERVER)
        os.makedirs(self.at("run/waffd"))
        words = [self.at("usr/local/lib/waffd/front.py"), "--ahead", "1", self.at("run/waffd/socket"), self.at("stuck")]
        self.started(words, cwd=self.folder, stderr=subprocess.PIPE)
        stays, goes = self.connects(), self.connects()
        stays.sendall(b"stays\n")
        while not os.path.exists(self.at("got")):
            time.sleep(0.01)
        goes.sendall(b"goes\n" * 3)
        time.sleep(0.1)
        goes.close()
        comes = self.connects()
        comes.sendall(b"comes\n")
        put_bytes(self.at("open"), b"")
        self.asks(stays, b"", b"stays\n")
        self.asks(comes, b"", b"comes\n")
        self.assertEqual(bytes_of(self.at("got")), b"stays\ncomes\n")

    def test_floods(self):
        """clients that take no reply or end no line keep nobody waiting, and the front stays small"""
        server = self.starts(*HURRIED)
        self.asks(self.connects(), FULL_BLOCK, b"done\n" * 3)
        for number in range(60):
            one = self.connects()
            one.setblocking(False)
            text = (b"read 0 0 0 0\n", b"\n", b"x")[number % 3] * 10000
            with contextlib.suppress(BlockingIOError):
                while True:
                    one.send(text)
        self.asks(self.connects(), b"summary\n", b"summary 1 1 1\n")
        most = int(re.search(rb"VmHWM:\s+(\d+) kB", bytes_of(f"/proc/{server.pid}/status"))[1])
        self.assertLess(most, 64 << 10)
        server.send_signal(signal.SIGTERM)
        self.has_stopped(server, 0)

    def test_few_files(self):
        """a client that comes while too many files are open is let in once another one has gone"""
        self.starts("sh", "-c", 'ulimit -n 30 && exec "$@"', "sh")
        clients = [self.connects() for _ in range(40)]
        for one in clients:
            one.sendall(b"summary\n")
        for one in clients:
            self.asks(one, b"", b"summary 0 0 0\n")
            one.close()

    def starts_slow_server(self, **env):
        """A front that lets a silent client go after a second, of a server whose device takes some time to open."""
        self.put_script("slow", SLOW_SERVER)
        os.makedirs(self.at("run/waffd"))
        words = [self.at("usr/local/lib/waffd/front.py"), "--idle", "1", self.at("run/waffd/socket"), self.at("slow")]
        return self.started(words, cwd=self.folder, env={**os.environ, **env})

    def test_ready(self):
        """systemd is told that the unit has started once the device is open; a client that came before waits"""
        told = socket.socket(socket.AF_UNIX, socket.SOCK_DGRAM)
        self.addCleanup(told.close)
        told.bind(self.at("notify"))
        self.starts_slow_server(NOTIFY_SOCKET=self.at("notify"))
        first = self.connects()
        first.sendall(b"first\n")
        first.settimeout(0.5)
        self.assertRaises(TimeoutError, first.recv, 100)
        told.setblocking(False)
        with contextlib.suppress(BlockingIOError):
            while True:
                self.assertRegex(told.recv(100), b"STATUS=clients 0, lines answered 0, owed 1 for . s")
        put_bytes(self.at("open"), b"")
        told.settimeout(PATIENCE)
        ready = told.recv(100)
        if ready.startswith(b"STATUS="):  # of the second that has ended meanwhile
            ready = told.recv(100)
        self.assertEqual(ready, b"READY=1")
        self.asks(first, b"", b"first\n")
        found = [told.recv(100)]
        while found[-1] != b"STATUS=clients 1, lines answered 1, owed 0" and len(found) < 3:
            found.append(told.recv(100))
        self.assertEqual(found[-1], b"STATUS=clients 1, lines answered 1, owed 0")

    def test_a_stop_in_the_opening(self):
        """SIGTERM while the device is opened ends the server in order; a server that can't open it ends the front"""
        server = self.starts_slow_server()
        while not os.path.exists(self.at("started")):
            time.sleep(0.01)
        server.send_signal(signal.SIGTERM)
        time.sleep(0.1)
        put_bytes(self.at("open"), b"")
        self.assertEqual(server.wait(LONGEST_RUN), 0)
        put_bytes(self.device, b"no device")
        server = self.starts()
        self.has_stopped(server, 1, b"waffd: device too short\n")

    def test_idle(self):
        """a client that has its replies and is silent for the limit is let go, and one that waits for a reply isn't"""
        put_bytes(self.at("open"), b"")
        self.starts_slow_server()
        first = self.connects()
        self.asks(first, b"first\n", b"first\n")
        second = self.connects()
        second.sendall(b"second\n")
        self.assertEqual(read_until(first, lambda found: False), b"")
        self.asks(second, b"", b"second\n")

    def test_a_kill(self):
        """a client of examples/client goes on where the server is killed and the unit starts it again"""
        server = self.starts()
        replies = client.carry_out(lambda: client.connect(self.at("run/waffd/socket")), iter(MANY_CHANGES))
        found = list(itertools.islice(replies, 100))
        subprocess.run(["pkill", "-KILL", "-P", str(server.pid)], check=True)
        self.has_stopped(server, 128 + signal.SIGKILL)
        self.starts()
        self.assertEqual([*found, *replies], ["done"] * len(MANY_CHANGES))
        self.asks(self.connects(), b"label 0 0\n", f"label {LAST_LABEL}\n".encode())

    def test_copy_of_a_server_that_runs(self):
        """a copy beside four writers, restored into another geometry, is of one moment between its begin and its end"""
        server = self.starts()
        for volume in range(4):
            lines = b"makevol 0 %d\ncreate 0 %d 0\ncreate 0 %d 15\n" % (volume, volume, volume)
            self.asks(self.connects(), lines, b"done\n" * 3)
        for _ in range(3):
            writers = [Writer(self.connects(), volume) for volume in range(4)]
            for writer in writers:
                writer.start()
            while not all(len(writer.seen) > 1 for writer in writers):
                time.sleep(0.01)
            began = time.monotonic()
            copied = run([self.at("run/waffd/alone")], program=[COPY])
            ended = time.monotonic()
            for writer in writers:
                writer.is_over = True
                writer.join()
            self.has_ended(copied, 0, None, b"copied 4 8 8\n")
            self.is_of_one_moment(self.restored(copied[1]), writers, began, ended)
            longest = max(answered - sent for writer in writers for _, _, sent, answered in writer.seen)
            print(f"       {1000 * (ended - began):.0f} ms, {1000 * longest:.0f} ms for the longest write:")
        server.kill()

    def restored(self, lines):
        """What these lines make on a device of the greatest geometry: the number that each block holds, by its volume
        and its file."""
        run(["format", self.at("restored"), *options_of(GREATEST)])
        self.has_ended(run(["-", self.at("restored"), PROGRAM], lines, program=[COPY]), 0, b"copied 4 8 8\n", b"")
        places = [(volume, file) for volume in range(4) for file in (0, 15)]
        reads = text_of("read 0 %d %d 0" % place for place in places)
        replies = replies_of(run(["serve", self.at("restored")], reads), "serve")
        return {place: int(reply.split()[1][:8], 16) for place, reply in zip(places, replies)}

    def is_of_one_moment(self, held, writers, began, ended):
        """Asserts that between two moments there is one at which all blocks may have held this, and that no second
        block of a writer is ahead of its first one."""
        earliest, latest = began, ended
        for writer in writers:
            self.assertIn(held[writer.volume, 0] - held[writer.volume, 15], (0, 1))
            for file, number, sent, answered in writer.seen:
                if number == held[writer.volume, file]:
                    earliest = max(earliest, sent)
                if number == held[writer.volume, file] + 1:
                    latest = min(latest, answered)
        self.assertLessEqual(earliest, latest)

    def test_copy_that_is_lost(self):
        """a copy whose server is killed tells so, and has written nothing"""
        server = self.starts()
        self.asks(self.connects("alone"), b"summary\n", b"summary 0 0 0\n")
        copying = self.started([COPY, self.at("run/waffd/alone")], stdout=subprocess.PIPE, stderr=subprocess.PIPE)
        self.waits_for_connections("alone", 3)
        subprocess.run(["pkill", "-KILL", "-P", str(server.pid)], check=True)
        self.assertEqual(copying.communicate(timeout=PATIENCE), (b"", b"copy: the connection has ended\n"))
        self.assertEqual(copying.returncode, 1)

    def waits_for_connections(self, name, count):
        """Until so many ends have the name of a socket: the listening one, and one for each client."""
        name = self.at(f"run/waffd/{name}").encode()
        end = time.monotonic() + PATIENCE
        while bytes_of("/proc/net/unix").count(name) < count and time.monotonic() < end:
            time.sleep(0.01)

    def test_stop(self):
        """at a stop a slow client gets the reply to each line that the server had got, and no other line is run

        A client that takes nothing is let go."""
        run(["serve", self.device], FULL_BLOCK)
        few = self.replies_at_a_stop((), MANY[:2], 1 << 12)
        self.assertNotEqual(few, b"")
        self.has_last_label(few)
        many = self.replies_at_a_stop((), MANY, 1 << 16)
        self.assertNotEqual(many.count(b"\n"), REPLIES_OF_ONE * len(MANY))
        self.has_last_label(many)
        none = self.replies_at_a_stop(HURRIED, MANY, 0)
        self.assertNotEqual(none.count(b"\n"), REPLIES_OF_ONE * len(MANY))

    def replies_at_a_stop(self, before, lines, size):
        """What a client gets that has sent these lines and takes so many bytes at a time, where the server is ended
        behind the first of them."""
        server = self.starts(*before)
        client = self.connects()
        client.sendall(b"".join(lines))
        client.recv(1, socket.MSG_PEEK)  # the first lines have been read
        server.send_signal(signal.SIGTERM)
        replies = read_until(client, slow_down, size, LONGEST_RUN)
        self.has_stopped(server, 0)
        return replies

    def has_last_label(self, replies):
        """Asserts that the last label that was set is that of the last reply."""
        last = replies.count(b"done") - 1
        self.assertEqual(run(["serve", self.device], b"label 0 0\n")[1], b"label %04x01\n" % last)
