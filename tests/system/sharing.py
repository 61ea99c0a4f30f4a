"""Clients that share a server by the front, while server, front and clients are killed, ended and stopped: whether what
they saw is linearizable, and a client that has gone leaves nothing for later. And whether mistakes of the front, and of
a server, are found so."""
import collections
import contextlib
import itertools
import os
import random
import shutil
import signal
import subprocess
import sys
import time
import unittest

from . import conversations, histories
from .program import PROGRAM, TOP, Case, run
from .wrong_fronts import MISTAKES

HERE = os.path.dirname(os.path.realpath(__file__))
FRONT = os.path.join(TOP, "operations", "service", "front.py")
SECONDS = float(os.environ.get("FRONT", 60))  # of all rounds together, without a mistake
ROUND = 10  # seconds of a round
SHORT_ROUND = 2  # .. where there is a mistake
MOST_ROUNDS = 40  # in which it has to be found
CLIENTS = 6
LOCK = ("flock", "--nonblock", "--no-fork", "--conflict-exit-code", "75")
# How a front may end: by SIGTERM, also before it waits for that; by a kill of it or of its server; without the lock.
ENDS = (0, -signal.SIGTERM, -signal.SIGKILL, 128 + signal.SIGKILL, 75)
PAUSES = (0.02, 0.2, 1.5)  # seconds at most between two disturbances, and an eighth of a round
LONGEST_STOP = 0.3  # seconds
PATIENCE = 60  # seconds for the last replies
KEPT = "/tmp/waffd_history_with_a_problem"
FILES = (*conversations.STAYING, *conversations.COMING)
PLACES = [(str(file), str(block)) for file in conversations.STAYING for block in conversations.BLOCKS]
PLACES += [(str(file), "0") for file in conversations.COMING]


class Round:
    """Some seconds of clients that share a server."""

    def __init__(self, folder, seed, words, seconds):
        self.folder = folder
        self.random = random.Random(seed)
        self.words = words  # that start the front
        self.until = time.monotonic() + seconds
        self.longest_pause = seconds / 8
        self.front = None
        self.clients = {}  # processes, by the path of what each one writes down
        self.died = {}  # when a client was killed
        self.number = 0  # of the last client
        self.done = []  # what was disturbed
        self.problems = []

    def at(self, name):
        return os.path.join(self.folder, name)

    def starts_front(self):
        for name in ("socket", "alone"):
            with contextlib.suppress(FileNotFoundError):
                os.unlink(self.at(name))
        device = self.at("device")
        server = [*LOCK, device, PROGRAM, "serve", device, "--slots", str(self.slots)]
        words = [*self.words, "--alone", self.at("alone"), self.at("socket"), *server]
        self.front = subprocess.Popen(words, stderr=subprocess.DEVNULL)

    def starts_client(self):
        self.number += 1
        path = self.at(f"history{self.number}")
        # A few are alone in their conversations, and so keep the others waiting.
        door = "alone" if self.number % 7 == 0 else "socket"
        words = [sys.executable, os.path.join(HERE, "conversations.py"), self.at(door), path, str(self.number),
                 str(self.until - time.monotonic())]
        self.clients[path] = subprocess.Popen(words)

    def mends(self):
        """Starts what has ended, the front after a while if it had no lock."""
        status = self.front.poll()
        if status is not None:
            if status not in ENDS:
                self.problems.append(f"the front has ended with status {status}")
            if status == 75:
                time.sleep(0.02)
            self.starts_front()
        for path, client in list(self.clients.items()):
            if client.poll() is not None and time.monotonic() < self.until:
                self.died.setdefault(path, time.monotonic_ns())
                del self.clients[path]
                self.starts_client()

    def servers(self):
        """The processes of the front's server."""
        with contextlib.suppress(FileNotFoundError):
            with open(f"/proc/{self.front.pid}/task/{self.front.pid}/children", encoding="ascii") as file:
                return [int(number) for number in file.read().split()]
        return []

    def disturbs(self):
        """Kills the server, the front, both or a client, ends the front, or stops a client for a while."""
        what = self.random.choice(("server", "front", "both", "end", "client", "client", "stop", "stop"))
        self.done.append(what)
        with contextlib.suppress(ProcessLookupError):
            if what in ("both", "server"):
                for number in self.servers():
                    os.kill(number, signal.SIGKILL)
            if what in ("both", "front"):
                self.front.kill()
            if what == "end":
                self.front.terminate()
            client = self.random.choice(list(self.clients.values()))
            if what == "client":
                client.kill()
                client.wait()
            if what == "stop":
                client.send_signal(signal.SIGSTOP)
                time.sleep(LONGEST_STOP * self.random.random())
                client.send_signal(signal.SIGCONT)

    def runs(self):
        """All of it: the connections, in the order in which they began."""
        self.slots = self.random.choice((1, 16, 16, 256))
        run(["format", self.at("device")])
        makes = "makevol 0 0\n" + "".join(f"create 0 0 {file}\n" for file in FILES)
        run(["serve", self.at("device")], makes.encode())
        self.starts_front()
        for _ in range(CLIENTS):
            self.starts_client()
        while time.monotonic() < self.until:
            time.sleep(min(self.random.choice(PAUSES), self.longest_pause) * self.random.random())
            self.disturbs()
            self.mends()
        self.finishes()
        found = [one for number in range(1, self.number + 1) for one in self.history(self.at(f"history{number}"))]
        return sorted(found, key=lambda one: one.begun)

    def history(self, path):
        return histories.read_history(path, self.died.get(path, float("inf"))) if os.path.exists(path) else []

    def finishes(self):
        """Lets the clients end, reads each block a last time, and ends the front."""
        end = time.monotonic() + PATIENCE
        while any(client.poll() is None for client in self.clients.values()) and time.monotonic() < end:
            self.mends()
            time.sleep(0.01)
        for path, client in self.clients.items():
            if client.poll() is None:
                self.problems.append(f"{path}: not answered within {PATIENCE} s")
                client.kill()
        if not self.reads_all(end):
            self.problems.append("the last reads aren't answered")
        self.front.terminate()
        self.front.wait()

    def reads_all(self, until):
        """One more client reads each block: whether it is answered before that moment."""
        self.number += 1
        last = conversations.Client(self.at("socket"), self.at(f"history{self.number}"), self.number)
        lines = itertools.cycle([f"read 0 0 {file} {block}" for file, block in PLACES])
        last.line = lambda: next(lines)
        while time.monotonic() < until:
            self.mends()
            last.owed = len(PLACES)
            last.converse(len(PLACES), len(PLACES), conversations.WAITS, time.monotonic() + PAUSES[1])
            if last.owed == 0:
                return True
        return False


@unittest.skipUnless(shutil.which("flock"), "flock isn't installed")
class Sharing(Case):
    """What clients see."""

    def round(self, seed, words, seconds):
        """The problems of a round, and what it was."""
        folder = self.at("round")
        os.mkdir(folder)
        one = Round(folder, seed, words, seconds)
        connections = one.runs()
        problems = one.problems + list(histories.problems_of(connections, dict.fromkeys(PLACES, histories.HOLE)))
        if problems and words[-1] == FRONT:
            shutil.rmtree(KEPT, ignore_errors=True)
            shutil.copytree(folder, KEPT, ignore=shutil.ignore_patterns("socket", "alone"))
        shutil.rmtree(folder)
        return problems, connections, one

    def test_histories(self):
        """what clients saw is linearizable, over kills of server, front and clients"""
        lines = connections = 0
        disturbed = collections.Counter()
        end = time.monotonic() + SECONDS
        while time.monotonic() < end:
            seed = time.time_ns()
            problems, found, one = self.round(seed, [sys.executable, FRONT], min(ROUND, SECONDS))
            self.assertEqual(problems[:3], [], f"seed {seed}, kept in {KEPT}")
            lines += sum(len(connection.lines) for connection in found)
            connections += len(found)
            disturbed.update(one.done)
        told = ", ".join(f"{what} {count}" for what, count in sorted(disturbed.items()))
        print(f"       {lines} lines, {connections} connections; {told}:")

    def test_mistakes(self):
        """mistakes of the front, and a write that a server takes back, are found"""
        for name, mistake in MISTAKES.items():
            with self.subTest(f"found: {mistake.__doc__}"):
                words = [sys.executable, os.path.join(HERE, "wrong_fronts.py"), name]
                for number in range(1, MOST_ROUNDS + 1):
                    problems, _, _ = self.round(f"{name} {number}", words, SHORT_ROUND)
                    if problems:
                        print(f"       round {number}, {problems[0]:.200}")
                        break
                else:
                    self.fail(f"not found in {MOST_ROUNDS} rounds")
