#!/usr/bin/env python3
"""The front with one mistake, which the random test has to find.

    wrong_fronts.py MISTAKE ARGUMENTS     as front.py ARGUMENTS
"""
import contextlib
import functools
import os
import random
import sys

TOP = os.path.dirname(os.path.dirname(os.path.dirname(os.path.realpath(__file__))))
sys.path.append(os.path.join(TOP, "operations", "service"))
import front

SOON = 0.02  # seconds after which something wrong is done
READ = b"read 0 0 0 0\n"


class Gone:
    """In the place of a client that has gone: nobody gets the replies."""
    is_here = False
    owed = 0


class Listener:
    """In the place of a client: the mistaken front's own, which keeps one reply."""
    is_here = True
    owed = 0
    replies = reply = waiting = b""

    def send(self, _):
        self.reply, self.is_here = self.replies, False

    def is_ready(self):
        return False


class Later:
    """The set of a front, which first does what is due."""

    def __init__(self, of):
        self.of, self.set = of, of.set
        self.due = []  # when, and what

    def __getattr__(self, name):
        return getattr(self.set, name)

    def add(self, what):
        self.due.append((self.of.now + SOON, what))

    def poll(self, seconds):
        due = [what for moment, what in self.due if moment <= self.of.now]
        self.due = [found for found in self.due if found[0] > self.of.now]
        for what in due:
            if not self.of.server.stdin.closed:
                what()
        return self.set.poll(min(seconds, SOON / 4))


class Mistaken(front.Front):
    """A front that may do something later."""

    def __init__(self, *arguments):
        super().__init__(*arguments)
        self.set = Later(self)


class RepliesExchanged(Mistaken):
    """Two clients get each other's replies."""

    def ask(self, client, count, lines):
        super().ask(client, count, lines)
        if len(self.asked) > 1 and random.random() < 0.02:
            (one, owed, size), (other, number, length) = self.asked[-2], self.asked[-1]
            if owed == number and one:
                self.asked[-2], self.asked[-1] = (other, owed, size), (one, number, length)


class LinesExchanged(Mistaken):
    """The lines of a turn are handed on in another order."""

    def ask(self, client, count, lines):
        if count > 1 and random.random() < 0.02:
            lines = b"".join(lines.splitlines(True)[::-1])
        super().ask(client, count, lines)


class Fragments(Mistaken):
    """What comes behind the last newline is handed on once the client has gone."""

    def let_go(self, client):
        super().let_go(client)
        if client.rest and not self.server.stdin.closed:
            self.ask(Gone, 1, client.rest + b"\n")


class DoneEarly(Mistaken):
    """A write is acknowledged some time before it is handed on."""

    def ask(self, client, count, lines):
        if count == 1 and lines.startswith(b"write 0 0 0 ") and not client.owed:
            client.replies += b"done\n"
            self.set.add(lambda: super(DoneEarly, self).ask(Gone, 1, lines))
            self.set.due.append((0, lambda: client.is_here and self.attend(client, front.select.EPOLLOUT)))
        else:
            super().ask(client, count, lines)


class StaleReads(Mistaken):
    """Some reads are answered by what was there some time ago."""

    def __init__(self, *arguments):
        super().__init__(*arguments)
        self.listener = Listener()

    def ask(self, client, count, lines):
        if lines == READ and not client.owed and self.listener.reply:
            client.replies += self.listener.reply
            self.set.due.append((0, lambda: client.is_here and self.attend(client, front.select.EPOLLOUT)))
            return
        super().ask(client, count, lines)
        if client and self.listener.reply or not self.listener.replies:
            self.set.add(self.listen)

    def listen(self):
        if self.listener.reply or not self.listener.replies:
            self.listener = Listener()
            super().ask(self.listener, 1, READ)


class RunAgain(Mistaken):
    """Some writes are handed on a second time."""

    def ask(self, client, count, lines):
        super().ask(client, count, lines)
        if lines.startswith(b"write") and random.random() < 0.1:
            self.set.add(lambda: super(RunAgain, self).ask(Gone, 1, lines.splitlines(True)[0]))


class GoneLate(Mistaken):
    """The lines of a client that has gone are handed on some time after a later one was answered."""

    def __init__(self, *arguments):
        super().__init__(*arguments)
        self.left = []  # lines of a client that has gone, with the clients that were there by then

    def let_go(self, client):
        if not client.waiting:
            with contextlib.suppress(OSError):
                client.receive(self.now)  # what it sent before it closed
        lines = client.waiting
        super().let_go(client)
        if lines:
            self.left.append((lines, {client, *self.clients.values()}))

    def attend(self, client, event):
        super().attend(client, event)
        if event & front.select.EPOLLOUT:
            for lines, there in self.left:
                if client not in there:
                    self.set.add(functools.partial(self.ask, Gone, *front.divided(lines, front.TURN)[:2]))
            self.left = [(lines, there) for lines, there in self.left if client in there]


class TakesBack(Mistaken):
    """The server, as it starts, takes back the last write that was acknowledged before."""

    def __init__(self, *arguments):
        self.lines = []  # that were handed on and have no reply
        super().__init__(*arguments)
        self.last = os.open(f"{self.doors[0].getsockname()}.last", os.O_RDWR | os.O_CREAT)

    def ask(self, client, count, lines):
        super().ask(client, count, lines)
        self.lines += lines.splitlines(True)

    def hand_back(self):
        before = len(self.lines) - self.owed
        super().hand_back()
        answered = len(self.lines) - self.owed - before
        for line in self.lines[:answered]:
            if line.startswith((b"write 0 0 0 ", b"write 0 0 1 ")):
                os.pwrite(self.last, b"punch %s %s %s %s\n" % tuple(line.split()[1:5]), 0)
        del self.lines[:answered]

    def has_opened(self):
        super().has_opened()
        line = os.pread(self.last, 100, 0)
        if line:
            self.ask(Gone, 1, line)


MISTAKES = {mistake.__name__: mistake for mistake in Mistaken.__subclasses__()}

if __name__ == "__main__":
    front.Front = MISTAKES[sys.argv[1]]
    sys.exit(front.main(sys.argv[2:]))
