"""Clients of the service in a guest: what each has sent, and what it has heard."""
import collections
import contextlib
import random
import threading
import time

from tests.power.machine import Dead
from tests.system.servers import COMMON, Drawing, text_of
from .guest import PATIENCE

SOCKET = "/run/waffd/socket"
WINDOW = 40  # lines that a client has sent and that have no reply yet, at most
PROBE = "label 9 9"  # is answered by an error, as there is no such volume
TOGETHER = 3  # lines that a steady client sends together
PAUSE = 0.3  # seconds in between: the guest has other work, too
MANY = 4000  # lines of a busy client: it isn't through with them before something happens to its server


class Session:
    """A client that is connected: what it has sent, and what it has heard."""

    def __init__(self, guest):
        self.socket = guest.connect(SOCKET)
        self.sent = []
        self.heard = b""
        self.answered = 0  # how many lines have their whole reply

    def send(self, lines, window=WINDOW):
        """Sends these lines. Whether each of them has its reply before the connection ends."""
        waiting = collections.deque(lines)
        wanted = len(self.sent) + len(waiting)
        while self.answered < wanted:
            room = self.answered + window - len(self.sent)
            piece = [waiting.popleft() for _ in range(min(room, len(waiting)))]
            if not self.say(piece) or not self.hear():
                return False
        return True

    def say(self, lines):
        """Whether these lines have gone out. Part of them may have where they haven't."""
        self.sent += lines
        with contextlib.suppress(OSError):
            self.socket.sendall(text_of(lines))
            return True
        return False

    def hear(self):
        """Whether something has come."""
        piece = b""
        with contextlib.suppress(OSError):
            piece = self.socket.recv(1 << 16)
        self.heard += piece
        self.answered += piece.count(b"\n")
        return piece != b""

    def hears_its_end(self, seconds):
        """Whether the connection ends in this time, without anything that comes before."""
        self.socket.settimeout(seconds)
        try:
            return self.socket.recv(1) == b""
        except ConnectionError:
            return True
        except OSError:  # the time is over
            return False

    def go_on(self, lines=()):
        """Sends lines, and listens until the connection ends."""
        if self.send(lines):
            while self.hear():
                pass
        self.socket.close()


class Steady(Session):
    """Goes on with a few lines at a time, in a thread of its own, until `end` or until the connection ends. It waits
    for a reply as long as it takes."""

    def __init__(self, guest, drawing):
        super().__init__(guest)
        self.socket.settimeout(None)
        self.drawing = drawing
        self.is_ending = False
        self.moments = [time.monotonic()]  # of its replies
        self.thread = threading.Thread(target=self.work, daemon=True)
        self.thread.start()

    def work(self):
        while not self.is_ending and self.send(self.drawing.lines(TOGETHER)):
            self.moments.append(time.monotonic())
            time.sleep(PAUSE)

    def waits_since(self):
        """For how many seconds it has had no reply."""
        return time.monotonic() - self.moments[-1]

    def longest_wait(self):
        """In seconds, over all that was answered."""
        return max((after - before for before, after in zip(self.moments, self.moments[1:])), default=0.0)

    def end(self, seconds):
        """It sends no more. Whether it has all its replies."""
        self.is_ending = True
        self.thread.join(seconds)
        return not self.thread.is_alive()


class Clients:
    """Clients of the servers of one device."""

    def __init__(self, seed):
        self.drawing = Drawing(seed, COMMON)
        self.chance = random.Random(seed)

    def session(self, guests, seconds=PATIENCE):
        """A client that has had a reply, of whichever of these guests."""
        end = time.monotonic() + seconds
        while time.monotonic() < end:
            for guest in guests:
                with contextlib.suppress(OSError):
                    one = Session(guest)
                    if one.send([PROBE]):
                        return one
                    one.socket.close()
            time.sleep(0.3)
        raise Dead("no server answers")

    def through(self, guests, count):
        """A client that has had the replies to so many random lines."""
        one = self.session(guests)
        if not one.send(self.drawing.lines(count)):
            raise Dead(f"the connection has ended: {one.heard[-100:]}")
        return one

    def busy(self, guests):
        """A client that sends random lines in a thread of its own, until the connection ends."""
        one = self.through(guests, self.chance.randint(20, 80))
        one.thread = threading.Thread(target=one.go_on, args=(self.drawing.lines(MANY),), daemon=True)
        one.thread.start()
        time.sleep(2 * self.chance.random())
        return one
