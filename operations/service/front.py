#!/usr/bin/env python3
"""Lets any number of clients share one server of `waffd`, which stays.

    front.py [--idle SECONDS] [--alone PATH] [--ahead LINES] SOCKET COMMAND ..

COMMAND starts the server. SOCKET and PATH must not be there. They are made with the rights that the umask leaves, and
are removed at the end.

To the server the front is its one client. It hands on whole lines, those of each client in their order, and gives each
reply to the client whose line it answers, since replies come in the order of the lines. Clients are let in once the
server has opened the device, which systemd is told then (`Type=notify`).

What a client sent behind its last newline is dropped, and when its connection has closed, so are its lines that the
server hasn't got. The others come before each line of whoever connects later. So a client that has gone leaves nothing
for later. With --idle, a client is let go that neither sends nor takes anything for SECONDS, if nothing is owed to it.

A client that connects to PATH is alone: the lines of all others wait until it has gone, for a minute at most. Before
the next one is let in there, the others have as much time as it was alone.

Up to LINES, or some more, are in flight: the server has got them and hasn't answered. A line waits for the replies to
so many lines of others, and with fewer than twice as many as it has slots the server isn't kept busy.

SIGTERM ends the server in order: it answers what it has got, and gets nothing more. The status is the server's, or 70.
"""
import argparse
import collections
import contextlib
import fcntl
import os
import select
import signal
import socket
import subprocess
import sys
import time

AHEAD = 64  # lines in flight: four times the slots that a server has by default
TURN = 16  # lines of one client that are handed on before it is another one's turn
CLIENTS = 200  # at once: more wait to be let in, unless one is to be alone
STANDSTILL = 60  # seconds for which a client may be alone
PATIENCE = 10  # seconds for which one may take no reply once the server has ended: systemd kills after 90
SIZE = 1 << 15  # of what is read of a client at once
PIPE = 1 << 16  # of what a pipe holds
WIDE_PIPE = 1 << 20  # of what the server's input does, if the system allows it
PAGE = 1 << 12  # of which a pipe is made
SET_SIZE, GET_SIZE = 1031, 1032  # of a pipe: F_SETPIPE_SZ and F_GETPIPE_SZ, which `fcntl` has from Python 3.10 on
LONGEST = 2000  # bytes of a line that are kept: one of over 1,100 is an error, whatever it says
FAILED = 70
GONE = select.EPOLLHUP | select.EPOLLERR  # which a set reports of each descriptor, also of one that waits for nothing


class Client:
    """A connection. What is kept of it is bounded: while lines of it wait it isn't read, and these are handed on only
    while it takes its replies."""

    def __init__(self, connection, now):
        connection.setblocking(False)
        self.connection = connection
        self.number = connection.fileno()
        self.is_here = True
        self.may_send = True  # until the end of what it sends
        self.rest = b""  # what it sent behind its last newline
        self.waiting = b""  # its lines that the server hasn't got
        self.owed = 0  # how many lines the server has got and not answered
        self.replies = b""  # which it hasn't taken
        self.seen = now  # when it last sent or took something

    def is_ready(self):
        """Whether lines of it may be handed on."""
        return self.waiting and not self.replies

    def is_done(self):
        """Whether nothing more is to come from it or for it."""
        return not (self.may_send or self.waiting or self.owed or self.replies)

    def is_silent_since(self, moment):
        """Whether it has done nothing since then, and isn't waiting for the server."""
        return self.seen < moment and not self.owed and (self.replies or not self.waiting)

    def events(self):
        """What to wait for, beside its end."""
        if self.replies:
            return select.EPOLLOUT
        return select.EPOLLIN if self.may_send and not self.waiting else 0

    def receive(self, now):
        """Takes what it has sent."""
        piece = self.connection.recv(SIZE)
        self.waiting, self.rest = whole_lines(self.rest[:LONGEST] + piece)
        self.may_send = piece != b""
        self.seen = now

    def send(self, now):
        """Gives it replies, as many as it takes."""
        self.replies = self.replies[self.connection.send(self.replies):]
        self.seen = now


class Front:
    """A server and its clients. There is one thread, which waits in `run` alone."""

    def __init__(self, server, doors, stopped, idle, ahead):
        self.server = server
        self.doors = doors  # the sockets at which clients come: for all, and to be alone; none at the end
        self.stopped = stopped  # has something to read after SIGTERM
        self.idle = idle  # seconds for which a client may be silent; 0 for any number
        self.ahead = ahead  # lines that may be in flight, or some more
        self.set = select.epoll()  # what to wait for. `selectors` can't wait for the end of a connection alone
        self.watched = {}  # by descriptor, the events that the set waits for
        self.input, self.output = server.stdin.fileno(), server.stdout.fileno()
        self.calls = {stopped.fileno(): self.end, self.output: self.hand_back}  # what to do when something has come
        self.clients = {}  # by descriptor
        self.ready = {}  # those with lines to hand on, first the one whose last turn is longest ago
        self.asked = collections.deque()  # the lines in flight: whose, how many have no reply, and how many bytes
        self.owed = self.size = 0  # how many lines these are, and bytes
        self.room = widened(server.stdin) // 2 - 2 * PAGE  # for so many bytes there is room in any pages of the pipe
        self.begun = b""  # the beginning of a reply
        self.alone = None  # the client that is
        self.since = self.again = 0  # when it was let in, and when the next one may be
        self.answered = 0  # lines of clients, in all
        self.now = self.began = self.heard = time.monotonic()  # of these: the server answered last
        self.next_second = self.now + 1
        self.is_open = self.has_ended = False

    def run(self):
        """Goes on until the server has ended, and each client has its replies. In a round, what clients have done comes
        before others are let in, and these before lines are handed on. So whoever has closed leaves nothing for later,
        and no event is taken for that of a new client with the same descriptor."""
        self.watch(self.stopped.fileno(), select.EPOLLIN)
        self.watch(self.output, select.EPOLLIN)
        self.ask(None, 1, b"summary\n")  # the reply comes once the device is open
        while not self.has_ended or self.clients:
            found = self.set.poll(self.next_second - self.now)
            self.now = time.monotonic()
            for number, event in found:
                if number in self.clients:
                    self.attend(self.clients[number], event)
            for number, _ in found:
                if number in self.calls:
                    self.calls[number]()
            if self.now >= self.next_second:
                self.each_second()
            self.hand_on()

    def watch(self, number, events):
        """Has the set wait for these events of a descriptor, and for its end; or not for it at all, if that is None."""
        before = self.watched.get(number)
        if events == before:
            return
        if events is None:
            self.set.unregister(number)
        elif before is None:
            self.set.register(number, events)
        else:
            self.set.modify(number, events)
        self.watched[number] = events

    # ---- lines and replies

    def hand_on(self):
        """Gives the server lines of each client in turn, until enough are in flight."""
        while self.ready and self.owed < self.ahead:
            client = self.alone or next(iter(self.ready))
            if client not in self.ready:
                break
            count, lines, rest = divided(client.waiting, TURN)
            if self.owed and self.size + len(lines) > self.room:
                break
            self.ask(client, count, lines)
            client.waiting = rest
            del self.ready[client]
            if rest:
                self.ready[client] = None  # as the last one
            else:
                self.watch(client.number, client.events())

    def ask(self, client, count, lines):
        """Gives the server lines, and notes whose they are: the front's own, if it is None. As all that is in flight
        fits into its pipe, this takes them at once, and a front that is killed leaves no part of a line there."""
        if not self.owed:
            self.heard = self.now
        self.asked.append((client, count, len(lines)))
        self.owed += count
        self.size += len(lines)
        if client:
            client.owed += count
        try:
            os.write(self.input, lines)
        except OSError:  # the server has ended, which its output tells, too
            pass

    def hand_back(self):
        """Gives each client the replies that have come to its lines."""
        piece = os.read(self.output, PIPE)
        if not piece:
            self.server_has_ended()
            return
        replies, self.begun = whole_lines(self.begun + piece)
        self.heard = self.now
        given = {}
        while replies:
            client, owed, size = self.asked.popleft()
            count, mine, replies = divided(replies, owed)
            if count < owed:
                self.asked.appendleft((client, owed - count, size))
            else:
                self.size -= size
            self.owed -= count
            if client is None:
                self.has_opened()
                continue
            self.answered += count
            client.owed -= count
            if client.is_here:
                client.replies += mine
                given[client] = None
        for client in given:
            self.attend(client, select.EPOLLOUT)

    # ---- clients

    def let_in(self, door):
        """The client that waits longest at this socket."""
        try:
            client = Client(door.accept()[0], self.now)
        except OSError:  # too many files are open
            self.watch(door.fileno(), 0)  # for a second, or until a client goes
            return
        self.clients[client.number] = client
        self.settle(client)
        if door is not self.doors[0]:
            self.alone, self.since = client, self.now
        self.open_doors()

    def attend(self, client, event):
        """Gives to a client or takes from it. If it has closed, or all is done, it is let go."""
        try:
            if event & GONE:
                self.let_go(client)
            elif client.replies:
                client.send(self.now)
            elif client.waiting:
                self.watch(client.number, 0)  # until the server has got these
            else:
                client.receive(self.now)
        except BlockingIOError:
            pass
        except OSError:
            self.let_go(client)
        if client.is_ready():
            self.ready.setdefault(client)
        elif client.is_here:
            self.settle(client)

    def settle(self, client):
        """Waits for what a client may do next that isn't ready, or lets it go if that is nothing."""
        self.ready.pop(client, None)
        if client.is_done():
            self.let_go(client)
        else:
            self.watch(client.number, client.events())

    def let_go(self, client):
        """Ends a connection. What the server has got is answered all the same, to nobody."""
        client.is_here, client.waiting = False, b""
        del self.clients[client.number]
        self.ready.pop(client, None)
        self.watch(client.number, None)
        client.connection.close()
        if client is self.alone:
            self.alone, self.again = None, self.now + (self.now - self.since)
        self.open_doors()

    def open_doors(self):
        """Waits at those sockets at which a client may be let in now."""
        has_room = len(self.clients) < CLIENTS
        may_be_alone = not self.alone and self.now >= self.again
        for door, may_open in zip(self.doors, (has_room, may_be_alone)):
            self.watch(door.fileno(), select.EPOLLIN if may_open and self.is_open else 0)

    # ---- its life

    def has_opened(self):
        """The server has answered for the first time, so its device is open."""
        self.is_open = True
        say(f"the device was open after {self.now - self.began:.3f} s")
        tell_systemd(b"READY=1")
        for door in self.doors:
            self.calls[door.fileno()] = lambda door=door: self.let_in(door)
        self.open_doors()

    def end(self):
        """Lets nobody in any more, and hands nothing on. The server ends once it has answered what it has got."""
        self.watch(self.stopped.fileno(), None)
        for door in self.doors:
            self.watch(door.fileno(), None)
            self.calls.pop(door.fileno(), None)
            shut(door)
        self.doors = []
        for client in list(self.clients.values()):
            client.may_send, client.waiting = False, b""
            self.settle(client)
        self.server.stdin.close()

    def server_has_ended(self):
        """Nothing more is to come of it: what it owes nobody gets."""
        self.has_ended = True
        self.watch(self.output, None)
        for client in self.clients.values():
            client.owed = 0
        self.end()
        if self.is_open:
            say(f"the server has ended: {self.answered + self.owed} lines handed on, {self.owed} owed")

    def each_second(self):
        """Lets those go who have had their time, and tells systemd how it is: `systemctl status` shows it."""
        self.next_second = self.now + 1
        seconds = PATIENCE if self.has_ended else self.idle
        for client in list(self.clients.values()):
            is_over = client is self.alone and self.now >= self.since + STANDSTILL
            if is_over or (seconds and client.is_silent_since(self.now - seconds)):
                self.let_go(client)
        self.open_doors()
        alone = f" (one alone for {self.now - self.since:.0f} s)" if self.alone else ""
        oldest = f" for {self.now - self.heard:.0f} s" if self.owed else ""
        text = f"clients {len(self.clients)}{alone}, lines answered {self.answered}, owed {self.owed}{oldest}"
        with contextlib.suppress(OSError):
            tell_systemd(f"STATUS={text}".encode(), socket.MSG_DONTWAIT)


def whole_lines(text):
    """The lines of a text, up to its last newline, and what is behind that."""
    end = text.rfind(b"\n") + 1
    return text[:end], text[end:]


def divided(lines, most):
    """The first of some lines, up to so many: their number, and they themselves. And the others."""
    count = lines.count(b"\n")
    if count <= most:
        return count, lines, b""
    end = 0
    for _ in range(most):
        end = lines.index(b"\n", end) + 1
    return most, lines[:end], lines[end:]


def widened(pipe):
    """Has a pipe hold more, if the system allows it: how much it holds."""
    with contextlib.suppress(OSError):
        fcntl.fcntl(pipe, SET_SIZE, WIDE_PIPE)
    size = fcntl.fcntl(pipe, GET_SIZE)
    if size < PIPE:
        raise RuntimeError(f"a pipe holds {size} bytes, as this user has too many of them")
    return size


def listen(path):
    """A socket of this name."""
    door = socket.socket(socket.AF_UNIX)
    door.bind(path)
    door.listen()
    return door


def shut(door):
    """Takes a socket away."""
    with contextlib.suppress(OSError):  # somebody has removed its name, or it is closed
        os.unlink(door.getsockname())
    door.close()


def say(text):
    """Prints a line, which systemd puts into the journal."""
    with contextlib.suppress(OSError):
        print(f"front: {text}", file=sys.stderr, flush=True)


def tell_systemd(text, flags=0):
    """Tells systemd something of this unit, if it has started us and wants to know."""
    path = os.environ.get("NOTIFY_SOCKET")
    if path:
        name = path.replace("@", "\0", 1) if path.startswith("@") else path
        with socket.socket(socket.AF_UNIX, socket.SOCK_DGRAM) as one:
            one.sendto(text, flags, name)


def sigterm_to_read():
    """A socket that has something to read once SIGTERM has come."""
    stopped, told = socket.socketpair()
    told.setblocking(False)
    signal.set_wakeup_fd(told.detach())
    signal.signal(signal.SIGTERM, lambda number, frame: None)
    return stopped


def serve(paths, command, idle, ahead):
    """Starts the server, and lets clients in until it ends: its status."""
    stopped = sigterm_to_read()
    doors = []
    try:
        for path in paths:
            doors.append(listen(path))
        server = subprocess.Popen(command, bufsize=0, stdin=subprocess.PIPE, stdout=subprocess.PIPE)
        Front(server, doors, stopped, idle, ahead).run()
    finally:
        for door in doors:
            shut(door)
    status = server.wait()
    return status if status >= 0 else 128 - status


def number(text):
    """A whole number."""
    if not text.isdecimal():
        raise argparse.ArgumentTypeError(f"{text!r} is no whole number")
    return int(text)


def arguments(words):
    parser = argparse.ArgumentParser(description=__doc__, formatter_class=argparse.RawDescriptionHelpFormatter)
    parser.add_argument("--idle", metavar="SECONDS", type=number, default=0, help="how long a client may be silent")
    parser.add_argument("--alone", metavar="PATH", help="where a client connects to be alone")
    parser.add_argument("--ahead", metavar="LINES", type=number, default=AHEAD, help="how many may be in flight")
    parser.add_argument("socket", metavar="SOCKET", help="where clients connect")
    parser.add_argument("command", metavar="COMMAND", nargs=argparse.REMAINDER, help="what starts the server")
    given = parser.parse_args(words)
    if not given.command:
        parser.error("there is no COMMAND")
    if given.ahead == 0:
        parser.error("--ahead is at least 1")
    return given


def main(words):
    given = arguments(words)
    paths = [path for path in (given.socket, given.alone) if path]
    try:
        return serve(paths, given.command, given.idle, given.ahead)
    except (OSError, RuntimeError) as error:
        print(f"front: {given.socket}, {given.command[0]}: {error}", file=sys.stderr)
        return FAILED


if __name__ == "__main__":
    sys.exit(main(sys.argv[1:]))
