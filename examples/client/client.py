#!/usr/bin/env python3
"""A client of `waffd serve`: sends lines before earlier ones have their replies, and knows which have none at the end.

    examples/client/client.py SOCKET     sends the lines of its standard input to the front's server, and prints the
                                         replies; if the connection is lost, with status 1, also the lines without a
                                         reply, sent or not, on standard error
"""
import argparse
import collections
import contextlib
import fcntl
import itertools
import socket
import subprocess
import sys
import threading
import time

IN_FLIGHT = 2048  # lines that `answers` sends ahead, at most: enough for a server with 1,024 slots
PIECE = 1 << 14  # bytes of lines that are sent by one call, at most
PAUSES = (0, 1, 2, 3, 4, 5)  # seconds before a new start, after so many without a reply; then `Retrying` gives up
Request = collections.namedtuple("Request", "lines replies is_over")  # over: with all replies, or no more will come


class Lost(Exception):
    """There will be no more replies. `unanswered` are the lines without one, in order: each that was sent may have been
    carried out or not. `status` is the server's, below 0 where a signal ended it; 0 where there is no connection."""

    def __init__(self, status, why, unanswered):
        super().__init__(why)
        self.status, self.unanswered = status, unanswered


def locked(device, wait=10):
    """The file of a device, locked as by flock until it is closed here and in each process that was given it. It waits
    for the lock for so many seconds: a server whose client has died holds it until it has answered what it had read
    and made its last checkpoint."""
    file = open(device, "rb")
    end = time.monotonic() + wait
    while True:
        with contextlib.suppress(BlockingIOError):
            fcntl.flock(file, fcntl.LOCK_EX | fcntl.LOCK_NB)
            return file
        if time.monotonic() >= end:
            file.close()
            raise BlockingIOError(f"{device} is served already")
        time.sleep(0.01)


def start(file, program="./waffd", options=()):
    """A client of a new server of a locked file. It keeps the lock; an interrupt at the terminal doesn't kill it."""
    ours, theirs = socket.socketpair()
    with theirs:
        process = subprocess.Popen(
            [program, "serve", file.name, *options], stdin=theirs, stdout=theirs, stderr=subprocess.PIPE,
            pass_fds=(file.fileno(),), start_new_session=True)
    return Client(ours, process)


def connect(path):
    """A client of the server behind the front that listens here."""
    connection = socket.socket(socket.AF_UNIX)
    try:
        connection.connect(path)
    except OSError as error:
        raise Lost(0, f"{path}: {error.strerror}", []) from error
    return Client(connection)


def in_pieces(text):
    """Whole lines, as many at a time as fit into a piece. The kernel takes a piece as a whole or not at all. So a
    client that is killed leaves no beginning of a line, which its server would take for a whole one."""
    begin = 0
    while begin < len(text):
        end = text.rfind(b"\n", begin, begin + PIECE) + 1 or text.index(b"\n", begin) + 1
        yield text[begin:end]
        begin = end


class Closing(contextlib.AbstractContextManager):
    """What a `with` closes. If its block has failed, that error is raised, and not what `close` meets."""

    def __exit__(self, kind, error, trace):
        with contextlib.suppress(Lost) if kind else contextlib.nullcontext():
            self.close()


class Client(Closing):
    """One connection, for any number of threads. One of its own takes each reply as it comes: none stays unread."""

    def __init__(self, connection, process=None):
        self.connection, self.process = connection, process
        self.requests = collections.deque()  # those that were sent and aren't answered, in the order of their lines
        self.unsent = []  # lines that came when no more were sent
        self.is_open = True  # until the end of the input, or of the server
        self.ended = None  # the status, and what is to be said
        self.lock = threading.Lock()  # held so that lines are sent in the order of `requests`, before the end
        self.reader = threading.Thread(target=self.take_replies, daemon=True)
        self.reader.start()

    def send(self, lines):
        """Sends lines without waiting for their replies: the request."""
        request = Request(list(lines), [], threading.Event())
        text = "".join(line + "\n" for line in request.lines).encode(errors="surrogateescape")
        if text.count(b"\n") != len(request.lines):
            raise ValueError("a line with a newline in it")
        with self.lock, contextlib.suppress(OSError):  # of an end, which the other thread finds, too
            if self.is_open and request.lines:
                self.requests.append(request)
                for piece in in_pieces(text):
                    self.connection.sendall(piece)
            else:
                self.unsent += request.lines
                request.is_over.set()
        return request

    def replies(self, request):
        """The replies to a request, once there are all. If some are missing it fails behind those that came."""
        request.is_over.wait()
        yield from request.replies
        if len(request.replies) < len(request.lines):
            self.reader.join()
            self.check()

    def ask(self, lines):
        """The replies to these lines, which are sent together."""
        return list(self.replies(self.send(lines)))

    def answers(self, lines, together=1):
        """The replies to any number of lines. So many are sent together; what came is given before more is drawn."""
        lines, requests = iter(lines), collections.deque()
        for piece in iter(lambda: list(itertools.islice(lines, together)), []):
            requests.append(self.send(piece))
            while requests and (len(requests) * together >= IN_FLIGHT or requests[0].is_over.is_set()):
                yield from self.replies(requests.popleft())
        for request in requests:
            yield from self.replies(request)

    def check(self):
        """Fails if there are no more replies."""
        if self.ended:
            sent = [line for request in self.requests for line in request.lines[len(request.replies):]]
            raise Lost(*self.ended, sent + self.unsent)

    def close(self):
        """Ends the input, and waits until all is answered and the server has ended. Fails if that isn't in order."""
        with self.lock, contextlib.suppress(OSError):
            self.is_open = False
            self.connection.shutdown(socket.SHUT_WR)
        self.reader.join()
        if self.requests or self.ended[0] != 0:
            self.check()

    def take_replies(self):
        """Gives each reply to the oldest line without one. What a kill leaves behind the last newline is none."""
        replies = self.connection.makefile(errors="replace", newline="\n")
        with replies, contextlib.suppress(OSError, IndexError):  # of a reset; of a reply without a line
            for reply in replies:
                if reply.endswith("\n"):
                    request = self.requests[0]
                    request.replies.append(reply[:-1])
                    if len(request.replies) == len(request.lines):
                        self.requests.popleft().is_over.set()
        self.connection.shutdown(socket.SHUT_RDWR)  # so no other thread goes on sending
        status, why = 0, "the connection has ended"
        if self.process:
            faults = self.process.communicate()[1].decode(errors="replace").strip()
            status = self.process.returncode
            why = f"waffd has ended with status {status}: {faults}".rstrip(": ")
        with self.lock:
            self.is_open, self.ended = False, (status, why)
            for request in self.requests:
                request.is_over.set()
            self.connection.close()


class Retrying(Closing):
    """A client over any number of kills and lost connections, for one thread: `new_client` connects, or fails, and
    lines without a reply are sent again, in order. The README says under which conditions that leaves no trace."""

    def __init__(self, new_client):
        self.new_client = new_client
        self.client = None
        self.starts = 0  # since the last reply

    def answers(self, lines, together=1):
        """The replies to these lines. Take all of them before you call it again."""
        lines, again = iter(lines), iter([])
        while True:
            try:
                if self.client is None:
                    self.starts += 1
                    self.client = self.new_client()
                for reply in self.client.answers(itertools.chain(again, lines), together):
                    self.starts = 0
                    yield reply
                return
            except Lost as lost:
                self.client = None
                lost.unanswered += again
                if lost.status > 0 or self.starts == len(PAUSES):
                    raise
                again = iter(lost.unanswered)
                time.sleep(PAUSES[self.starts])

    def close(self):
        """Closes it. If the server is killed meanwhile, no line that was answered is lost."""
        try:
            if self.client is not None:
                self.client.close()
        except Lost as lost:
            if lost.status > 0:
                raise


def carry_out(new_client, lines, together=1):
    """The replies to these lines, by a `Retrying` that is closed at the end."""
    with Retrying(new_client) as servers:
        yield from servers.answers(lines, together)


def pieces_of(file):
    """The lines of a stream, as many at a time as are there. The last one may lack its newline."""
    for piece in iter(lambda: file.read1(1 << 16), b""):
        if not piece.endswith(b"\n"):
            piece += file.readline().rstrip(b"\n") + b"\n"
        yield piece.decode(errors="surrogateescape").split("\n")[:-1]


def main():
    parser = argparse.ArgumentParser(description=__doc__, formatter_class=argparse.RawDescriptionHelpFormatter)
    parser.add_argument("socket", metavar="SOCKET")
    path = parser.parse_args().socket
    pieces = pieces_of(sys.stdin.buffer)
    try:  # At a loss the output is closed at once, so that nobody waits for another reply before the input ends.
        with open(1, "w", encoding="utf-8") as output, connect(path) as client:
            for lines in pieces:
                for reply in client.replies(client.send(lines)):
                    print(reply, file=output, flush=True)
    except (OSError, Lost) as error:
        print(f"client: {error}", *getattr(error, "unanswered", []), sep="\n", file=sys.stderr)
        sys.stderr.writelines(line + "\n" for lines in pieces for line in lines)
        sys.exit(1)


if __name__ == "__main__":
    main()
