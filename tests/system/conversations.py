#!/usr/bin/env python3
"""A client of the front, in a process of its own: conversations on few blocks, with several lines before earlier ones
are answered. It writes down what it sends before it does, and what came.

    conversations.py SOCKET HISTORY NUMBER SECONDS     the number is this client's alone
"""
import os
import random
import socket
import sys
import time

STAYING = (0, 1)  # files that are there from the beginning
COMING = (2, 3)  # such that come and go
BLOCKS = (0, 1, 4)  # the first two in one stripe
SOME_LINES = (1, 10, 100, 1000)  # of a conversation
SOME_AHEAD = (1, 4, 16, 32)
FILLER = "ab" * 506  # behind a value, to the end of the block
WRONG = ("", "READ 0 0 0 0", " read 0 0 0 0", "reads 0 0 0 0", "Summary", "x" * 1200)  # as their first words tell
# How a conversation ends: all is answered; at once; within a line; with the end of what is sent, behind a line or
# within one.
WAITS, HANGS_UP, BREAKS_OFF, ENDS, ENDS_WITHIN = MANNERS = range(5)
PAUSE = 0.01  # seconds at most, now and then


class Client:
    """One that has many conversations, one after the other."""

    def __init__(self, path, history, number):
        self.path = path
        self.history = os.open(history, os.O_WRONLY | os.O_CREAT | os.O_APPEND)
        self.random = random.Random(f"client {number}")
        self.number = number
        self.writes = 0  # so that each value is of one write alone
        self.owed = 0  # lines that were sent and have no reply, of this conversation

    def note(self, what, moment, lines=b""):
        """Writes something down: what happened, when, and the lines of it."""
        os.write(self.history, b"%s %d %d\n" % (what, moment, lines.count(b"\n")) + lines)

    def write_line(self, file, block):
        self.writes += 1
        value = f"{self.number:04x}{self.writes:06x}01"
        return f"write 0 0 {file} {block} {value}{FILLER if self.random.random() < 0.1 else ''}"

    def line(self):
        """A random line."""
        draw = self.random.random()
        if draw < 0.02:
            return self.random.choice(WRONG)
        if draw < 0.03:
            return "summary"
        if draw < 0.2:
            file, block = self.random.choice(COMING), 0
            if draw < 0.1:
                return f"{self.random.choice(('create', 'delete'))} 0 0 {file}"
        else:
            file, block = self.random.choice(STAYING), self.random.choice(BLOCKS)
        kind = self.random.random()
        if kind < 0.45:
            return f"read 0 0 {file} {block}"
        return self.write_line(file, block) if kind < 0.95 else f"punch 0 0 {file} {block}"

    def connect(self, until):
        """A connection, as soon as there is a front; None if there is none until then."""
        while time.monotonic() < until:
            connection = socket.socket(socket.AF_UNIX)
            begun = time.monotonic_ns()
            if connection.connect_ex(self.path) == 0:
                self.note(b"begun", begun)
                return connection
            connection.close()
            time.sleep(0.005)
        return None

    def converse(self, lines, ahead, manner, until):
        """One conversation of so many lines, with so many in flight, that ends in this manner, or where the connection
        does. Before that moment there has to be a connection."""
        connection = self.connect(until)
        if connection:
            try:
                rest = self.exchange(connection, lines, ahead, manner)
                if manner in (BREAKS_OFF, ENDS_WITHIN):
                    line = self.write_line(self.random.choice(STAYING), self.random.choice(BLOCKS))
                    connection.sendall(line[:self.random.randrange(1, len(line) + 1)].encode())
                if manner in (ENDS, ENDS_WITHIN):
                    connection.shutdown(socket.SHUT_WR)
                    while rest is not None:
                        rest = self.take(connection, rest)
            except OSError:  # the connection has ended
                pass
            connection.close()
            self.note(b"closed", time.monotonic_ns())

    def exchange(self, connection, lines, ahead, manner):
        """Sends lines and takes replies, until all is sent, and also answered if it is to wait for that: what came
        behind the last reply. None at the end of what comes."""
        rest = b""
        self.owed = 0
        while lines or (self.owed and manner == WAITS):
            if lines and self.owed < ahead:
                count = min(lines, self.random.randint(1, ahead - self.owed))
                text = "".join(self.line() + "\n" for _ in range(count)).encode()
                self.note(b"sent", time.monotonic_ns(), text)
                connection.sendall(text)
                lines -= count
                self.owed += count
            if lines or manner == WAITS:
                rest = self.take(connection, rest)
                if rest is None:
                    return None
            if self.random.random() < 0.01:
                time.sleep(PAUSE * self.random.random())
        return rest

    def take(self, connection, rest):
        """Takes some replies: what came behind the last one, or None at the end."""
        piece = connection.recv(1 << 16)
        if not piece:
            return None
        replies, newline, rest = (rest + piece).rpartition(b"\n")
        self.note(b"answered", time.monotonic_ns(), replies + newline)
        self.owed -= (replies + newline).count(b"\n")
        return rest

    def go_on(self, until):
        """Has conversations until then."""
        while time.monotonic() < until:
            lines = self.random.choice(SOME_LINES)
            self.converse(lines, self.random.choice(SOME_AHEAD), self.random.choice(MANNERS), until)


if __name__ == "__main__":
    Client(*sys.argv[1:3], int(sys.argv[3])).go_on(time.monotonic() + float(sys.argv[4]))
