#!/usr/bin/env python3
"""Runs in a guest, and does what its host asks. Each connection begins with a line, which is a word and a text as JSON:

    run COMMAND     the shell runs it; the answer is a line with its status, and then what it has printed
    put PATH        what comes behind the line is written to this file, and the answer is a line
    connect PATH    all that comes goes on to this socket, and back
"""
import contextlib
import json
import shutil
import socket
import socketserver
import subprocess
import threading

PORT = 7000
SIZE = 1 << 16  # of what is read at once


def hand_on(source, target):
    """Hands on what comes from one socket to the other, and the end of it."""
    with contextlib.suppress(OSError):
        for piece in iter(lambda: source.recv(SIZE), b""):
            target.sendall(piece)
    with contextlib.suppress(OSError):
        target.shutdown(socket.SHUT_WR)


class Agent(socketserver.StreamRequestHandler):
    """One connection."""

    rbufsize = 0  # nothing behind the first line is read ahead

    def handle(self):
        word, text = json.loads(self.rfile.readline())
        {"run": self.run, "put": self.put, "connect": self.connect}[word](text)

    def run(self, command):
        streams = {"stdin": subprocess.DEVNULL, "stdout": subprocess.PIPE, "stderr": subprocess.STDOUT}
        end = subprocess.run(command, shell=True, check=False, **streams)
        self.wfile.write(b"%d\n" % end.returncode + end.stdout)

    def put(self, path):
        with open(path, "wb") as file:
            shutil.copyfileobj(self.rfile, file)
        self.wfile.write(b"0\n")

    def connect(self, path):
        with socket.socket(socket.AF_UNIX) as target:
            target.connect(path)
            threading.Thread(target=hand_on, args=(target, self.connection), daemon=True).start()
            hand_on(self.connection, target)


class Server(socketserver.ThreadingTCPServer):
    """A thread for each connection."""

    allow_reuse_address = True
    daemon_threads = True


if __name__ == "__main__":
    Server(("", PORT), Agent).serve_forever()
