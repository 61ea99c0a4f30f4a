"""The program that is tried, how it is run, and how it has to end. A check is a subtest, or a test without any."""
import contextlib
import fcntl
import os
import pathlib
import select
import struct
import subprocess
import tempfile
import termios
import time
import unittest

TOP = os.path.dirname(os.path.dirname(os.path.dirname(os.path.realpath(__file__))))
PROGRAM = os.environ.get("PROGRAM", os.path.join(TOP, "crates", "waffd", "out", "waffd"))
REFERENCE = os.environ.get("REFERENCE", PROGRAM)  # whose `plain` gives the replies that both have to give
PATIENCE = 10  # seconds to wait for a reply or an end
LONGEST_RUN = 600  # seconds that a run may take
MOST_TURNS = 10000  # of calls or requests that fail

READ_FAULT = b"waffd: read fault\n"
WRITE_FAULT = b"waffd: write fault\n"
DEVICE_FAULT = b"waffd: device fault\n"
NO_MEMORY = b"waffd: out of memory\n"

MADE = b"makevol 0 0\ncreate 0 0 0\nwrite 0 0 0 0 6162\nread 0 0 0 0\n"
REPLIES = b"done\ndone\ndone\nblock 6162\n"
EACH_KIND = (
    b"makevol 0 0\ncreate 0 0 0\ncreate 0 0 1\nwrite 0 0 0 0 6162\nlist 0 0\nusage 0 0\nsummary\n"
    b"setlabel 0 0 6162\nlabel 0 0\nseal 0 0\nunseal 0 0\npunch 0 0 0 0\nread 0 0 0 0\ndelete 0 0 1\ndropvol 0 0\n")


def run(words, given=b"", env=None, closed=(), program=(PROGRAM,), **more):
    """Runs a program to its end: status, standard output, standard error."""
    def close():
        for number in closed:
            os.close(number)

    how = {"stdout": subprocess.PIPE, "stderr": subprocess.PIPE, "timeout": LONGEST_RUN, **more}
    if "stdin" not in how:
        how["input"] = given
    if env is not None:
        how["env"] = {**os.environ, **env}
    if closed:
        how["preexec_fn"] = close
    try:
        end = subprocess.run([*program, *words], check=False, **how)
    except subprocess.TimeoutExpired:
        return None, b"", b"no end"
    return end.returncode, end.stdout or b"", end.stderr


def read_until(source, is_enough, size=1, patience=PATIENCE):
    """What comes, so many bytes at a time, until it is enough, there is no more, or patience ended."""
    descriptor = source if isinstance(source, int) else source.fileno()
    found = b""
    end = time.monotonic() + patience
    with contextlib.suppress(ConnectionResetError):  # there is no more, and the other side hasn't read all
        while not is_enough(found) and select.select([descriptor], [], [], max(0, end - time.monotonic()))[0]:
            piece = os.read(descriptor, size)
            if not piece:
                break
            found += piece
    return found


def is_beginning(found, whole):
    """Whole lines that are a beginning."""
    return whole.startswith(found) and (not found or found.endswith(b"\n"))


def bytes_in(pipe):
    """How many bytes a pipe holds that nobody has read yet."""
    return struct.unpack("i", fcntl.ioctl(pipe, termios.FIONREAD, bytes(4)))[0]


def bytes_of(path):
    """What a file holds."""
    return pathlib.Path(path).read_bytes()


def put_bytes(path, data):
    """Has a file hold this alone."""
    pathlib.Path(path).write_bytes(data)


class Between:
    """Runs the program with a library of a C file of tests/inject between it and the C library."""

    def __init__(self, folder, source):
        self.library = os.path.join(folder, source + ".so")
        self.mark = os.path.join(folder, "happened")
        path = os.path.join(TOP, "tests", "inject", source)
        subprocess.run(["cc", "-Wall", "-shared", "-fPIC", "-O1", "-o", self.library, path, "-ldl"], check=True)

    def env(self, **turns):
        """What the environment of a run has to have, so that this happens."""
        words = {name: str(value) for name, value in turns.items()}
        return {"LD_PRELOAD": self.library, "HAPPENED": self.mark, **words}

    def happened(self):
        """Whether it has happened; asked once a run."""
        with contextlib.suppress(FileNotFoundError):
            os.unlink(self.mark)
            return True
        return False

    def run(self, turn, number, words, given=b"", **streams):
        """The end of the run, or None where it has no such call."""
        self.happened()
        end = run(words, given, self.env(**{turn: number}), **streams)
        return end if self.happened() else None

    def run_to_fault(self, turn, number, words, given=b""):
        """The end of a run in which this call of the device fails, and how many calls of it there were in all, the
        failed one among them; None where there is no such call."""
        self.happened()
        path = self.mark + "_counts"
        end = run(words, given, self.env(COUNTS=path, **{turn: number}))
        calls, *_ = struct.unpack("4q", bytes_of(path))
        return (end, calls) if self.happened() else None

    def counts(self, path, words, given=b"", **streams):
        """How a run ended, and how many calls of the device, of these those that change it, reads and writes it
        made."""
        end = run(words, given, self.env(COUNTS=path), **streams)
        return end, struct.unpack("4q", bytes_of(path))


class Case(unittest.TestCase):
    """Tests in a folder of their own."""

    def setUp(self):
        folder = tempfile.TemporaryDirectory()
        self.addCleanup(folder.cleanup)
        self.folder = folder.name

    def at(self, name):
        """A path in the folder."""
        return os.path.join(self.folder, name)

    def put_script(self, path, text):
        """A script of this text, in a folder that is made for it."""
        os.makedirs(os.path.dirname(self.at(path)), exist_ok=True)
        put_bytes(self.at(path), text.encode())
        os.chmod(self.at(path), 0o755)

    def started(self, words, **how):
        """A process that doesn't outlive the test."""
        child = subprocess.Popen(words, **how)
        self.addCleanup(child.wait)
        self.addCleanup(child.kill)
        return child

    def between(self, source):
        """The program with this file of tests/inject."""
        return Between(self.folder, source)

    def has_ended(self, end, status, output=None, faults=None):
        """Asserts that a run ended so. A wanted text may be a test."""
        for what, found, wanted in zip(("status", "output", "faults"), end, (status, output, faults)):
            if wanted is None:
                continue
            is_right = wanted(found) if callable(wanted) else found == wanted
            if not is_right:
                self.fail(f"{what} {found!r:.200}, all: {end[0]} {end[1][-80:]!r} {end[2][-120:]!r}")

    def ends(self, name, end, *wanted):
        """A check that a run ended so."""
        with self.subTest(name):
            self.has_ended(end, *wanted)

    def holds(self, name, path, data):
        """A check that a file has these bytes."""
        with self.subTest(name):
            self.assertTrue(bytes_of(path) == data, "other bytes")

    def each(self, name, least, attempt, judge):
        """A check of calls or requests that fail in turn: `attempt` is given 1, 2 and so on, until there is no such
        call, so no end. `judge` is given each end. Fewer than `least` can't be all that there are. How many there
        were."""
        number = 0
        with self.subTest(name):
            end = attempt(1)
            while end is not None:
                number += 1
                self.assertLess(number, MOST_TURNS, "too many")
                try:
                    judge(end)
                except AssertionError as error:
                    raise AssertionError(f"number {number}: {error}") from None
                end = attempt(number + 1)
            self.assertGreaterEqual(number, least, "so many there have to be")
            print(f"       {number} of them:")
        return number
