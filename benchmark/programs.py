"""The programs that are measured: how they are built and run, and what a run of them asked for."""
import contextlib
import filecmp
import os
import shutil
import subprocess
import tempfile

HERE = os.path.dirname(os.path.realpath(__file__))
TOP = os.path.dirname(HERE)
PROGRAM = os.environ.get("PROGRAM", os.path.join(TOP, "crates", "waffd", "out", "waffd"))
GREATEST = {
    "aggregates": 4, "volumes": 8, "stripes": 8, "width": 64, "files": 64, "blocks": 256, "quota": 64, "half": 1024}
IN_MEMORY = "/dev/shm"
ROOM = 2 << 30  # bytes for inputs and outputs
LONGEST_RUN = 300  # seconds

# What counts.c writes of a run: microseconds, kilobytes, calls and bytes.
COUNTS = ("wall", "cpu", "peak", "syncs", "writes", "written", "reads", "read", "first", "first_cpu")


class Failed(Exception):
    """A program that did not do what it has to."""


def need_program():
    """Sees to it that there is a program and that it is not older than a source, as ./waffd does."""
    done([PROGRAM if "PROGRAM" in os.environ else os.path.join(TOP, "waffd"), "--help"])


def done(words, stdout=subprocess.PIPE, **more):
    """Runs a command that has to succeed: what it prints."""
    try:
        end = subprocess.run(words, stdout=stdout, stderr=subprocess.PIPE, text=True, check=False, **more)
    except OSError as fault:
        raise Failed(f"{words[0]}: {fault.strerror}") from None
    except subprocess.TimeoutExpired as late:
        raise Failed(str(late)) from None
    if end.returncode:
        said = ((end.stdout or "") + end.stderr).strip()[-1000:]
        raise Failed(f"{' '.join(words)} ended with status {end.returncode}: {said}")
    return end.stdout


def room_for_streams():
    """A folder in memory for inputs and outputs, so that the disk has the devices alone; else that for temporary
    files."""
    has_room = os.access(IN_MEMORY, os.W_OK) and shutil.disk_usage(IN_MEMORY).free >= ROOM
    return IN_MEMORY if has_room else tempfile.gettempdir()


class Programs:
    """The programs, in a folder beside the devices, and their streams in another."""

    def __init__(self, folder, streams):
        self.folder = folder
        self.streams = streams

    def at(self, name):
        """A device, or what is built."""
        return os.path.join(self.folder, name)

    def stream(self, name):
        """An input or an output."""
        return os.path.join(self.streams, name)

    def build(self, source, name, *compiler, **env):
        """Builds a program of this folder, once."""
        if not os.path.exists(self.at(name)):
            compiler = compiler or ("rustc", "--edition", "2021", "-O")
            done([*compiler, "-o", self.at(name), os.path.join(HERE, source)], env={**os.environ, **env})
        return self.at(name)

    def write_input(self, words):
        """The lines that a program prints become the next runs' input; their outputs have to be the same."""
        with open(self.stream("input"), "wb") as file:
            done(words, file)
        with contextlib.suppress(FileNotFoundError):
            os.unlink(self.stream("expected"))

    def count_lines(self, stream, start=b""):
        """How many whole lines of a stream begin so."""
        with open(self.stream(stream), "rb") as file:
            return sum(line.startswith(start) and line.endswith(b"\n") for line in file)

    def copied(self, name):
        """A fresh copy of a device or a log, of which nothing waits to be written."""
        path = self.at("file")
        shutil.copyfile(self.at(name), path)
        with open(path, "rb") as file:
            os.fdatasync(file.fileno())
        return path

    def counted(self, words, output="file"):
        """Runs a program on the input, into a file, also through a pipe: what it asked for. Refuses an output that
        differs from that of the first run on this input."""
        counts = self.at("counts")
        library = self.build("serve/counts.c", "counts.so", "cc", "-O2", "-shared", "-fPIC")
        env = dict(os.environ, LD_PRELOAD=library, COUNTS=counts)
        with contextlib.ExitStack() as files:
            source = files.enter_context(open(self.stream("input"), "rb"))
            sink = files.enter_context(open(self.stream("output"), "wb"))
            if output == "pipe":
                reader = subprocess.Popen(["cat"], stdin=subprocess.PIPE, stdout=sink)
                sink = files.enter_context(reader).stdin
            done(words, sink, stdin=source, env=env, timeout=LONGEST_RUN)
        with open(counts, encoding="ascii") as file:
            found = dict(zip(COUNTS, map(int, file.read().split())))
        os.unlink(counts)
        self.compare_output(words)
        return found

    def compare_output(self, words):
        """The output of the first run on this input is kept, and that of each other one has to be the same."""
        output = self.stream("output")
        expected = self.stream("expected")
        if not os.path.exists(expected):
            os.replace(output, expected)
        elif not filecmp.cmp(output, expected, shallow=False):
            raise Failed(f"{' '.join(words)} answered otherwise than the program before it")
