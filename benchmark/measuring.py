"""Measures the rows of the file of figures. The programs of a row take turns, so that what else the machine does
meets all of them."""
import collections
import contextlib
import os
import shutil
import subprocess
import time
from statistics import median

from figures_file import DIGITS, FEWER_ALONE, IN_ONE_FILE, MORE_READS, OF_WAFFD, ORDINARY, programs_of
from programs import GREATEST, LONGEST_RUN, PROGRAM, Failed, Programs, done

SYNCS = 500  # of a round, for the time of one
RECORD = 520  # bytes of a record of the log
LEAST_SYNC = 5  # microseconds; a sync of less reaches no disk
BYTES_A_LINE = 1200  # at most, in the log of the ordinary server
MORE_BYTES = 1000000  # that this log is longer


class Measuring(Programs):
    """Measures rows: so many rounds, of so many lines."""

    def __init__(self, repeat, lines, *folders):
        super().__init__(*folders)
        self.repeat = repeat
        self.lines = lines
        self.starts = {}  # by geometry, what each program asks for to answer one line

    def measure(self, row):
        """The values of each program of a row."""
        part, *of_row = row.split()
        parts = {
            "disk": self.of_disk,
            "opening": self.of_opening,
            "serve": self.of_serve,
            "every": self.of_every,
            "plain": self.of_plain,
        }
        found = self.in_turns(programs_of(row), parts[part](*of_row))
        return {program: self.rounded(of_program) for program, of_program in found.items()}

    @staticmethod
    def rounded(of_program):
        """The values as they are kept."""
        return {what: [round(value, DIGITS[what]) for value in values] for what, values in of_program.items()}

    def in_turns(self, programs, run):
        """The values of all rounds, by program, as `run` gives them. In each round all run, and another one first
        than in the last."""
        found = {program: collections.defaultdict(list) for program in programs}
        for turn in range(self.repeat):
            first = turn % len(programs)
            for program in programs[first:] + programs[:first]:
                for what, value in run(program).items():
                    found[program][what].append(value)
        return found

    def of_disk(self):
        """A sync of the disk."""
        return lambda _: {"us": self.sync_time()}

    def sync_time(self):
        """The median of the times that a record takes to be written and synced, into a file that has its room."""
        times = []
        with open(self.at("synced"), "w+b", buffering=0) as file:
            file.write(bytes(RECORD * SYNCS))
            os.fsync(file.fileno())
            for n in range(SYNCS):
                begun = time.perf_counter_ns()
                os.pwrite(file.fileno(), b"\1" * RECORD, n * RECORD)
                os.fdatasync(file.fileno())
                times.append((time.perf_counter_ns() - begun) / 1000)
        if median(times) < LEAST_SYNC:
            raise Failed("a sync costs nothing in the folder for temporary files: TMPDIR has to name one on a disk")
        return median(times)

    def run(self, geometry, program, slots, output="file"):
        """One run of a program on the input, with a fresh device or log."""
        kind, _, workers = program.partition(" ")
        if kind == "waffd":
            path = self.copied(f"{geometry}.device")
            return self.counted([PROGRAM, "serve", path, "--workers", workers, "--slots", slots], output)
        path = self.copied(f"{geometry}.log")
        return self.counted([self.at(f"server.{geometry}"), kind, path, slots], output)

    def start(self, geometry):
        """What each program asks for to answer one line, and the floor of an opening: all rounds. Measured once for a
        geometry."""
        def run(program):
            if program != "floor":
                return self.run(geometry, program, "16")
            words = [self.at(f"server.{geometry}"), "floor", self.copied(f"{geometry}.device")]
            return {"first": int(done(words))}

        if geometry not in self.starts:
            self.make(geometry)
            self.write_input(["echo", "summary"])
            self.starts[geometry] = self.in_turns((*ORDINARY, *OF_WAFFD, "floor"), run)
        return self.starts[geometry]

    def make(self, geometry):
        """The ordinary server, and the device and the log of the geometry, with all that the lines use."""
        device = self.at(f"{geometry}.device")
        log = self.at(f"{geometry}.log")
        numbers = GREATEST if geometry == "greatest" else {}
        env = {name.upper(): str(number) for name, number in numbers.items()}
        server = self.build("serve/server.rs", f"server.{geometry}", **env)
        done([PROGRAM, "format", device, *(f"--{name}={number}" for name, number in numbers.items())])
        self.write_input([self.build("serve/lines.rs", "lines"), "fill", "0", geometry])
        size = os.path.getsize(self.stream("input")) + self.lines * BYTES_A_LINE + MORE_BYTES
        done([server, "make", log, str(size)])
        self.counted([PROGRAM, "serve", device, "--workers", "4", "--slots", "64"])
        self.counted([server, "batch", log, "1024"])

    def of_opening(self, geometry):
        """The time to the first reply."""
        firsts = {program: iter(found["first"]) for program, found in self.start(geometry).items()}
        return lambda program: {"ms": next(firsts[program]) / 1000}

    def of_serve(self, geometry, mix, slots, output):
        """Lines of a mix with so many slots, into a file or a pipe."""
        starts = self.start(geometry)
        lines = self.lines
        if mix == "read":
            lines *= MORE_READS
        if slots == "1" or mix in IN_ONE_FILE:
            lines //= FEWER_ALONE
        self.write_input([self.at("lines"), mix, str(lines), geometry])
        changes = self.count_lines("input", b"write")

        def run(program):
            counts = self.run(geometry, program, slots, output)
            return self.net(counts, starts[program], lines, changes)

        return run

    @staticmethod
    def net(counts, start, lines, changes):
        """What a run's lines took, without the opening: times count from the first reply, and calls less those of a
        run of one line."""
        wall = counts["wall"] - counts["first"]
        cpu = counts["cpu"] - counts["first_cpu"]
        if wall <= 0 or cpu <= 0:
            raise Failed("all replies came with the first one")
        found = {"lines/s": lines * 1e6 / wall, "cpu us": cpu / lines, "peak MB": counts["peak"] / 1000}
        if changes:
            found["syncs"] = (counts["syncs"] - median(start["syncs"])) * 1000 / changes
            found["bytes"] = (counts["written"] - median(start["written"])) / changes
        return found

    def of_every(self, geometry):
        """Writes with 16 slots and 2 workers; and the records in force after a hard stop, with the time to the next
        first reply."""
        start = self.start(geometry)["waffd 2"]

        def run(program):
            words = ["--workers", "2", "--slots", "16", "--every", program.split()[1]]
            self.write_input([self.at("lines"), "write", str(self.lines), geometry])
            counts = self.counted([PROGRAM, "serve", self.copied(f"{geometry}.device"), *words])
            net = self.net(counts, start, self.lines, self.lines)
            found = {what: net[what] for what in ("lines/s", "syncs", "bytes")}
            path = self.copied(f"{geometry}.device")
            self.stop_hard([PROGRAM, "serve", path, *words])
            found["records"] = self.records_in_force(path)
            self.write_input(["echo", "summary"])
            found["ms"] = self.counted([PROGRAM, "serve", path, "--workers", "2"])["first"] / 1000
            return found

        return run

    @staticmethod
    def records_in_force(path):
        """How many records the next start replays, as `show` has it."""
        shown = dict(line.split(" ", 1) for line in done([PROGRAM, "show", path]).splitlines())
        return int(shown["records"])

    def stop_hard(self, words):
        """Kills a server once it has answered all lines of an input that doesn't end."""
        with contextlib.ExitStack() as files:
            sink = files.enter_context(open(self.stream("output"), "wb"))
            source = files.enter_context(open(self.stream("input"), "rb"))
            child = files.enter_context(subprocess.Popen(words, stdin=subprocess.PIPE, stdout=sink, bufsize=0))
            try:
                shutil.copyfileobj(source, child.stdin)
                wanted = self.count_lines("input")
                until = time.monotonic() + LONGEST_RUN
                while self.count_lines("output") < wanted:
                    if child.poll() is not None or time.monotonic() > until:
                        raise Failed(f"{' '.join(words)} has not answered all lines")
                    time.sleep(0.01)
            finally:
                child.kill()

    def of_plain(self, mix):
        """Lines of a mix to the serial server, and to an ordinary one."""
        self.write_input([self.build("lines.rs", "plain_lines"), mix, str(self.lines * MORE_READS)])
        commands = {"serial": [self.build("serial.rs", "serial")], "waffd": [PROGRAM, "plain"]}
        lines = self.count_lines("input")

        def run(program):
            """Microseconds of a line."""
            counts = self.counted(commands[program])
            return {"us": counts["wall"] / lines, "cpu us": counts["cpu"] / lines}

        return run
