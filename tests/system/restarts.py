"""Restarts on a device: `serve` is killed in one run, and the next run has to have each change that was acknowledged;
long random inputs, beside the serial server; and bursts of lines under a clock."""
import concurrent.futures
import collections
import contextlib
import itertools
import os
import random
import shutil
import signal
import subprocess
import tempfile
import threading
import time

from .program import PROGRAM, REFERENCE, Case, read_until, run
from .meaning import lines_that_read, options_of
from .servers import COMMON, GREATEST, NARROW, SMALL, WIDE, Device, Drawing, plain, replies_of, text_of

# Geometry, workers, slots and every.
SERVERS = (
    (SMALL, 1, 1, 0), (SMALL, 2, 16, 0), (SMALL, 2, 2, 1), (WIDE, 4, 16, 3), (WIDE, 8, 64, 0), (WIDE, 2, 8, 20),
    (NARROW, 2, 4, 2), (COMMON, 2, 16, 0), (COMMON, 4, 256, 100), (COMMON, 64, 1024, 0))
# Runs that are killed, over all servers: a quarter at a random moment, a quarter in a call of the device, and half with
# torn writes.
KILLS = int(os.environ.get("KILLS", 800))
A_QUARTER = max(1, KILLS // (4 * len(SERVERS)))  # on each
RUNS_A_KILL = 10  # at most, and a hundred where few are to be killed
LEAST_RUNS = 100
LONGEST_RUN = 60
# Numbers of stop.c's list: all that was written stays, or parts of it.
AS_WRITTEN = (1,)
TORN = tuple(range(11))
PROBLEM = "/tmp/waffd_device_with_a_problem"  # where a device is kept that isn't as it has to be


def sizes_drawn(seed, *sizes):
    """Sizes of pieces, with a rest in front of some."""
    chance = random.Random(f"{seed} {sizes}")
    while True:
        yield chance.choice(sizes)
        time.sleep(chance.random() * 0.004 if chance.randrange(4) == 0 else 0)


def send_slowly(child, lines, seed):
    """Sends lines in pieces, up to the end or until nobody reads them, and closes the input."""
    rest = text_of(lines)
    with contextlib.suppress(BrokenPipeError), child.stdin:
        for size in sizes_drawn(seed, 1, 20, 200, 2000, 20000):
            rest = rest[child.stdin.write(rest[:size]):]
            if not rest:
                break


def run_slowly(words, lines, seed, env, seconds):
    """One run of `serve` for a client that sends some lines, takes some replies, and rests now and then, killed where
    it hasn't ended after so long: its status, standard output and standard error."""
    output = b""
    pipes = {"stdin": subprocess.PIPE, "stdout": subprocess.PIPE, "stderr": subprocess.PIPE}
    with subprocess.Popen([PROGRAM, *words], bufsize=0, env={**os.environ, **(env or {})}, **pipes) as child:
        killing = threading.Timer(seconds, child.kill)
        sending = threading.Thread(target=send_slowly, args=(child, lines, seed))
        killing.start()
        sending.start()
        for size in sizes_drawn(seed, 1, 100, 5000, 65536):
            piece = child.stdout.read(size)
            output += piece
            if not piece:
                break
        status = child.wait()
        faults = child.stderr.read()
        killing.cancel()
        sending.join()
    return status, output, faults


class Kills(Case):
    """Runs are killed while a slow client is served, and what the next run answers is looked at: each change that was
    acknowledged is there, and what else is there can be in the log by then."""

    def restarts(self, name, server, count, stop):
        """Runs on one device until so many were killed. `stop` gives how each ends: its environment and the seconds
        after which it is killed, if it hasn't come to its end by then."""
        device = Device(self.folder, server)
        drawing = Drawing(str(server), device.g)
        with self.subTest(f"{count} runs {name}: {device}"):
            killed = 0
            for number in range(1, max(RUNS_A_KILL * count, LEAST_RUNS) + 1):
                lines = drawing.lines(drawing.random.choice((20, 400, 4000)))
                env, seconds = stop(device, drawing.random, lines)
                if self.is_killed(device, lines, number, env, seconds):
                    killed += 1
                if killed == count:
                    return
            self.fail("they are over before they are killed")

    def is_killed(self, device, lines, number, env, seconds):
        """Whether this run is killed before its end. What it leaves is judged in either case."""
        status, output, faults = run_slowly(device.words(), lines, number, env, seconds)
        try:
            self.assertTrue(status in (0, -signal.SIGKILL) and not faults, f"status {status}, {faults!r:.200}")
            device.judge(lines, output, status == 0)
        except AssertionError as error:
            shutil.copyfile(device.path, PROBLEM)
            raise AssertionError(f"run {number}: {error}") from None
        return status != 0

    def test_at_a_random_moment(self):
        def stop(_, chance, __):
            most = chance.choice((0.005, 0.02, 0.1, 0.3))
            return None, most * chance.random()

        for server in SERVERS:
            self.restarts("killed at a random moment", server, A_QUARTER, stop)

    def test_in_a_call(self):
        """Killed at a write or a sync of the device, where what was written since the last sync is torn in two runs of
        three."""
        self.kill_in_calls("killed in a call of the device", A_QUARTER, AS_WRITTEN)
        self.kill_in_calls("killed so, with torn writes", 2 * A_QUARTER, TORN)

    def kill_in_calls(self, name, count, tears):
        """Runs, each killed at one of the calls that it makes on a copy of the device."""
        between = self.between("stop.c")

        def stop(device, chance, lines):
            shutil.copyfile(device.path, device.copy)
            _, (_, changes, _, _) = between.counts(self.at("counts"), device.words(device.copy), text_of(lines))
            at = chance.randrange(1, changes + 1)
            tear = chance.choice(tears)
            seed = chance.randrange(1, 1 << 30)
            return between.env(STOP_CALL=at, TEAR=tear, SEED=seed), LONGEST_RUN

        for server in SERVERS:
            self.restarts(name, server, count, stop)


LINES = int(os.environ.get("LINES", 1000000))  # over all of these servers, whose last number is the share of each
LONG_SERVERS = (
    (SMALL, 2, 16, 0, 1), (SMALL, 1, 1, 0, 0.1), (SMALL, 8, 64, 7, 2), (WIDE, 1, 64, 0, 4), (WIDE, 4, 256, 0, 10),
    (WIDE, 8, 1024, 5, 2), (WIDE, 3, 17, 1, 0.3), (NARROW, 2, 2, 0, 0.3), (NARROW, 64, 1024, 1024, 4),
    (COMMON, 1, 1024, 0, 16), (COMMON, 2, 256, 0, 16), (COMMON, 4, 1024, 64, 8), (COMMON, 64, 64, 0, 6),
    (COMMON, 8, 16, 200, 2), (GREATEST, 2, 1024, 0, 16), (GREATEST, 8, 1024, 1000, 12))


class Lines(Case):
    """Random lines to `serve`, at many geometries, workers, slots and points, beside `plain`, byte for byte; and to
    `plain` beside that of another compiler's program, if there is a REFERENCE."""

    def test_random_lines(self):
        shares = sum(server[4] for server in LONG_SERVERS)
        for number, (*server, share) in enumerate(LONG_SERVERS):
            device = Device(self.folder, server)
            lines = Drawing(f"long {number}", device.g).lines(round(LINES * share / shares))
            with self.subTest(f"{len(lines)} random lines: {device}"):
                self.answers_as_plain(device, lines)

    def answers_as_plain(self, device, lines):
        """Asserts that these lines are answered as `plain` does, and that the next run has the state that this has."""
        reads = ["summary"] if device.g == GREATEST else lines_that_read(device.g)
        wanted = plain(device.g, lines + reads)
        if REFERENCE != PROGRAM:
            end = run(["plain", *options_of(device.g)], text_of(lines + reads))
            self.has_ended(end, 0, text_of(wanted), b"")
        self.has_ended(run(device.words(), text_of(lines)), 0, text_of(wanted[:len(lines)]), b"")
        told = replies_of(run(device.words(), text_of(reads)), "the next run")
        self.assertTrue(told == wanted[len(lines):], "the next run has another state")


BURSTS = 2000  # of one server
LIFE = 20  # seconds of one server
BURST_PATIENCE = 60  # seconds for a burst's replies, and for the end
PAUSES = (0, 0, 0, 0.0001, 0.001, 0.02)  # seconds between two bursts

Lived = collections.namedtuple("Lived", "bursts lines")  # how many a server answered


def live(seed, until):
    """One server: what it answered, or why it didn't."""
    draw = random.Random(seed)
    drawing = Drawing(seed, COMMON)
    with tempfile.TemporaryDirectory() as folder:
        device = os.path.join(folder, "d")
        half = str(draw.choice((4, 32, 256)))
        subprocess.run([PROGRAM, "format", device, "--half", half], check=True, stdout=subprocess.DEVNULL)
        workers = str(draw.randint(1, 8))
        slots = str(draw.choice((1, 2, 3, 8, 16, 64)))
        every = str(draw.choice((0, 0, 1, 5, 100)))
        words = ["serve", device, "--workers", workers, "--slots", slots, "--every", every]
        what = f"seed {seed}, {' '.join(words)}"
        with subprocess.Popen([PROGRAM, *words], stdin=subprocess.PIPE, stdout=subprocess.PIPE, bufsize=0) as child:
            try:
                lived = send_bursts(child, draw, drawing, until, what)
                child.stdin.close()
                status = child.wait(BURST_PATIENCE)
                assert status == 0, f"{what}: status {status}"
            finally:
                child.kill()
    return lived


def send_bursts(child, draw, drawing, until, what):
    """Sends bursts of lines for as long as the server is to live, and waits for the replies to each."""
    bursts = 0
    lines = 0
    end = min(until, time.monotonic() + LIFE)
    while bursts < BURSTS and time.monotonic() < end:
        count = draw.randint(1, 20)
        child.stdin.write(text_of(drawing.lines(count)))
        replies = read_until(child.stdout, lambda found: found.count(b"\n") >= count, 1 << 16, BURST_PATIENCE)
        assert replies.count(b"\n") == count, f"{what}: burst {bursts + 1} of {count} lines isn't answered"
        bursts += 1
        lines += count
        time.sleep(draw.choice(PAUSES))
    return Lived(bursts, lines)


class Soak(Case):
    """Servers that get bursts of lines under a clock: a reply that doesn't come shows as a burst without an end. Each
    server has 1 to 8 workers, 1 to 64 slots and a random `--every`. A client sends bursts of 1 to 20 lines with
    pauses, and waits for each burst's replies before the next one. As many servers run at once as there are
    processors, each for some seconds, until MINUTES are over."""

    def test_bursts(self):
        """each line of each burst is answered in time"""
        until = time.monotonic() + 60 * int(os.environ.get("MINUTES", "1"))
        seeds = itertools.count(time.time_ns() % 10**9)

        def live_on(_):
            """Servers one after the other"""
            servers = []
            while time.monotonic() < until:
                servers.append(live(next(seeds), until))
            return servers

        processors = os.sched_getaffinity(0)
        with concurrent.futures.ThreadPoolExecutor(len(processors)) as pool:
            servers = [server for found in pool.map(live_on, processors) for server in found]
        bursts = sum(server.bursts for server in servers)
        lines = sum(server.lines for server in servers)
        print(f"       {len(servers)} servers, {bursts} bursts, {lines} lines")
