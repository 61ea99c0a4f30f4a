"""The disk of examples/block_device: fio fills and verifies it, the server is killed, and fio verifies it again. A
client of its own then writes with many requests in flight while the server is killed, and looks at each sector
afterwards: what was answered is there, and what was not has the old or the new bytes. None of them is left without an
answer."""
import collections
import errno
import os
import random
import shutil
import subprocess
import threading
import time
from urllib.parse import quote

from .program import PATIENCE, PROGRAM, TOP, Case, put_bytes, run
from .meaning import options_of
from .servers import GREATEST

try:
    import nbd
except ImportError:
    nbd = None

TOOLS = {
    "nbdkit with its plugin for Python": ["nbdkit", "python", "--dump-plugin"],
    "fio with its engine for NBD": ["fio", "--enghelp=nbd"],
}
PLUGIN = os.path.join(TOP, "examples", "block_device", "plugin.py")
SECTOR = 512
SECTORS = 16384
DISK_SIZE = SECTOR * SECTORS
LONGEST_FIO = 120  # seconds that fio may take
FIO_RUNS = 1.5  # seconds from its start to the kill; it writes for four
KILLS = 40
DEPTH = 64  # requests in flight
LONGEST = 24  # sectors of a request
MOST_ANSWERS = 600  # before a kill


class Client:
    """A connection by libnbd, which also sends what nbdkit has to refuse. Requests are sent, and answers taken, in
    any order."""

    def __init__(self, path):
        self.nbd = nbd.NBD()
        self.nbd.set_strict_mode(0)
        self.nbd.connect_unix(path)

    def wait(self):
        """Until something comes."""
        if self.nbd.poll(1000 * PATIENCE) == 0:
            raise TimeoutError("no answer")

    def answer(self, number):
        """The error with which a request is answered, or 0."""
        try:
            while not self.nbd.aio_command_completed(number):
                self.wait()
        except nbd.Error as error:
            return error.errnum
        return 0

    def send(self, kind, offset, count, data=b"", flags=0):
        """Sends a request, and returns the number by which its answer is known, and what has to be kept until then."""
        if kind == "flush":
            return self.nbd.aio_flush(flags=flags), None
        if kind == "trim":
            return self.nbd.aio_trim(count, offset, flags=flags), None
        if kind == "zero":
            return self.nbd.aio_zero(count, offset, flags=flags), None
        if kind == "read":
            buffer = nbd.Buffer(count)
            return self.nbd.aio_pread(buffer, offset, flags=flags), buffer
        buffer = nbd.Buffer.from_bytearray(bytearray(data))
        return self.nbd.aio_pwrite(buffer, offset, flags=flags), buffer

    def ask(self, kind, offset=0, count=SECTOR, data=b""):
        """The error of a request, or 0, and what it has read."""
        number, buffer = self.send(kind, offset, count, data or bytes(count))
        error = self.answer(number)
        if error or kind != "read":
            return error, b""
        return error, bytes(buffer.to_bytearray())

    def wait_for_end(self):
        """Until nbdkit reports that the server, which was killed, has ended. A read may be answered before."""
        while self.ask("read")[0] != errno.EIO:
            pass

    def sectors(self):
        """What each sector holds. No more is asked behind it."""
        error, data = self.ask("read", 0, DISK_SIZE)
        if error:
            raise RuntimeError(f"a read of the whole disk was answered with error {error}")
        self.close()
        return [data[at:at + SECTOR] for at in range(0, DISK_SIZE, SECTOR)]

    def close(self):
        self.nbd.shutdown()


# A request in flight: its first sector, the bytes of its sectors, and what libnbd needs until it is answered.
Request = collections.namedtuple("Request", "first data kept")


class Load(Client):
    """Writes, trims and zeros of no sector that another one in flight has, until the server is killed, and what each
    sector may hold by them."""

    def __init__(self, path, certain, chance):
        super().__init__(path)
        self.certain = certain  # the bytes of each sector by what was answered
        self.chance = chance
        self.in_flight = {}  # the requests, by the numbers that libnbd has for them
        self.open = {}  # the bytes that a sector was asked to hold, where that isn't answered

    def fill(self):
        """Sends requests until so many are in flight."""
        while len(self.in_flight) < DEPTH:
            count = self.chance.randrange(1, LONGEST + 1)
            first = self.chance.randrange(SECTORS - count + 1)
            if not any(sector in self.open for sector in range(first, first + count)):
                self.change(first, count)

    def change(self, first, count):
        """Sends a request that changes these sectors."""
        kind = self.chance.choice(("write", "write", "write", "trim", "zero"))
        draw = self.chance.randrange(10**8)
        if kind == "write":
            data = [b"%8d%8d" % (draw, at) * 32 for at in range(count)]
        else:
            data = [bytes(SECTOR)] * count
        self.open.update(zip(range(first, first + count), data))
        flags = self.chance.choice((0, nbd.CMD_FLAG_FUA))
        number, kept = self.send(kind, first * SECTOR, count * SECTOR, b"".join(data), flags)
        self.in_flight[number] = Request(first, data, kept)

    def take(self):
        """Takes an answer. Where it reports that all was done, the sectors hold what was asked."""
        number = self.nbd.aio_peek_command_completed()
        while not number:
            self.wait()
            number = self.nbd.aio_peek_command_completed()
        error = self.answer(number)
        request = self.in_flight.pop(number)
        if error not in (0, errno.EIO):
            raise RuntimeError(f"error {error}")
        if not error:
            for at, sector in enumerate(request.data, request.first):
                self.certain[at] = sector
                del self.open[at]
        return error

    def run_until_killed(self, kill):
        """How many requests got an error."""
        for _ in range(self.chance.randrange(MOST_ANSWERS)):
            self.fill()
            if self.take():
                raise RuntimeError("an error before the server was killed")
        self.fill()
        kill()
        answers = [self.take() for _ in range(len(self.in_flight))]
        self.wait_for_end()
        self.close()
        return sum(error != 0 for error in answers)


def is_missing(words):
    """Whether this tool isn't installed, or doesn't do what it is asked for."""
    if shutil.which(words[0]) is None:
        return True
    return subprocess.run(words, capture_output=True, check=False).returncode != 0


class BlockDevice(Case):
    """Needs nbdkit with its plugin for Python, fio with its engine for NBD, and libnbd for Python. A device in a
    file, and nbdkit with the plugin, which serves it at a socket."""

    def setUp(self):
        super().setUp()
        missing = [name for name, words in TOOLS.items() if is_missing(words)]
        if nbd is None:
            missing.append("libnbd for Python")
        self.assertFalse(missing, "it needs these")
        self.device = self.at("device")
        self.socket = self.at("socket")
        self.has_ended(run(["format", self.device, *options_of(GREATEST)]), 0)
        self.start()

    def start(self):
        """Starts nbdkit, and waits until it serves."""
        ready = self.at("ready")
        for path in (self.socket, ready):
            if os.path.exists(path):  # nbdkit leaves it
                os.unlink(path)
        words = ["nbdkit", "--exit-with-parent", "--pidfile", ready, "--unix", self.socket]
        streams = {"stdin": subprocess.DEVNULL, "stdout": subprocess.DEVNULL, "stderr": subprocess.DEVNULL}
        self.nbdkit = self.started([*words, *self.plugin_of(self.device)], **streams)
        end = time.monotonic() + PATIENCE
        while not os.path.exists(ready) and time.monotonic() < end:
            time.sleep(0.05)

    def plugin_of(self, device):
        """The words of the plugin for nbdkit."""
        return ["python", PLUGIN, f"device={device}", f"waffd={os.path.abspath(PROGRAM)}"]

    def stop(self):
        """Ends nbdkit in order, and with it the server."""
        self.nbdkit.terminate()
        self.assertEqual(self.nbdkit.wait(PATIENCE), 0)

    def kill(self):
        """Kills the server, nbdkit's one child, and leaves nbdkit alone."""
        subprocess.run(["pkill", "-KILL", "-P", str(self.nbdkit.pid)], check=True)

    def tearDown(self):
        with self.subTest("nbdkit ends in order"):
            self.stop()
        with self.subTest("and so does the server, which leaves no record"):
            self.assertEqual(run(["show", self.device])[1].decode().splitlines()[2:3], ["records 0"])

    def run_fio(self, *options):
        """The end of fio on the disk."""
        words = ["fio", "--name=disk", "--ioengine=nbd", f"--uri=nbd+unix:///?socket={quote(self.socket)}",
                 f"--size={DISK_SIZE}", "--iodepth=16", "--verify=crc32c", *options]
        return subprocess.run(words, cwd=self.folder, capture_output=True, text=True, timeout=LONGEST_FIO, check=False)

    def fio(self, name, *options):
        """A check that fio ends well."""
        with self.subTest(name):
            end = self.run_fio(*options)
            self.assertEqual(end.returncode, 0, (end.stderr + end.stdout)[:300])

    def test_fio(self):
        self.fio("fio fills the disk and verifies it", "--rw=randwrite", "--bs=4k")
        client = Client(self.socket)
        self.kill()
        client.wait_for_end()
        for kind in ("read", "write", "trim", "flush"):
            with self.subTest(f"the server is killed, and a {kind} is answered with EIO"):
                self.assertEqual(client.ask(kind)[0], errno.EIO)
        client.close()
        self.fio("fio connects anew, and all is there", "--rw=randwrite", "--bs=4k", "--verify_only")
        self.kill()
        with self.subTest("the server is killed, and nbdkit ends"):
            self.stop()
        self.start()
        self.fio("nbdkit starts again, and all is there", "--rw=randwrite", "--bs=4k", "--verify_only")
        self.fio("fio by four connections, with requests of many sizes",
                 "--rw=randwrite", "--bsrange=512-64k", "--numjobs=4", "--size=2M", "--offset_increment=2M")

    def test_fio_cut(self):
        """What fio wrote before the kill it can't distinguish from what it was to write. But each sector is a whole
        one of its own."""
        self.fio("fio fills the disk by sectors", "--rw=randwrite", "--bs=512")
        killing = threading.Timer(FIO_RUNS, self.kill)
        killing.start()
        began = time.monotonic()
        end = self.run_fio("--rw=randwrite", "--bs=512", "--do_verify=0", f"--rate=,{DISK_SIZE // 4}")
        killing.join()
        with self.subTest("the server is killed while fio writes, and fio ends with EIO"):
            self.assertNotEqual(end.returncode, 0)
            self.assertIn("Input/output error", end.stderr + end.stdout)
            self.assertLess(time.monotonic() - began - FIO_RUNS, PATIENCE)
        self.fio("fio finds each sector whole, and at its place", "--rw=read", "--bs=512")

    def test_requests(self):
        client = Client(self.socket)
        sector = b"x" * SECTOR
        for kind in ("trim", "zero"):
            with self.subTest(f"{kind} leaves zeros, there alone"):
                errors = [client.ask("write", 0, 4 * SECTOR, sector * 4)[0], client.ask(kind, SECTOR, 2 * SECTOR)[0]]
                self.assertEqual(errors, [0, 0])
                wanted = sector + bytes(2 * SECTOR) + sector
                self.assertEqual(client.ask("read", 0, 4 * SECTOR), (0, wanted))
        for offset, count in ((0, 100), (100, SECTOR)):
            with self.subTest(f"{count} bytes at {offset} are refused"):
                errors = {client.ask(kind, offset, count)[0] for kind in ("read", "write", "trim", "zero")}
                self.assertEqual(errors, {errno.EINVAL})
        with self.subTest("the whole disk in one request"):
            error, found = client.ask("read", 0, client.nbd.get_size())
            self.assertEqual((error, len(found)), (0, DISK_SIZE))
        client.close()

    def test_kills(self):
        chance = random.Random(1)
        found = Client(self.socket).sectors()
        errors = 0
        with self.subTest(f"{KILLS} kills with {DEPTH} requests in flight"):
            for number in range(KILLS):
                load = Load(self.socket, found, chance)
                errors += load.run_until_killed(self.kill)
                found = Client(self.socket).sectors()
                wrong = [at for at, data in enumerate(found) if data not in (load.certain[at], load.open.get(at))]
                what = "sectors that hold neither what they have to nor what they may"
                self.assertEqual(wrong, [], f"kill {number}: {what}")
            print(f"       {errors} requests were answered with EIO")

    def test_refused(self):
        run(["format", self.at("other")])
        run(["format", self.at("sealed"), *options_of(GREATEST)])
        run(["serve", self.at("sealed")], b"makevol 3 7\nseal 3 7\n")
        put_bytes(self.at("zeros"), bytes(1000))
        rows = (
            ("that is served", self.device, "is served already"),
            ("of another geometry", self.at("other"), "geometry"),
            ("with a sealed volume", self.at("sealed"), "create 3 7 0 was answered: error sealed"),
            ("that isn't formatted", self.at("zeros"), "not formatted"),
            ("that isn't there", self.at("none"), "can't be opened"))
        for name, device, text in rows:
            with self.subTest(f"a device {name} is refused"):
                words = ["nbdkit", "--foreground", "--unix", "-", *self.plugin_of(device)]
                end = subprocess.run(words, capture_output=True, text=True, timeout=2 * PATIENCE, check=False)
                self.assertEqual(end.returncode, 1, f"{end.stderr[-200:]!r}")
                self.assertIn(text, end.stderr)
                self.assertEqual(end.stderr.count("Traceback"), 1)
