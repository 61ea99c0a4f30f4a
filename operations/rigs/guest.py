"""A guest with Debian under QEMU, on a disk that ./image has made. Its host, which is here, runs commands in it, talks
to sockets in it, and cuts its power. It can be frozen while it runs: its memory is kept, and thawed it goes on from
there.

A slow or busy host needs more patience: SLOW=3 in the environment waits three times as long.
"""
import collections
import contextlib
import json
import os
import shutil
import socket
import subprocess
import sys
import time

from tests.power.machine import COMMAND_LINE, Dead, emulator
from .agent import PORT

SLOW = float(os.environ.get("SLOW", "1"))
PATIENCE = 300 * SLOW  # seconds for a command
BOOT = 900 * SLOW  # seconds until the guest runs commands
PROCESSOR = "Nehalem"  # x86-64-v2, which is what the program needs
ADDRESS = "52:54:00:00:00:01"  # of the network card towards the host: ./image configures it by this address
PACKAGES = {"qemu-system-x86_64": "qemu-system-x86", "qemu-img": "qemu-utils", "ip": "iproute2"}

# What a guest is made of: its memory, its processors, further words of QEMU and of the kernel.
Build = collections.namedtuple("Build", "mebibytes processors words kernel", defaults=(512, 2, (), ""))


class Guest:
    """A guest on the disk of the folder `image`, which stays as it is: what this guest changes is in `folder`. `disks`
    are its further ones, in order. A port of the host, 7000 and its number, leads to the agent."""

    def __init__(self, folder, name, image, number, disks=(), build=Build()):
        self.folder = folder
        self.name = name
        self.image = image
        self.port = PORT + number
        self.disks = list(disks)
        self.build = build
        self.clock = None  # says what its clock shows when it is switched on, unless that is the host's time
        self.has_fence = False  # whether another one may cut its power, and give it power again
        self.qemu = None
        self.root = self.at("qcow2")
        below = ("-b", f"{image}/root.img", "-F", "raw")
        subprocess.run(["qemu-img", "create", "-q", "-f", "qcow2", *below, self.root], check=True)

    def at(self, what):
        """The path of a file of this guest."""
        return f"{self.folder}/{self.name}.{what}"

    def command(self):
        """The words of QEMU. The disk of the system is a file of a host that goes on, so it keeps what it has been
        given; the others lose what wasn't flushed."""
        words = f"root=/dev/vda rw {COMMAND_LINE} systemd.hostname={self.name} {self.build.kernel}"
        found = [
            *emulator(PROCESSOR, self.build.mebibytes, self.build.processors, translated=256),
            "-serial", f"file:{self.at('console')}",
            "-kernel", f"{self.image}/kernel",
            "-initrd", f"{self.image}/initrd",
            "-append", words,
            "-qmp", f"unix:{self.at('qmp')},server=on,wait=off",
            "-device", "virtio-rng-pci",
            "-netdev", f"user,id=host,hostfwd=tcp:127.0.0.1:{self.port}-:{PORT}",
            "-device", f"virtio-net-pci,netdev=host,mac={ADDRESS},romfile=",
            *self.build.words,
            "-drive", f"file={self.root},if=none,id=root,format=qcow2,cache=unsafe",
            "-device", "virtio-blk-pci,drive=root"]
        if self.clock:
            found += ["-rtc", f"base={self.clock().isoformat(timespec='seconds')}"]
        for number, disk in enumerate(self.disks):
            found += disk.begin(f"disk{number}")
        return found

    # ---- its power

    def boot(self):
        """Switches it on: how many seconds it takes until it runs commands."""
        self.start()
        return self.wait_up()

    def start(self, *more):
        """With more words of QEMU."""
        with open(self.at("qemu"), "ab") as told:
            self.qemu = subprocess.Popen(
                [*self.command(), *more], stdin=subprocess.DEVNULL, stdout=told, stderr=told)

    def is_on(self):
        qemu = self.qemu  # another thread may change it
        return qemu is not None and qemu.poll() is None

    def wait_up(self):
        """How many seconds it takes until it runs commands."""
        began = time.monotonic()
        while time.monotonic() < began + BOOT and (self.is_on() or self.has_fence):
            with contextlib.suppress(OSError, ValueError):
                self.run("true", patience=10)
                return time.monotonic() - began
            time.sleep(0.3)
        raise Dead(f"{self.name} doesn't boot: {self.console()}")

    def cut(self):
        """Cuts its power, at once."""
        if self.qemu:
            self.qemu.kill()
            self.qemu.wait()
            self.qemu = None

    def goes_off(self, command, patience=PATIENCE):
        """Whether this command has it switch itself off in this time. It also does where it is to reboot."""
        with contextlib.suppress(OSError, ValueError):  # the agent may end before it has answered
            self.run(command)
        return self.is_off(patience)

    def is_off(self, patience=PATIENCE):
        """Whether it is off, or switches itself off in this time."""
        with contextlib.suppress(subprocess.TimeoutExpired):
            self.qemu.wait(patience)
            self.qemu = None
        return self.qemu is None

    def console(self):
        """The last of what its kernel has printed."""
        with open(self.at("console"), errors="replace") as file:
            return file.read()[-1000:]

    # ---- its agent

    def begin(self, word, text, patience=PATIENCE):
        """A connection to the agent that begins so."""
        one = socket.create_connection(("127.0.0.1", self.port), patience)
        one.sendall(json.dumps([word, text]).encode() + b"\n")
        return one

    def run(self, command, patience=PATIENCE):
        """The status and the output of a command of the shell."""
        with self.begin("run", command, patience) as one:
            told = b"".join(iter(lambda: one.recv(1 << 16), b""))
        status, _, output = told.partition(b"\n")
        return int(status), output.decode(errors="replace")

    def does(self, command, patience=PATIENCE):
        """The output of a command that has to succeed."""
        status, output = self.run(command, patience)
        if status:
            raise Dead(f"{self.name}: {command}: {status} {output}")
        return output

    def put(self, path, data):
        """Writes a file."""
        with self.begin("put", path) as one:
            one.sendall(data)
            one.shutdown(socket.SHUT_WR)
            one.recv(1)

    def connect(self, path):
        """A connection to a socket that has this name in the guest."""
        return self.begin("connect", path)

    # ---- QEMU itself

    def ask_qemu(self, command, **arguments):
        """What QEMU answers to a command of its monitor, for instance to `set_link`."""
        with socket.socket(socket.AF_UNIX) as one, contextlib.closing(one.makefile("rw")) as file:
            one.connect(self.at("qmp"))
            file.readline()
            for asked in ({"execute": "qmp_capabilities"}, {"execute": command, "arguments": arguments}):
                file.write(json.dumps(asked) + "\n")
                file.flush()
                answer = json.loads(file.readline())
                while "event" in answer:
                    answer = json.loads(file.readline())
        return answer

    def wait_for_qemu(self, command, is_done, seconds=PATIENCE):
        """Waits until this holds of what QEMU answers."""
        end = time.monotonic() + seconds
        answer = None
        while time.monotonic() < end:
            try:
                answer = self.ask_qemu(command)["return"]
                if is_done(answer):
                    return
            except (OSError, ValueError, KeyError) as problem:
                answer = problem
            time.sleep(0.1)
        raise Dead(f"{self.name}: {command}: {answer}")

    def freeze(self, folder):
        """Once it stands still: keeps its memory and its disks in this folder, and ends QEMU."""
        self.ask_qemu("migrate-set-parameters", **{"max-bandwidth": 1 << 32})
        self.ask_qemu("migrate", uri=f"exec:cat >{folder}/{self.name}.memory")
        self.wait_for_qemu("query-migrate", lambda answer: answer.get("status") == "completed")
        self.cut()
        for disk in self.disks:
            disk.settle()
        for path in self.paths():
            shutil.copy(path, folder)

    def thaw(self, folder):
        """Starts QEMU with what was kept in this folder. It stands still then."""
        for path in self.paths():
            shutil.copy(f"{folder}/{os.path.basename(path)}", path)
        self.start("-S", "-incoming", f"exec:cat {folder}/{self.name}.memory")
        self.wait_for_qemu("query-status", lambda answer: answer["status"] == "paused")

    def paths(self):
        """The files of all its disks."""
        return [self.root, *(disk.path for disk in self.disks)]


def go_alone():
    """Goes on in a network namespace of its own, which has a loopback and nothing else."""
    if "ALONE" not in os.environ:
        words = ["unshare", "--net", sys.executable, *sys.argv]
        os.execvpe(words[0], words, {**os.environ, "ALONE": "1"})
    subprocess.run(["ip", "link", "set", "lo", "up"], check=True)
