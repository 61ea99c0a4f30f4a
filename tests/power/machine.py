"""A guest under QEMU whose disk is served from here. One thread does it all, so the length of the disk's log when a
reply or a report comes tells which events were before it."""
import contextlib
import selectors
import socket
import subprocess
import tempfile
import time

from . import served_disk

PORTS = ("control", "output", "reports")
PATIENCE = 120  # seconds for an answer of the guest
# Of the kernel. A busy host may serve no timer in the time in which it looks for one.
COMMAND_LINE = "console=ttyS0 panic=-1 quiet mitigations=off tsc=unstable nokaslr no_timer_check"


class Dead(Exception):
    """The guest doesn't do what it was asked for."""


def emulator(processor, mebibytes, processors, translated):
    """The first words of QEMU, without help of the processor. It ends with the process that has started it, and where
    the guest reboots. So many mebibytes are for translated code."""
    return [
        "setpriv", "--pdeathsig", "KILL",
        "qemu-system-x86_64", "-accel", f"tcg,thread=multi,tb-size={translated}", "-machine", "q35", "-cpu", processor,
        "-smp", str(processors), "-m", str(mebibytes), "-nodefaults", "-no-user-config", "-display", "none",
        "-no-reboot"]


def command(setup, folder):
    """The words of QEMU. The guest's reports and requests keep their order (`ioeventfd=off`)."""
    found = [
        *emulator("max", 448, 2, translated=128),
        "-serial", f"file:{folder}/console",
        "-kernel", setup.kernel,
        "-initrd", setup.initrd,
        "-append", f"{COMMAND_LINE} loglevel=4",
        *served_disk.words("disk", f"{folder}/disk", ",ioeventfd=off"),
        "-device", "virtio-serial-pci,ioeventfd=off,max_ports=8"]
    for number, name in enumerate(PORTS, 1):
        found += ["-chardev", f"socket,id={name},path={folder}/{name},server=off"]
        found += ["-device", f"virtserialport,chardev={name},nr={number}"]
    return found


class Guest:
    """A guest that has booted. QEMU connects it to its disk, and to each of the ports."""

    def __init__(self, setup, base, chance):
        self.folder = tempfile.mkdtemp(dir=setup.folder)
        self.chance = chance
        self.selector = selectors.DefaultSelector()
        self.heard = {name: bytearray() for name in PORTS}
        ears = {name: served_disk.listening(f"{self.folder}/{name}") for name in ("disk", *PORTS)}
        started = command(setup, self.folder)
        self.qemu = subprocess.Popen(started, stdin=subprocess.DEVNULL, stdout=subprocess.DEVNULL)
        self.disk = served_disk.ServedDisk(base, chance, ears["disk"])
        self.sockets = {"disk": self.disk.socket}
        for name in PORTS:
            self.sockets[name] = ears[name].accept()[0]
        for name, one in self.sockets.items():
            one.settimeout(None)
            self.selector.register(one, selectors.EVENT_READ, name)
            ears[name].close()
        self.answer()

    def receive(self, name):
        """Takes all that has come."""
        heard = self.disk.heard if name == "disk" else self.heard[name]
        with contextlib.suppress(BlockingIOError):
            while True:
                data = self.sockets[name].recv(1 << 20, socket.MSG_DONTWAIT)
                if not data:
                    raise Dead(f"QEMU has ended: {self.console()}")
                heard += data
                if name != "disk":
                    self.disk.log.heard[name].append((len(self.disk.log.events), data))

    def turn(self, seconds):
        """Takes what the guest asks of its disk, and before that is served the reports that came before it. Where
        there is no request, one that was held back is completed. It waits for so long at most."""
        held = len(self.disk.held)
        ready = {key.data for key, _ in self.selector.select(0 if held else seconds)}
        if "disk" in ready:
            self.receive("disk")
        elif held:
            self.disk.complete(self.chance.randrange(held))
        if ready:
            for name in PORTS:
                self.receive(name)
        self.disk.serve()

    def wait(self, until, seconds=PATIENCE):
        """Works until this holds; whether it does at the end of the time."""
        end = time.monotonic() + seconds
        while not until() and time.monotonic() < end:
            self.turn(min(0.2, seconds))
        return until()

    def answer(self):
        """The next answer of guest.sh: its word, number and bytes."""
        heard = self.heard["control"]
        if self.wait(lambda: b"\n" in heard):
            begin = heard.index(b"\n") + 1
            word, number, length = bytes(heard[:begin]).split()
            if self.wait(lambda: len(heard) >= begin + int(length)):
                data = bytes(heard[begin:begin + int(length)])
                del heard[:begin + int(length)]
                return word.decode(), int(number), data
        raise Dead(f"no answer: {bytes(heard[:200])} {self.console()}")

    def tell(self, *words, data=b""):
        """Has guest.sh run a line, and sends what this reads."""
        self.sockets["control"].sendall(" ".join(map(str, words)).encode() + b"\n" + data)

    def feed(self, data):
        """Gives this to the program."""
        self.tell(f"dd bs={len(data)} count=1 iflag=fullblock status=none <&3 >&4", data=data)

    def ask(self, *words):
        """The status and the bytes that guest.sh answers."""
        self.tell(*words)
        return self.answer()[1:]

    def mount(self, system):
        """What the guest says where it doesn't mount its disk."""
        if system == "btrfs":
            self.ask("did btrfs device scan --forget")
        status, said = self.ask("did mount -t", system, "/dev/vda /mnt")
        if status == 0:
            return None
        return said.decode() or "no word"

    def console(self):
        """The last of what the kernel has printed."""
        with open(f"{self.folder}/console", errors="replace") as file:
            return file.read()[-2000:]
