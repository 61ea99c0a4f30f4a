"""Two guests that form a cluster: a disk for DRBD in each, which loses what wasn't flushed when its power is cut, a
link between them, and a fence device each.

Both can be frozen while they run: their memory and their disks are kept, and thawed they go on from there, within
seconds, any number of times. Their clocks then go on from there, too, also across a power cut."""
import datetime
import time

from ...rigs.disk import Disk
from ...rigs.guest import Build, Guest
from ...rigs.link import Cut, Link
from . import fencing

NUMBERS = {"alpha": 1, "beta": 2}
MEBIBYTES = 64  # of a disk of DRBD
MEMORY = 640  # mebibytes of a guest
PACKAGES = {"ipmi_sim": "openipmi"}
# Of the kernel, beside what each guest has: less work at each start of a process, of which there are very many.
KERNEL = "apparmor=0 audit=0 init_on_alloc=0 norandmaps nowatchdog"


class Cluster:
    """The two machines, by name. `lies` has their fence devices say that they cut the power, and not do it; `tell` is
    called with what they do, and with what their disks lose."""

    def __init__(self, folder, image, seed, tell):
        self.folder = folder
        self.image = image
        self.seed = seed
        self.tell = tell
        self.lies = False
        self.broken = set()  # machines that don't start, though they have power
        self.claimed = {}  # the power of such a machine, or of each where the fence devices lie
        self.asked = dict.fromkeys(NUMBERS, 0)  # how often a fence device was asked to give a machine power
        self.orders = 0  # how often one was asked to cut the power of a machine or to give it
        self.began = (time.monotonic(), datetime.datetime.utcnow())  # and the clocks of the machines then
        self.link = Link(folder)
        self.power = fencing.Power(folder, self.is_on, self.switch)
        self.bmcs = {name: fencing.Bmc(folder, name) for name in NUMBERS}
        self.machines = {name: self.machine(name, number) for name, number in NUMBERS.items()}

    def machine(self, name, number):
        disk = Disk(f"{self.folder}/{name}.disk", self.seed, self.tell)
        build = Build(MEMORY, 1, self.link.words(name, number), KERNEL)
        one = Guest(self.folder, name, self.image, number, [disk], build)
        one.clock = self.now
        one.has_fence = True
        return one

    def now(self):
        """What the clock of a machine shows."""
        moment, clock = self.began
        return clock + datetime.timedelta(seconds=time.monotonic() - moment)

    def alive(self):
        """The machines that are on."""
        return [one for one in self.machines.values() if one.is_on()]

    def fresh_disks(self):
        for one in self.machines.values():
            one.disks[0].make(MEBIBYTES)

    # ---- what the fence devices ask

    def is_on(self, name):
        is_on = self.machines[name].is_on()
        return self.claimed.get(name, is_on) if self.lies or name in self.broken else is_on

    def switch(self, name, is_to_be_on):
        one = self.machines[name]
        self.tell(f"IPMI switches {name} {'on' if is_to_be_on else 'off'}")
        self.orders += 1
        self.asked[name] += is_to_be_on
        self.claimed[name] = is_to_be_on
        if self.lies:
            return
        if not is_to_be_on:
            one.cut()
        elif name not in self.broken and not one.is_on():
            one.start()

    # ---- the link

    def cut_link(self, cut):
        self.link.cut = cut
        if cut == Cut.CARRIER:
            self.set_carrier(False)

    def mend_link(self):
        if self.link.cut == Cut.CARRIER:
            self.set_carrier(True)
        self.link.cut = Cut.NOTHING

    def set_carrier(self, is_there):
        for one in self.alive():
            one.ask_qemu("set_link", name="link", up=is_there)

    # ---- frozen while they run

    def freeze(self):
        """Keeps both as they run, beside their image."""
        for one in self.machines.values():
            one.ask_qemu("stop")
        with open(f"{self.image}/clock", "w") as file:
            file.write(self.now().isoformat())
        for one in self.machines.values():
            one.freeze(self.image)

    def thaw(self):
        """Both go on as they were kept."""
        with open(f"{self.image}/clock") as file:
            clock = datetime.datetime.fromisoformat(file.read())
        for one in self.machines.values():
            one.thaw(self.image)
        self.began = (time.monotonic(), clock)
        for one in self.machines.values():
            one.ask_qemu("cont")

    def end(self):
        for one in self.machines.values():
            one.cut()
        for bmc in self.bmcs.values():
            bmc.end()
