"""Configures two fresh machines as operations/failover.md says, by its own files and commands."""
import concurrent.futures
import re
import time

from tests.power.machine import Dead
from .emulation import pages
from .machines import NUMBERS
from .state import PATIENCE, View

LINK_FILE = "/etc/systemd/network/05-link.network"
# The way to the fence devices, which are at the host. And a guest's card has the name that its bus gives it.
HOST_FILE = "/etc/systemd/network/host.network"
WAY_TO_THE_HOST = "\n[Route]\nDestination=192.0.2.0/24\nGateway=10.0.2.2\n"


class Setup:
    """Of a cluster whose machines are on. `tell` is called with what has been done."""

    def __init__(self, cluster, tell):
        self.machines = cluster.machines
        self.view = View(cluster, tell)
        self.tell = tell
        self.page = pages()

    def run(self):
        self.on_both(self.prepare)
        self.on_both(self.configure)
        self.make_device(self.machines["alpha"])
        self.on_both(self.start)
        if not self.view.waits_for("both are online", self.view.are_online):
            raise Dead("the two don't find each other")
        self.push(self.machines["alpha"])
        self.talk()

    def on_both(self, step):
        """Takes a step on both machines at once."""
        with concurrent.futures.ThreadPoolExecutor() as pool:
            list(pool.map(step, self.machines, self.machines.values()))

    def prepare(self, name, one):
        """What a fresh machine has before the page begins: the files of the repository, and a way to the fence
        devices."""
        self.page.bring(one)
        one.does(f"echo '{WAY_TO_THE_HOST}' >>{HOST_FILE}")
        self.tell(f"{name} has the files of the repository")

    def configure(self, name, one):
        """The files and commands for both machines, but that the packages are in the image."""
        network = self.page.file(LINK_FILE).decode().replace("10.0.0.1", f"10.0.0.{NUMBERS[name]}")
        card = one.does("basename $(dirname $(grep -l 52:54:00:00:01 /sys/class/net/*/address))").strip()
        one.put(LINK_FILE, re.sub("Name=.*", f"Name={card}", network).encode())
        first = self.page.block("remove what they have written:")
        commands = [line for line in first.splitlines() if not line.startswith("apt-get ")]
        one.does("\n".join(["set -e", *commands, "networkctl reload"]))
        for path in ("/etc/corosync/corosync.conf", "/etc/drbd.conf"):
            one.put(path, self.page.file(path))
        self.tell(one.does("cd repository && set -e\n" + self.page.block("it is the same on both:")))

    def make_device(self, one):
        def are_connected():
            shown = one.does("cat /proc/drbd")
            return "cs:Connected" in shown and "Inconsistent/Inconsistent" in shown

        if not self.view.waits_for("DRBD is connected", are_connected):
            raise Dead(one.does("cat /proc/drbd; ip address"))
        self.tell(one.does("set -e\n" + self.page.block("Then, on `alpha`:")))

    def start(self, name, one):
        self.tell(f"{name}: " + one.does(self.page.block("let Pacemaker have the disk:")))

    def push(self, one):
        """The resources."""
        began = time.monotonic()
        self.tell(one.does("set -ex\n" + self.page.block("configure it, on one of them:"), PATIENCE))
        self.tell(f"pcs took {time.monotonic() - began:.0f} s")
        if not self.view.waits_for("both are in sync, and one serves", self.view.is_whole):
            raise Dead("the service doesn't start")

    def talk(self):
        """Asks the service and a fence device, as the page has it."""
        name = self.view.primary()
        self.tell(f"{name}: " + self.machines[name].does(self.page.command("echo summary")))
        status = self.page.command("fence_ipmilan --ip=192.0.2.2").replace("--lanplus", "--lanplus --cipher=3")
        self.tell("alpha: " + self.machines["alpha"].does(status))
