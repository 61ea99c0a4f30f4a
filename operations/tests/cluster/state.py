"""What the two machines show of themselves."""
import contextlib
import re
import time

from tests.power.machine import Dead
from ...rigs.client import SOCKET
from ...rigs.guest import SLOW

PATIENCE = 1200 * SLOW  # seconds until the machines have done what they have to
LOOK = 20 * SLOW  # seconds for a look at a machine, which may be busy or not up yet
PAUSE = 4  # seconds between two looks
ATTEMPTS = 3  # to find out something that has to be so
IN_SYNC = re.compile(r"cs:Connected .* ds:UpToDate/UpToDate")
STARTED = ("fence-alpha", "fence-beta", "fs", "waffd")
SHOWN = ("Online: [ alpha beta ]", "Promoted: [", "Unpromoted: [")
CONSTRAINT = "drbd-fence-by-handler"  # its name begins so
# What the journal has at each step of a takeover, as seen from the machine that takes over.
STEPS = {
    "DRBD misses the other one": r"peer\( \w+ -> Unknown \)",
    "so does Corosync": "A new membership",
    "fencing is asked for": "Requesting fencing",
    "the other one is fenced": "Operation 'reboot' targeting",
    "the disk is primary": r"role\( Secondary -> Primary \)",
    "it is mounted": "mounted filesystem",
    "waffd has started": "Result of start operation for waffd",
}
SHOW = "cat /proc/drbd; crm_mon -1 -r; cibadmin -Q -o constraints"
JOURNAL = "journalctl --boot --lines 3000 --output short-monotonic --no-pager --quiet"


class View:
    """Of the machines of a cluster. `tell` is called with what has come about, and how long that took."""

    def __init__(self, cluster, tell):
        self.cluster = cluster
        self.tell = tell

    def looks(self, name, command, seconds=LOOK):
        """What a command prints on this machine; nothing where it is off, or doesn't answer."""
        with contextlib.suppress(OSError, ValueError, Dead):
            one = self.cluster.machines[name]
            if one.is_on():
                return one.run(command, seconds)[1]
        return ""

    def drbd(self, name):
        return self.looks(name, "cat /proc/drbd")

    def crm(self, name):
        return self.looks(name, "crm_mon -1")

    def is_primary(self, name):
        return "ro:Primary/" in self.drbd(name)

    def serves(self, name):
        """Whether the service's socket is there. This is asked rarely, as each question takes the time of a guest."""
        return self.looks(name, f"test -S {SOCKET} && echo yes") == "yes\n"

    def is_alone(self, name):
        """Whether its DRBD has noticed that the other one's is gone."""
        return re.search("cs:(?!Connected)", self.drbd(name)) is not None

    def primary(self):
        """The name of the machine that is primary. One that is busy may have to be asked again."""
        for _ in range(ATTEMPTS):
            for name in self.cluster.machines:
                if self.is_primary(name):
                    return name
        raise Dead("none is primary")

    def are_online(self):
        return "Online: [ alpha beta ]" in self.crm("alpha")

    def is_whole(self):
        """Whether both are in sync, no constraint of a handler is left, and the service runs."""
        if not all(IN_SYNC.search(self.drbd(name)) for name in self.cluster.machines):
            return False
        shown = self.looks("alpha", "crm_mon -1 && cibadmin -Q -o constraints")
        is_started = all(re.search(rf"{name}\s+\(.*\):\s+Started", shown) for name in STARTED)
        return is_started and all(text in shown for text in SHOWN) and CONSTRAINT not in shown

    def steps(self, name):
        """The last time of each step of a takeover by this machine, in seconds behind the first step."""
        journal = self.looks(name, JOURNAL, 4 * LOOK)
        times = {}
        for step, words in STEPS.items():
            found = re.findall(rf"^\[ *([\d.]+)\].*{words}", journal, re.M)
            if found:
                times[step] = float(found[-1])
        first = min(times.values(), default=0)
        return ", ".join(f"{step} {moment - first:.0f} s" for step, moment in times.items())

    def waits_for(self, what, is_so, seconds=PATIENCE):
        """Whether it came about in this time."""
        began = time.monotonic()
        while time.monotonic() < began + seconds:
            if is_so():
                if time.monotonic() - began > PAUSE:
                    self.tell(f"{what}: after {time.monotonic() - began:.0f} s")
                return True
            time.sleep(PAUSE)
        self.tell(f"NOT {what}, in {seconds:.0f} s")
        self.tell_all()
        return False

    def tell_all(self):
        """What there is to find out the cause of something."""
        for name in self.cluster.machines:
            self.tell(f"{name}: " + self.looks(name, f"{SHOW}; {JOURNAL} | tail -n 300", 4 * LOOK))
