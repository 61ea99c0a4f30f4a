"""Chains of failures of a cluster. After each one the next client's finding is judged, and the machines are brought
back in sync."""
import collections
import random
import re
import time

from tests.power.machine import Dead
from ...rigs.client import Clients, Steady
from ...rigs.judge import Judge
from ...rigs.link import OTHER, Cut
from ...rigs.report import Report
from .emulation import pages
from .machines import Cluster
from .state import PATIENCE, PAUSE, SLOW, View

SOME_SECONDS = 5 * SLOW  # that something goes on
BLOCKED_SECONDS = 60 * SLOW  # that a machine is watched which must do nothing
MOMENT = 20 * SLOW  # seconds at most for which the cable is out, where that is to be short
ALONE_SECONDS = 150 * SLOW  # the same, alone: where it may act it has the other one fenced in that time
SILENT_SECONDS = 150 * SLOW  # that fence devices answer nothing: more than the handler's own default of 90
END_SECONDS = 60 * SLOW  # until a client has noticed that its server is gone
BLOCKED = "Activity blocked"
QUORATE = re.compile(r"^Quorate:\s+Yes", re.M)
# Where programs have the same addresses each time, QEMU translates less.
NO_RANDOM_ADDRESSES = "sysctl --quiet --write kernel.randomize_va_space=0"
HANDLER = "journalctl --boot --output short-monotonic --no-pager --quiet --identifier crm-fence-peer.sh"
FAULT = "/run/waffd.fault"
STRACE = "timeout 60 strace -f -o /root/calls -e trace=fdatasync -e inject=fdatasync:error=EIO -p $(pgrep -x waffd)"


class Violation(Exception):
    """An acknowledged change is missing, one is there that nobody has made, or a machine does what it must not."""


class Chain(Report):
    """Begins with two machines that are in sync, of which one serves."""

    def __init__(self, folder, image, seed):
        super().__init__()
        self.counts = collections.Counter()
        self.times = collections.defaultdict(list)
        self.chance = random.Random(f"cluster {seed}")
        self.clients = Clients(seed)
        self.judgement = Judge(self.clients)
        self.cluster = Cluster(folder, image, seed, self.tell)
        self.machines = self.cluster.machines
        self.view = View(self.cluster, self.tell)

    # ---- the machines

    def begin(self):
        self.cluster.thaw()
        for one in self.machines.values():
            one.wait_up()
            one.does(NO_RANDOM_ADDRESSES)
        self.wait_until_whole("thawed")

    def wait_until_whole(self, what):
        self.check(f"{what}: both are in sync and no constraint is left",
                   self.view.waits_for("in sync", self.view.is_whole))

    def roles(self):
        """The names of the primary and of the other."""
        name = self.view.primary()
        return name, OTHER[name]

    def cut(self, *names):
        """The power of these machines, at one moment."""
        with self.cluster.power.lock:
            for name in names:
                self.machines[name].cut()
        self.counts["power cuts"] += len(names)

    def switch_on(self, name):
        with self.cluster.power.lock:
            if not self.machines[name].is_on():
                self.machines[name].start()

    def wait_up(self, name):
        """Until it runs commands. The other one may have to have it fenced first, which gives it power."""
        if not self.view.waits_for(f"{name} has power", self.machines[name].is_on):
            raise Dead(f"{name} has no power")
        self.machines[name].wait_up()

    # ---- clients and their judgement

    def busy(self):
        """A client that sends many lines ahead."""
        return self.clients.busy(self.cluster.alive())

    def steady(self, name):
        """A client that waits for its replies, at this machine."""
        return Steady(self.machines[name], self.clients.drawing)

    def judge(self, what, client, name):
        """What the next client at this machine finds."""
        try:
            found = self.judgement.judge([self.machines[name]], client, PATIENCE)
        except AssertionError as problem:
            raise Violation(f"{what}: {problem}") from problem
        self.counts["changes acknowledged"] += client.heard.count(b"done\n")
        self.check(f"{what}: {found}", True)

    def goes_on(self, what, client, began, wanted):
        """The service goes on at the machine that is wanted, and the client before it is judged."""
        client.thread.join(END_SECONDS)
        self.wait_up(wanted)
        if not self.view.waits_for(f"{wanted} serves", lambda: self.view.serves(wanted)):
            raise Dead(f"{what}: {wanted} doesn't serve")
        self.clients.session([self.machines[wanted]], PATIENCE).socket.close()
        seconds = time.monotonic() - began
        self.judge(f"{what}, {wanted} answers after {seconds:.0f} s", client, wanted)
        self.counts_as(what, seconds)

    def counts_as(self, what, seconds):
        """A takeover, and how long it took."""
        self.times[what].append(seconds)
        self.counts["takeovers"] += 1
        self.counts[what] += 1

    # ---- what may fail

    def lose_primary(self):
        """Its power is cut. The other has it fenced, and takes over; it comes back."""
        name, other = self.roles()
        client = self.busy()
        began = time.monotonic()
        self.cut(name)
        self.goes_on("primary lost", client, began, other)
        self.tell(self.view.steps(other))

    def lose_secondary(self):
        """The primary waits until the other's power was cut by the fence device, and goes on."""
        name, other = self.roles()
        client = self.steady(name)
        time.sleep(SOME_SECONDS)
        self.cut(other)
        self.wait_for_fencing(other)
        self.watch_the_wait("secondary lost", client, name)

    def lose_link(self):
        """All of it. The primary waits, has the other fenced, and goes on, as the other waits longer before it fences
        it."""
        name, other = self.roles()
        client = self.steady(name)
        time.sleep(SOME_SECONDS)
        cut = self.chance.choice((Cut.FRAMES, Cut.CARRIER))
        self.tell(f"the link is cut: {cut.name.lower()}")
        self.cluster.cut_link(cut)
        self.wait_for_fencing(other)
        self.watch_the_wait("link cut", client, name)
        self.cluster.mend_link()

    def lose_link_for_a_moment(self):
        """The cable is out until DRBD misses the other machine, which is too short for Corosync to miss it. The primary
        goes on, nobody is fenced, and DRBD has to connect again by itself."""
        name, _ = self.roles()
        client = self.steady(name)
        time.sleep(SOME_SECONDS)
        orders = self.cluster.orders
        began = time.monotonic()
        self.cluster.cut_link(Cut.CARRIER)
        while not self.view.is_alone(name) and time.monotonic() < began + MOMENT:
            pass
        self.cluster.mend_link()
        self.tell(f"the cable was out for {time.monotonic() - began:.0f} s")
        self.watch_the_wait("link cut for a moment", client, name)
        self.tell(f"{self.cluster.orders - orders} orders to IPMI")

    def wait_for_fencing(self, name):
        """Until the fence device has cut its power, and given it power again."""
        asked = self.cluster.asked[name]
        if not self.view.waits_for(f"{name} is fenced", lambda: self.cluster.asked[name] > asked):
            raise Dead(f"{name} isn't fenced")

    def watch_the_wait(self, what, client, name):
        """Until the client has new replies, after a failure at which the primary goes on."""
        since = time.monotonic()
        if not self.view.waits_for("the client goes on", lambda: client.moments[-1] > since):
            raise Dead(f"{what}: no replies for {client.waits_since():.0f} s")
        time.sleep(SOME_SECONDS)
        self.check(f"{what}: the client has all its replies", client.end(END_SECONDS))
        wait = client.longest_wait()
        self.judge(f"{what}, replies after {wait:.0f} s at most", client, name)
        self.counts_as(what, wait)

    def lose_primary_alone(self):
        """DRBD's part of the link is cut. The primary goes on alone, and then its power is cut. Gives its name and the
        other one's, its client, and when the power was cut."""
        name, other = self.roles()
        client = self.steady(name)
        time.sleep(SOME_SECONDS)
        self.lose_drbd(client, name)
        began = time.monotonic()
        self.cut(name)
        return name, other, client, began

    def lose_replication(self):
        """The primary may go on alone, as the handler forbids the other to be promoted. When it is lost the other must
        not take over: the first one comes back, and does."""
        name, other, client, began = self.lose_primary_alone()
        self.cluster.mend_link()
        if self.view.waits_for("one is primary", lambda: self.is_any_primary(name, other)):
            if self.view.is_primary(other):
                raise Violation(f"{other} is promoted, though {name} went on alone")
        self.goes_on("lost after going on alone", client, began, name)

    def is_any_primary(self, *names):
        return any(map(self.view.is_primary, names))

    def lose_drbd(self, client, name):
        """DRBD's part of the link, until the client of the primary goes on."""
        self.cluster.cut_link(Cut.REPLICATION)
        if not self.view.waits_for("DRBD notices", lambda: self.view.is_alone(name)):
            raise Dead(self.view.drbd(name))
        since = time.monotonic()
        if not self.view.waits_for("the client goes on", lambda: client.moments[-1] > since):
            raise Dead(f"no replies for {client.waits_since():.0f} s, {self.view.drbd(name)}")
        self.times["replication cut, longest wait"].append(client.longest_wait())
        time.sleep(SOME_SECONDS)

    def kill_server(self):
        """By a signal. Pacemaker starts it again."""
        name, _ = self.roles()
        client = self.busy()
        began = time.monotonic()
        self.machines[name].does("pkill -9 -x waffd")
        self.goes_on("server killed", client, began, name)
        self.machines[name].does("crm_resource --cleanup --resource waffd")

    def fail_device(self):
        """Its syncs fail. The other machine takes over, and the first one is rebooted."""
        name, other = self.roles()
        client = self.busy()
        began = time.monotonic()
        self.machines[name].run(STRACE)
        self.goes_on("device fault", client, began, other)
        self.check("the fault file is there", self.machines[name].run(f"test -e {FAULT}")[0] == 0)
        self.check(f"{name} reboots", self.machines[name].goes_off("systemctl reboot", PATIENCE))
        self.switch_on(name)

    def switch_over(self):
        """As planned: the primary becomes a standby."""
        name, other = self.roles()
        client = self.steady(name)
        time.sleep(SOME_SECONDS)
        began = time.monotonic()
        self.machines[name].does(f"pcs node standby {name}")
        self.goes_on("planned switch", client, began, other)
        self.machines[name].does(f"pcs node unstandby {name}")

    def stop_and_start(self):
        """The service alone, as the page says. Its disk stays mounted meanwhile."""
        name, _ = self.roles()
        client = self.steady(name)
        time.sleep(SOME_SECONDS)
        began = time.monotonic()
        self.machines[name].does(pages().command("pcs resource disable waffd"), PATIENCE)
        shown = self.machines[name].run("systemctl is-active waffd")[1]
        self.check("it has stopped", shown == "inactive\n", shown)
        shown = self.machines[name].does("/usr/local/bin/waffd show /srv/waffd/device")
        self.check("it has ended in order: no record is left", "records 0\n" in shown, shown)
        self.machines[name].does(pages().command("pcs resource enable waffd"))
        self.goes_on("stopped and started", client, began, name)

    def stop_all(self):
        """Both machines are switched off in order, the one that serves last, and on again."""
        name, other = self.roles()
        client = self.steady(name)
        time.sleep(SOME_SECONDS)
        for one in (other, name):
            self.check(f"{one} is off", self.machines[one].goes_off("systemctl poweroff", PATIENCE))
        self.switch_on(other)
        self.come_back("both switched off and on", client, name)

    def lose_both(self):
        """The former secondary comes back first. It must neither serve nor have the other fenced, until that has come
        back, too."""
        name, other = self.roles()
        client = self.busy()
        self.cut(name, other)
        self.watch_alone(other)
        self.come_back("both lost", client, name)

    def come_back(self, what, client, name):
        """This machine has power again, as the other one has already, and one of them serves."""
        client.thread.join(END_SECONDS)
        began = time.monotonic()
        self.switch_on(name)
        self.wait_up(name)
        if not self.view.waits_for("one serves", lambda: any(map(self.view.serves, self.machines))):
            raise Dead(f"{what}: none serves")
        seconds = time.monotonic() - began
        self.judge(f"{what}, {seconds:.0f} s after the second has power", client, self.view.primary())
        self.counts_as(what, seconds)

    def watch_alone(self, name):
        """This machine boots, and must do nothing while it is alone."""
        orders = self.cluster.orders
        self.cluster.broken = {OTHER[name]}
        self.switch_on(name)
        self.wait_up(name)
        if not self.view.waits_for(f"Pacemaker runs on {name}", lambda: f"Online: [ {name} ]" in self.view.crm(name)):
            raise Dead(self.view.crm(name))
        end = time.monotonic() + ALONE_SECONDS
        while time.monotonic() < end:
            quorum = self.machines[name].run("corosync-quorumtool -s")[1]
            drbd = self.machines[name].run("cat /proc/drbd")[1]
            if QUORATE.search(quorum) or " 0: cs:" in drbd or self.cluster.orders != orders:
                self.tell(f"{name} alone: {quorum} {drbd}")
                asked = self.cluster.orders - orders
                raise Violation(f"{name} has quorum or acts, though it may be behind: {asked} orders to IPMI")
            time.sleep(PAUSE)
        self.cluster.broken = set()
        self.check(f"{name} alone waits for the other", BLOCKED in quorum, quorum)

    def go_on_by_hand(self):
        """Both lose power, and the former secondary won't come back. The former primary waits, until the operator says
        so by the commands of the page. Then it serves, and the other comes back after all."""
        name, other = self.roles()
        client = self.busy()
        self.cut(name, other)
        client.thread.join(END_SECONDS)
        self.watch_alone(name)
        self.cluster.broken = {other}
        began = time.monotonic()
        first, second = (block.replace("DEAD", other) for block in pages().blocks("say so on this one", 2))
        self.machines[name].does(first)
        if not self.view.waits_for(f"{other} counts as off", lambda: f"OFFLINE: [ {other} ]" in self.view.crm(name)):
            raise Dead(self.view.crm(name))
        if not self.view.waits_for("DRBD is up", lambda: "ds:Consistent" in self.view.drbd(name)):
            raise Dead(self.view.drbd(name))
        time.sleep(BLOCKED_SECONDS)
        shown = self.machines[name].does("cat /proc/drbd")
        self.check(f"{name} isn't promoted", "ro:Secondary/" in shown, shown)
        command = second.replace("\n", "; ")
        self.machines[name].does(f"script --quiet --return --command '{command}' /dev/null")
        self.goes_on("both lost, by hand", client, began, name)
        self.cluster.broken = set()
        self.switch_on(other)

    def slow_fencing(self):
        """No fence device answers, and the link is cut. The primary waits all the time; then its own fence device
        answers, and the other takes over."""
        name, other = self.roles()
        client = self.steady(name)
        time.sleep(SOME_SECONDS)
        self.silence_and_cut(name)
        waited = client.waits_since()
        self.check(f"slow fencing: no reply for {waited:.0f} s", waited > SILENT_SECONDS / 2)
        began = time.monotonic()
        self.cluster.bmcs[name].speak()
        self.wait_for_fencing(name)
        self.goes_on("slow fencing", client, began, other)
        self.cluster.bmcs[other].speak()
        self.cluster.mend_link()
        self.machines[other].does("pcs stonith cleanup")

    def silence_and_cut(self, name):
        """No fence device answers for some minutes, and the link is cut."""
        for bmc in self.cluster.bmcs.values():
            bmc.silence()
        self.cluster.cut_link(Cut.FRAMES)
        time.sleep(SILENT_SECONDS)
        self.tell(f"{name}: {self.view.drbd(name)}{self.view.looks(name, HANDLER)}")

    def fail(self, failure):
        """One of these, and then both have to come back in sync."""
        name = failure.__name__
        self.say(f"---- {name}")
        failure(self)
        self.wait_until_whole(name)

    FAILURES = (
        lose_primary, lose_secondary, lose_link, lose_replication, kill_server, fail_device, switch_over,
        stop_and_start, stop_all, lose_both, go_on_by_hand, slow_fencing, lose_link_for_a_moment)

    def drawn(self, count):
        """So many failures, each kind before any comes twice."""
        found = []
        while len(found) < count:
            found += self.chance.sample(self.FAILURES, len(self.FAILURES))
        return found[:count]

    def fail_in_turn(self, failures):
        """Begins, and lets these things fail, one after the other."""
        self.tell("to come: " + ", ".join(failure.__name__ for failure in failures))
        self.begin()
        for failure in failures:
            self.fail(failure)
