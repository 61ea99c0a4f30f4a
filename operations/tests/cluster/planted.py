"""What is configured wrong in the cluster, each with the failure by which it has to be found. The same failures with
the right configuration are in every chain."""
import collections
import time

from tests.power.machine import Dead
from ...rigs.link import OTHER, Cut
from .failovers import SOME_SECONDS, Violation
from .state import SLOW

# What is made wrong by commands on both machines, or on the one that serves; by which failure it is found.
Case = collections.namedtuple("Case", "name failure everywhere once lies", defaults=("", "", False))

STANDALONE_SECONDS = 120 * SLOW  # that both machines have for finding each other again


def go_on_alone(chain, name):
    """The other machine serves, too, and what its client finds is judged by what the first one answers."""
    other = OTHER[name]
    client = chain.steady(name)
    time.sleep(SOME_SECONDS)
    chain.cluster.cut_link(Cut.FRAMES)
    if not chain.view.waits_for(f"{other} serves", lambda: chain.view.serves(other)):
        raise Dead(chain.view.drbd(other))
    since = time.monotonic()
    if not chain.view.waits_for("the first one answers, too", lambda: client.moments[-1] > since + SOME_SECONDS):
        raise Dead(chain.view.drbd(name))
    client.end(SOME_SECONDS)
    chain.judge(f"both serve: {other}", client, other)


def two_primaries(chain):
    """The link is cut, and no machine is off."""
    go_on_alone(chain, chain.view.primary())


def old_disk(chain):
    """The primary goes on alone and is lost, and the other takes over."""
    name, other, client, began = chain.lose_primary_alone()
    chain.cluster.broken = {name}
    chain.goes_on("an old disk", client, began, other)


def unconfirmed(chain):
    """The link is cut, no fence device answers, and the primary goes on all the same; then it is fenced."""
    name, other = chain.roles()
    client = chain.steady(name)
    time.sleep(SOME_SECONDS)
    chain.silence_and_cut(name)
    chain.tell(f"no reply for {client.waits_since():.0f} s, longest wait {client.longest_wait():.0f} s")
    began = time.monotonic()
    chain.cluster.broken = {name}
    chain.cluster.bmcs[name].speak()
    chain.wait_for_fencing(name)
    chain.goes_on("slow fencing", client, began, other)


def former_secondary(chain):
    """Both lose power, and the former secondary alone comes back."""
    name, other = chain.roles()
    chain.busy()
    chain.cut(name, other)
    chain.watch_alone(other)


def lost_address(chain):
    """The cable is out for a moment. Behind it DRBD has to find the other machine again. After a longer cut the agent
    of DRBD has it connect, as the other machine was fenced and starts again."""
    name, _ = chain.roles()
    chain.lose_link_for_a_moment()
    if not chain.view.waits_for("in sync", chain.view.is_whole, STANDALONE_SECONDS):
        shown = chain.machines[name].does("cat /proc/drbd")
        if "cs:StandAlone" in shown:
            raise Violation(f"it doesn't look for the other one any more: {shown}")
        raise Dead(shown)


CASES = (
    Case("STONITH off", two_primaries, once="pcs property set stonith-enabled=false"),
    Case("a fence device that lies", two_primaries, lies=True),
    Case("DRBD without fencing", old_disk,
         everywhere="sed -i 's/resource-and-stonith/dont-care/' /etc/drbd.conf; drbdadm adjust r0"),
    Case("the handler's own timeout", unconfirmed, everywhere="sed -i 's/ --timeout 86400//' /etc/drbd.conf"),
    Case("no-quorum-policy=ignore", former_secondary, once="pcs property set no-quorum-policy=ignore"),
    Case("wait_for_all: 0", former_secondary,
         everywhere="sed -i 's/two_node: 1/&\\n    wait_for_all: 0/' /etc/corosync/corosync.conf"),
    Case("an address that goes with the carrier", lost_address,
         everywhere="sed -i /Carrier/d /etc/systemd/network/*link.network; networkctl reload"),
)


def try_case(chain, case):
    """Whether it is found."""
    chain.begin()
    chain.cluster.lies = case.lies
    if case.everywhere:
        for one in chain.machines.values():
            one.does(f"{case.everywhere}; sync")
    if case.once:
        chain.machines["alpha"].does(case.once)
    try:
        case.failure(chain)
    except Violation as problem:
        chain.tell(f"found: {problem}")
        return True
    return False
