"""The service in a guest: what is asked of systemd there, and the checks."""
import contextlib
import os
import time

from ...rigs.client import Clients
from ...rigs.disk import Disk
from ...rigs.guest import PATIENCE, Guest
from ...rigs.judge import Judge
from ...rigs.page import Page
from ...rigs.report import Report

MEBIBYTES = 64  # of the disk on /srv
UNIT = "/etc/systemd/system/waffd.service"
DROP_IN = f"{UNIT}.d/override.conf"  # which `systemctl edit` writes
PROGRAM_THERE = "/usr/local/bin/waffd"
DEVICE = "/srv/waffd/device"
LOCK = "/srv/waffd/lock"
FAULT = "/run/waffd.fault"
AWAY = "/root/away"
PAGE = "operations/service/README.md"
INSTALL = "Install it"
TALK = "Talk to it"
BACK_UP = "Back up"
RESTORE = "Restore a copy"
UPGRADE = "Upgrade"
LINES = "Back up while it runs"
RESTORE_LINES = "Restore lines"
DRILL = "A drill"
GO_BACK = "Go back after an upgrade"
# A disk of its own. The guest is slow, and boots without it where it isn't there.
PREPARE = (
    "mkfs.ext4 -q /dev/vdb"
    " && echo '/dev/vdb /srv ext4 nofail,x-systemd.device-timeout=90 0 2' >>/etc/fstab"
    " && systemctl daemon-reload && mount /srv")
# In the place of the program: it takes some seconds to open a device.
SLOW_PROGRAM = """#!/bin/sh
sleep 5
exec /usr/local/lib/slow/waffd "$@"
"""


class Trial(Report):
    """A guest, its service and its clients, and what was checked."""

    def __init__(self, folder, image, seed):
        super().__init__()
        self.disk = Disk(f"{folder}/disk", seed, self.tell)
        self.disk.make(MEBIBYTES)
        self.guest = Guest(folder, "guest", image, 1, [self.disk])
        self.clients = Clients(seed)
        self.judgement = Judge(self.clients)
        self.page = Page(PAGE)

    # ---- the guest

    def boot(self):
        self.tell(f"booted in {self.guest.boot():.0f} s")

    def cut_and_boot(self, seconds=0):
        """Cuts the power in so many seconds, and switches it on again."""
        time.sleep(seconds)
        self.guest.cut()
        self.boot()

    def prepare(self):
        """The guest has what the page's commands take from the repository, and a disk on /srv."""
        self.page.bring(self.guest)
        self.guest.does(PREPARE)

    def page_does(self, heading, number=0):
        """The status and the output of a block of the page, at the top of the repository."""
        return self.commands(self.page.below(heading, number))

    def commands(self, block):
        return self.guest.run(f"cd /root/repository && set -e\n{block}")

    def differing_files(self):
        """Those of the installed files that aren't as in the repository."""
        pairs = [f"cmp repository/{name} {there} 2>&1" for name, there in self.page.installed()]
        return self.guest.run("; ".join(pairs))[1]

    # ---- the unit

    def shows(self, *names, unit="waffd"):
        """Properties of a unit."""
        words = " ".join(f"-p {name}" for name in names)
        lines = self.guest.does(f"systemctl show {words} {unit}").splitlines()
        values = dict(line.partition("=")[::2] for line in lines)
        return tuple(values[name] for name in names)

    def waits_for(self, wanted, *names):
        """The properties of the unit, once they are these or patience has ended."""
        end = time.monotonic() + PATIENCE
        found = self.shows(*names)
        while found != wanted and time.monotonic() < end:
            time.sleep(0.5)
            found = self.shows(*names)
        return found

    def runs(self, name):
        """A check that the unit runs, or comes to run."""
        found = self.waits_for(("active", "running"), "ActiveState", "SubState")
        self.check(name, found == ("active", "running"), (found, self.status()))

    def is_down_with(self, name, status, state="failed"):
        """A check that the unit is down since the server ended with this status, and isn't started again."""
        found = self.waits_for((state, status, "0"), "ActiveState", "ExecMainStatus", "NRestarts")
        self.equals(name, found, (state, status, "0"))

    def starts(self):
        """The status and the output of a start."""
        return self.guest.run("systemctl reset-failed waffd 2>/dev/null; systemctl start waffd")

    def status(self):
        return self.guest.run("systemctl status --no-pager --full waffd")[1]

    def is_refused(self, name, assertion):
        """A check that the unit doesn't start, and which assertion `systemctl status` names."""
        end = self.guest.run("systemctl start waffd")
        self.equals(f"{name}: a start is refused", end, (1, "Assertion failed on job for waffd.service.\n"))
        self.has(f"{name}: systemctl status names {assertion}", self.status(), f"{assertion} was not met")

    def is_there(self, path):
        return self.guest.run(f"test -e {path}")[0] == 0

    def pid(self):
        """Of the server."""
        return self.guest.does("pgrep -x waffd").split()[0]

    def front(self):
        """The number of the front's process."""
        return self.shows("MainPID")[0]

    @contextlib.contextmanager
    def away(self, *paths):
        """Meanwhile these files aren't where they belong."""
        self.guest.does(f"mkdir -p {AWAY}; mv {' '.join(paths)} {AWAY}")
        yield
        for path in paths:
            self.guest.does(f"rm -rf {path}; mv {AWAY}/{os.path.basename(path)} {path}")

    @contextlib.contextmanager
    def edited(self, text):
        """Meanwhile the unit has this, too, as `systemctl edit` would add it."""
        self.guest.does(f"mkdir -p {os.path.dirname(DROP_IN)}")
        self.guest.put(DROP_IN, f"[Service]\n{text}\n".encode())
        self.guest.does("systemctl daemon-reload")
        yield
        self.guest.does(f"rm -r {os.path.dirname(DROP_IN)}; systemctl daemon-reload")

    @contextlib.contextmanager
    def slow_opening(self):
        """Meanwhile the program takes some seconds to open a device."""
        self.guest.does(f"mkdir /usr/local/lib/slow; mv {PROGRAM_THERE} /usr/local/lib/slow/waffd")
        self.guest.put(PROGRAM_THERE, SLOW_PROGRAM.encode())
        self.guest.does(f"chmod 755 {PROGRAM_THERE}")
        yield
        self.guest.does(f"mv /usr/local/lib/slow/waffd {PROGRAM_THERE}; rmdir /usr/local/lib/slow")

    # ---- its clients

    def session(self):
        return self.clients.session([self.guest])

    def through(self, count=300):
        """A client that has had the replies to so many random lines."""
        return self.clients.through([self.guest], count)

    def busy(self):
        """A client whose lines go on until its connection ends."""
        return self.clients.busy([self.guest])

    def judge(self, name, old):
        """A check that the next client finds each change that was acknowledged to this one, and none that can't be."""
        try:
            found = self.judgement.judge([self.guest], old)
        except AssertionError as error:
            self.check(name, False, error)
        else:
            self.check(f"{name}: {found}", True)

    def loses_nothing(self, name, event):
        """A check of what the next client finds where this happens while the lines of one go on."""
        one = self.busy()
        event()
        one.thread.join(PATIENCE)
        self.judge(name, one)

    def go_on(self):
        """Behind a part that broke: the service runs again, and what it holds is what it is to hold from then on."""
        if not self.guest.qemu:
            self.guest.disks = [self.disk]
            self.boot()
        self.guest.run(f"rm -rf {FAULT} {os.path.dirname(DROP_IN)}; mount /srv; systemctl daemon-reload")
        self.starts()
        self.judgement.look([self.guest])
