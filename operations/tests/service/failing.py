"""Parts of the trial: kills, stops, statuses, a full disk, failed syncs, cuts of the power, a disk that isn't there."""
import time

from .trial import DEVICE, FAULT, LOCK, PROGRAM_THERE

SECTORS = "$(blockdev --getsz /dev/vdb)"
FAULT_LINE = "waffd: device fault"
JOB_FAILED = "Job for waffd.service failed"
NO_MEMORY = "waffd: out of memory"
LITTLE_MEMORY = "/usr/bin/prlimit --as=20480000 "  # too little for the threads' stacks
ERROR_OF_DISK = "dm-|vdb|EXT4|JBD2|I/O"
HOLES = "fallocate --dig-holes"
# Lines that need more room on the disk: full blocks, of a volume of their own.
GROWING = (
    "dropvol 0 3", "makevol 0 3", *(f"create 0 3 {file}" for file in range(16)),
    *(f"write 0 3 {number % 16} {number // 16 % 16} {number + 1:08x}{'5a' * 500}" for number in range(600)))


def kills(trial):
    """The server, the front or both are killed."""
    guest = trial.guest
    before = int(trial.shows("NRestarts")[0])
    trial.loses_nothing("the server is killed", lambda: guest.does(f"kill -9 {trial.pid()}"))
    found = trial.shows("NRestarts", "ActiveState")
    trial.equals("it was started again", found, (str(before + 1), "active"))
    trial.loses_nothing("the front is killed", lambda: guest.does(f"kill -9 {trial.front()}"))
    trial.loses_nothing("both are killed", lambda: guest.does("systemctl kill -s KILL waffd"))
    trial.loses_nothing("the server is killed twice", lambda: guest.does(
        f"kill -9 {trial.pid()}; until pgrep -x waffd; do sleep 0.1; done; pkill -9 -x waffd"))
    trial.check("no fault file is left", not trial.is_there(FAULT))
    one = trial.busy()
    guest.does("for turn in $(seq 60); do systemctl kill -s KILL waffd; sleep 0.1; done 2>/dev/null; true")
    one.thread.join()
    trial.equals("after many kills in a row systemd gives up", trial.waits_for(("failed",), "ActiveState"), ("failed",))
    trial.tell(trial.status())
    trial.equals("a start by hand succeeds", trial.starts()[0], 0)
    trial.judge("many kills in a row", one)


def twice(trial):
    """Two servers of one device."""
    guest = trial.guest
    guest.does("systemctl stop waffd; systemctl start waffd & systemctl start waffd; wait")
    trial.equals("two starts at once make one server", guest.does("pgrep -c -x waffd"), "1\n")
    guest.does("sed 's/=waffd$/=other/; s|/run/waffd/|/run/other/|g; s/User=other/User=waffd/'"
               " /etc/systemd/system/waffd.service >/etc/systemd/system/other.service; systemctl daemon-reload")
    end = guest.run("systemctl start other")
    found = trial.shows("ActiveState", "ExecMainStatus", "NRestarts", unit="other")
    trial.equals("a second unit on the device is down with 75", (end[0], *found), (1, "failed", "75", "0"))
    guest.does("rm /etc/systemd/system/other.service; systemctl daemon-reload; systemctl reset-failed")
    by_hand = f"flock --nonblock --no-fork --conflict-exit-code 75 {DEVICE} {PROGRAM_THERE} serve {DEVICE}"
    trial.equals("by hand it is 75, too", guest.run(f"runuser -u waffd -- {by_hand}")[0], 75)
    guest.does(f"systemctl stop waffd; flock {LOCK} sleep 1000 >/dev/null 2>&1 & sleep 1")
    trial.starts()
    trial.is_down_with("while the lock is held the unit is down with 75", "75")
    guest.does("pkill -x sleep")
    trial.equals("once it is free the unit starts", trial.starts(), (0, ""))
    trial.judge("one server at a time", trial.through())


def stops(trial):
    """Stops in order."""
    guest = trial.guest
    one = trial.busy()
    guest.does("systemctl stop waffd")
    found = trial.shows("ActiveState", "Result", "ExecMainStatus")
    trial.equals("a stop while a client's lines go on is one in order", found, ("inactive", "success", "0"))
    trial.has("no record is left", guest.does(f"{PROGRAM_THERE} show {DEVICE}"), "records 0\n")
    guest.does("systemctl start waffd")
    one.thread.join()
    trial.judge("a stop", one)
    trial.loses_nothing("a restart", lambda: guest.does("systemctl restart waffd"))
    one = trial.busy()
    guest.does("systemctl stop srv.mount")
    found = trial.shows("ActiveState", "Result", "ExecMainStatus")
    trial.equals("where the mount is stopped the unit is, too, in order", found, ("inactive", "success", "0"))
    trial.check("the disk isn't mounted then", not trial.is_there(DEVICE))
    guest.does("systemctl start waffd")
    one.thread.join()
    trial.judge("a start mounts it again", one)


def statuses(trial):
    """What keeps the unit down, and how it says so."""
    guest = trial.guest
    one = trial.through()
    one.socket.close()
    guest.does("systemctl stop waffd")
    with trial.away(PROGRAM_THERE):
        status, told = trial.starts()
        trial.check("where there is no program a start fails", status == 1 and JOB_FAILED in told, (status, told))
        trial.is_down_with("it is down with 69", "69")
        guest.does(f"install -m 755 /dev/null {PROGRAM_THERE}")
        trial.equals("nor does one succeed where the program is empty", trial.starts()[0], 1)
        trial.tell(trial.status())
        guest.does("systemctl stop waffd")
    with trial.away(LOCK):
        guest.does(f"install -m 600 /dev/null {LOCK}")
        trial.starts()
        trial.is_down_with("where the lock is another user's it is down with 66", "66")
    command = guest.does("grep -A 3 ^ExecStart= /etc/systemd/system/waffd.service").partition("\nExecStopPost")[0]
    for name, changed, status in (
            ("wrong arguments", command + " --slots none", "2"),
            ("a folder for the socket that isn't there", command.replace("/run/waffd/", "/run/other/"), "70")):
        with trial.edited(f"ExecStart=\n{changed}"):
            trial.starts()
            trial.is_down_with(f"with {name} it is down with {status}", status)
    with trial.edited(f"ExecStart=\n{command.replace(PROGRAM_THERE, LITTLE_MEMORY + PROGRAM_THERE)}"):
        trial.starts()
        guest.does(f"until [ $(journalctl -b -u waffd | grep -c '{NO_MEMORY}') -gt 1 ]; do sleep 1; done")
        trial.check("without memory it is started again, and leaves no fault file", not trial.is_there(FAULT))
        guest.does("systemctl stop waffd")
    trial.equals("then it starts", trial.starts(), (0, ""))
    trial.judge("down with these statuses", one)


def refused(trial):
    """Devices with which it doesn't start."""
    guest = trial.guest
    one = trial.through()
    one.socket.close()
    guest.does("systemctl stop waffd")
    with trial.away(DEVICE):
        trial.is_refused("no device", "AssertFileNotEmpty=/srv/waffd/device")
        guest.does(f"install -m 600 -o waffd /dev/null {DEVICE}")
        trial.is_refused("an empty device", "AssertFileNotEmpty=/srv/waffd/device")
        trial.equals("the unit is inactive then", trial.shows("ActiveState"), ("inactive",))
        guest.does(f"echo no device >{DEVICE}")
        trial.equals("a device that is none: a start fails", trial.starts()[0], 1)
        trial.is_down_with("it is down with 1", "1")
        trial.has("the status has the server's line", trial.status(), "waffd: device too short")
        trial.is_refused("after a refused device", f"AssertPathExists=!{FAULT}")
    trial.is_refused("the device is put back", f"AssertPathExists=!{FAULT}")
    trial.equals("is-active says that it has failed", guest.run("systemctl is-active waffd"), (3, "failed\n"))
    trial.equals("the file is removed: it starts", guest.run(f"rm {FAULT}; systemctl start waffd"), (0, ""))
    trial.judge("refused devices", one)


def full(trial):
    """The disk is full."""
    guest = trial.guest
    guest.does(f"systemctl restart waffd; {HOLES} {DEVICE}; rm -f /srv/waffd/copy")
    guest.run("cat /dev/zero >/srv/fill 2>/dev/null; sync")
    trial.has("df shows a full disk", guest.does("df /srv/waffd"), "100%")
    one = trial.session()
    one.go_on(GROWING)
    trial.is_down_with("on a full disk the unit is down with 1", "1")
    trial.has("the status has the server's line", trial.status(), FAULT_LINE)
    trial.is_refused("on a full disk", f"AssertPathExists=!{FAULT}")
    trial.tell(trial.status())
    trial.tell(guest.does("journalctl -u waffd -n 6 --no-pager; journalctl -k -p 4 -n 3 --no-pager"))
    guest.does("rm /srv/fill")
    trial.is_refused("room was made", f"AssertPathExists=!{FAULT}")
    trial.equals("the file is removed: it starts", guest.run(f"rm {FAULT}; systemctl start waffd"), (0, ""))
    trial.judge("a full disk", one)


def rights(trial):
    """The device is another user's."""
    guest = trial.guest
    one = trial.through()
    one.socket.close()
    guest.does(f"systemctl stop waffd; chown root {DEVICE}; chmod 644 {DEVICE}")
    trial.starts()
    trial.is_down_with("without the right to write the unit is down with 1", "1")
    trial.equals("the page's command shows that", guest.does(f"stat -c %U:%a {DEVICE}"), "root:644\n")
    trial.has("the server says a device fault", trial.status(), FAULT_LINE)
    guest.does(f"chown waffd {DEVICE}; rm {FAULT}; systemctl start waffd")
    trial.judge("without the right to write", one)


def reboots(trial):
    """A reboot in order."""
    one = trial.busy()
    trial.check("the guest reboots", trial.guest.goes_off("systemctl reboot"))
    one.thread.join()
    trial.boot()
    trial.runs("the unit runs after it")
    told = trial.guest.does("journalctl -b -1 -u waffd -n 8 --no-pager")
    trial.has("it was stopped in order", told, "Deactivated successfully")
    trial.judge("a reboot", one)


def power(trial):
    """The power is cut, and again right behind a kill, while the next server may be opening the device."""
    one = trial.busy()
    trial.cut_and_boot()
    one.thread.join()
    trial.runs("the unit runs after a cut of the power")
    trial.judge("a cut of the power", one)
    one = trial.busy()
    trial.guest.does("systemctl kill -s KILL waffd")
    trial.cut_and_boot(2 * trial.clients.chance.random())
    one.thread.join()
    trial.runs("and after one right behind a kill")
    trial.judge("a cut of the power right behind a kill", one)


def syncs(trial):
    """A sync of the server fails, since strace makes it fail."""
    guest = trial.guest
    one = trial.busy()
    guest.run(inject("fdatasync", trial.pid()))
    one.thread.join()
    trial.is_down_with("after a failed sync the unit is down with 1", "1")
    trial.has("strace has made it fail", guest.does("cat calls"), "INJECTED")
    trial.is_refused("after a failed sync", f"AssertPathExists=!{FAULT}")
    trial.equals("no server runs", guest.run("pgrep -x waffd")[0], 1)
    guest.does(f"rm {FAULT}; systemctl start waffd")
    trial.judge("a failed sync", one)
    one = trial.through()
    one.socket.close()
    guest.run(f"{inject('fdatasync,fsync', trial.pid())} & sleep 5; systemctl stop waffd; wait")
    found = trial.shows("ActiveState", "ExecMainStatus")
    trial.equals("where a sync fails at a stop the unit has failed", found, ("failed", "1"))
    trial.is_refused("after a stop with a failed sync", f"AssertPathExists=!{FAULT}")
    guest.does(f"rm {FAULT}; systemctl start waffd")
    trial.judge("a stop with a failed sync", one)


def inject(calls, pid):
    """The command that makes these calls of a process fail."""
    return f"strace -f -o calls -e trace={calls} -e inject={calls}:error=EIO -p {pid}"


def table(target):
    """The command that makes the mapped disk a new one, at once."""
    load = f"S={SECTORS}; echo 0 $S {target} | dmsetup load bad"
    return f"{load}; dmsetup suspend --noflush --nolockfs bad; dmsetup resume bad"


def disk(trial):
    """The disk below the file system fails."""
    guest = trial.guest
    guest.does("systemctl stop waffd; umount /srv; modprobe dm-flakey")
    guest.does(f"echo 0 {SECTORS} linear /dev/vdb 0 | dmsetup create bad; mount /dev/mapper/bad /srv")
    guest.does("systemctl start waffd")
    one = trial.busy()
    guest.does(table("flakey /dev/vdb 0 0 1000 1 error_writes"))
    one.thread.join()
    trial.is_down_with("where the disk fails the unit is down with 1", "1")
    trial.has("the server says a device fault", trial.status(), FAULT_LINE)
    trial.is_refused("the disk fails", f"AssertPathExists=!{FAULT}")
    time.sleep(10)
    journal = "journalctl -b -o short-monotonic --no-pager"
    told = guest.run(f"{journal} -k | grep -E '{ERROR_OF_DISK}' | grep -i error | head -3")[1]
    trial.check("the kernel's log has an error of the disk", told, "none in ten seconds")
    trial.tell(told)
    trial.tell(guest.run(f"{journal} -u waffd | grep '{FAULT_LINE}' | tail -1")[1])
    guest.does(table("linear /dev/vdb 0"))
    trial.is_refused("the disk is well again", f"AssertPathExists=!{FAULT}")
    trial.check("the guest reboots", guest.goes_off("systemctl reboot"))
    trial.boot()
    trial.check("the fault file is gone", not trial.is_there(FAULT))
    trial.runs("the unit runs after the reboot")
    trial.judge("a disk that failed", one)


def missing(trial):
    """The disk isn't there when the machine boots."""
    guest = trial.guest
    one = trial.through()
    one.socket.close()
    trial.check("the guest goes off", guest.goes_off("systemctl poweroff"))
    guest.disks = []
    trial.boot()
    found = trial.waits_for(("inactive",), "ActiveState")
    trial.equals("without its disk the unit is inactive", found, ("inactive",))
    status, told = guest.run("systemctl start waffd")
    trial.check("a start is refused", status == 1 and "dependency" in told, (status, told))
    trial.tell(told)
    trial.equals("the empty folder stays empty", guest.does("ls -A /srv"), "")
    trial.check("the guest goes off again", guest.goes_off("systemctl poweroff"))
    guest.disks = [trial.disk]
    trial.boot()
    trial.runs("with its disk the unit runs")
    trial.judge("a disk that was missing", one)
