"""Parts of the trial: the service is installed, installed again, upgraded, copied, restored and undone, as the page
says, with cuts of the power."""
import re

from tests.system.program import PROGRAM, bytes_of
from ...rigs.client import SOCKET
from .trial import (
    BACK_UP, DEVICE, DRILL, FAULT, GO_BACK, INSTALL, LINES, LOCK, PROGRAM_THERE, RESTORE, RESTORE_LINES, TALK, UNIT,
    UPGRADE)

FORMATTED = "formatted 1332608"
SOON = 15  # seconds from the page's commands to a cut of the power: the kernel writes files back after 30
MOST_EXPOSURE = 3.0
BARE = (r"NoNewPrivs:\s1$", r"CapBnd:\s0+$", r"CapEff:\s0+$", r"Seccomp:\s2$")  # of /proc/PID/status
RIGHTS = f"700 waffd {SOCKET}\n700 waffd /srv/waffd\n600 waffd {LOCK}\n"
CONNECT = f"import socket; socket.socket(socket.AF_UNIX).connect('{SOCKET}')"
# Connects once, without waiting for anything, and prints one reply.
ASK = f"""import socket
one = socket.socket(socket.AF_UNIX)
one.connect("{SOCKET}")
one.sendall(b"summary\\n")
print(one.recv(100).decode(), end="")
"""
# Starts the unit, and waits until the slow program is there.
BEGIN_TO_OPEN = (
    "systemctl stop waffd; systemctl --no-block start waffd;"
    " until pgrep -u waffd -x sleep >/dev/null; do sleep 0.2; done")
IS_NEW = "cmp /proc/$(pgrep -x waffd)/exe /root/repository/crates/waffd/out/waffd"


def install(trial):
    """The page's commands, on a new disk."""
    trial.boot()
    trial.prepare()
    end = trial.page_does(INSTALL)
    trial.check("the page's commands install it", end[0] == 0 and FORMATTED in end[1], end)
    trial.tell(end[1])
    trial.equals("the unit runs then", trial.guest.run("systemctl is-active waffd"), (0, "active\n"))
    trial.equals("the page's client gets its reply", trial.page_does(TALK), (0, "summary 0 0 0\n"))
    found = trial.guest.does(f"stat -c '%a %U %n' {SOCKET} /srv/waffd {LOCK}")
    trial.equals("the socket, the folder and the lock are their user's alone", found, RIGHTS)
    status, told = trial.guest.run(f"runuser -u nobody -- python3 -c \"{CONNECT}\"")
    trial.check("another user may not open the socket", status != 0 and "PermissionError" in told, told)
    found = trial.guest.run("systemd-analyze verify waffd.service; systemctl is-enabled waffd")
    trial.equals("systemd has nothing against the unit, and it is enabled", found, (0, "enabled\n"))
    trial.judge("the first lines", trial.through())


def hardened(trial):
    """What the unit may not do."""
    told = trial.guest.does("systemd-analyze security --no-pager waffd | tail -1")
    trial.tell(told)
    found = re.search(r"Overall exposure level for waffd.service: ([0-9.]+)", told)
    trial.check("systemd-analyze finds little exposure", found and float(found[1]) < MOST_EXPOSURE, told)
    trial.check("it is what the page says", f"an exposure of {found[1]}." in trial.page.text, found[1])
    for name, pid in (("the server", trial.pid()), ("the front", trial.front())):
        told = trial.guest.does(f"cat /proc/{pid}/status")
        is_bare = all(re.search(fact, told, re.M) for fact in BARE)
        trial.check(f"{name} has no capability and a filter of calls", is_bare, told)
        told = trial.guest.does(f"nsenter -t {pid} -n ip -o link")
        trial.check(f"{name} has a loopback alone", told.count("\n") == 1 and ": lo:" in told, told)
        enter = f"nsenter -t {pid} -m"
        told = trial.guest.run(f"{enter} touch /usr/local/bin/other /etc/other /var/other")[1]
        trial.equals(f"{name} can't write to /usr, /etc and /var", told.count("Read-only file system"), 3)
        found = trial.guest.run(f"{enter} touch /srv/waffd/other /run/waffd/other")
        trial.equals(f"{name} can write to /srv/waffd and /run/waffd", found, (0, ""))
    trial.guest.does("rm /srv/waffd/other /run/waffd/other")


def ready(trial):
    """When a start is over."""
    trial.guest.put("/root/ask.py", ASK.encode())
    found = trial.guest.run("systemctl stop waffd; systemctl start waffd && python3 ask.py")
    trial.check("a start is over once the server answers", found[1].startswith("summary "), found)
    with trial.slow_opening():
        found = trial.guest.run(f"{BEGIN_TO_OPEN}; systemctl is-active waffd")[1]
        trial.equals("while the device is opened the unit is activating", found, "activating\n")
        found = trial.guest.run("systemctl start waffd && python3 ask.py")
        trial.check("a start waits until it is open", found[1].startswith("summary "), found)
        trial.guest.does(f"{BEGIN_TO_OPEN}; systemctl stop waffd")
        found = trial.shows("ActiveState", "Result", "ExecMainStatus")
        trial.equals("a stop while it is opened ends the server in order", found, ("inactive", "success", "0"))
        trial.check("and leaves no fault file", not trial.is_there(FAULT))
    trial.guest.does("systemctl start waffd")
    trial.judge("after these starts", trial.through())


def idle(trial):
    """The limit for a client that says nothing, as the page tells to set it."""
    command = trial.guest.does("grep -A 3 ^ExecStart= /etc/systemd/system/waffd.service").partition("\nExecStopPost")[0]
    first = trial.through()
    trial.check("without the limit a silent client stays connected", not first.hears_its_end(20))
    trial.judge("its lines", first)
    with trial.edited("ExecStart=\n" + command.replace("front.py ", "front.py --idle 5 ")):
        trial.guest.does("systemctl restart waffd")
        first = trial.through()
        second = trial.session()
        trial.check("with it another client is answered", second.answered == 1)
        trial.check("and the connection of the silent one has ended", first.hears_its_end(60))
        second.socket.close()
        trial.judge("what it had sent", first)
    trial.guest.does("systemctl restart waffd")


def again(trial):
    """The page's commands are repeated where there is data."""
    one = trial.through()
    before = trial.pid()
    end = trial.page_does(INSTALL)
    trial.check("installed again while it runs, it formats nothing", end[0] == 0 and "formatted" not in end[1], end)
    trial.equals("the same server goes on", trial.pid(), before)
    trial.judge("installed again while it runs", one)
    one = trial.through()
    one.socket.close()
    trial.guest.does("systemctl stop waffd")
    end = trial.page_does(INSTALL)
    trial.check("installed again where it was stopped, too", end[0] == 0 and "formatted" not in end[1], end)
    trial.runs("and it runs")
    trial.judge("installed again where it was stopped", one)


def removed(trial):
    """A client's session, after which all but the data is gone, as before an installation."""
    one = trial.through()
    one.socket.close()
    trial.guest.does("systemctl disable --now waffd; rm -r /usr/local/lib/waffd /usr/local/bin/waffd; sync")
    return one


def early(trial):
    """The power is cut soon after an installation: all files are there, and whole."""
    for seconds in (0, SOON):
        one = removed(trial)
        end = trial.page_does(INSTALL)
        trial.check("installed anew", end[0] == 0 and "formatted" not in end[1], end)
        trial.cut_and_boot(seconds)
        trial.equals(f"after a cut {seconds} s after the installation all files are whole", trial.differing_files(), "")
        trial.runs("the unit is enabled, and runs")
        trial.judge(f"a cut {seconds} s after the installation", one)


def upgrade(trial):
    """The page's one command, with the power cut right behind it."""
    trial.guest.put("/root/repository/crates/waffd/out/waffd", bytes_of(PROGRAM) + b"a later version")
    one = trial.busy()
    trial.equals("the page's command upgrades it, and prints nothing", trial.page_does(UPGRADE), (0, ""))
    trial.equals("the later program runs", trial.guest.run(IS_NEW), (0, ""))
    one.thread.join()
    trial.judge("upgraded while a client's lines go on", one)
    trial.guest.put("/root/repository/crates/waffd/out/waffd", bytes_of(PROGRAM))
    one = trial.through()
    one.socket.close()
    trial.guest.does("sync")
    trial.equals("upgraded once more", trial.page_does(UPGRADE), (0, ""))
    trial.cut_and_boot()
    trial.equals("after a cut right behind an upgrade all files are whole", trial.differing_files(), "")
    trial.runs("the unit runs")
    trial.judge("a cut right behind an upgrade", one)


def backup(trial):
    """The page's commands copy the device and restore it."""
    trial.judge("before the copy", trial.through())
    kept = trial.judgement.state
    trial.guest.does("systemctl stop waffd")
    status, told = trial.page_does(BACK_UP)
    trial.check("the page's commands copy it, and show the copy", status == 0 and "records 0\n" in told, told)
    trial.guest.does("systemctl start waffd")
    trial.judge("after the copy", trial.through())
    trial.guest.does("systemctl stop waffd")
    trial.equals("the page's commands restore it", trial.page_does(RESTORE), (0, ""))
    trial.equals("it is its user's", trial.guest.does(f"stat -c '%a %U' {DEVICE}"), "600 waffd\n")
    trial.guest.does("systemctl start waffd")
    trial.judgement.state = kept
    trial.judge("the state of the copy", trial.session())


def lines(trial):
    """The page's commands write lines while a client stays, and restore them."""
    one = trial.through()
    end = trial.page_does(LINES)
    trial.check("lines are written while a client stays", end[0] == 0 and "copied " in end[1], end)
    trial.judge("while lines were written", one)
    kept = trial.judgement.state
    end = trial.page_does(DRILL)
    trial.check("the drill restores them beside the service", end[1].endswith("the lines can be restored\n"), end)
    trial.judge("after the lines", trial.through())
    trial.guest.does("systemctl stop waffd")
    end = trial.page_does(RESTORE_LINES)
    trial.check("the page's commands restore them", end[0] == 0 and "copied " in end[1], end)
    trial.guest.does("systemctl start waffd")
    trial.judgement.state = kept
    trial.judge("the state of the lines", trial.session())


def back(trial):
    """The page's commands lead back after an upgrade."""
    trial.guest.does(f"cp -p {PROGRAM_THERE} {PROGRAM_THERE}.old; systemctl stop waffd; echo later >>{PROGRAM_THERE}")
    trial.guest.does("systemctl start waffd")
    one = trial.through()
    one.socket.close()
    trial.guest.does("systemctl stop waffd")
    end = trial.page_does(GO_BACK)
    trial.check("the new program writes lines", end[0] == 0 and "copied " in end[1], end)
    end = trial.page_does(RESTORE_LINES)
    trial.check("the old one makes a device of them", end[0] == 0 and "copied " in end[1], end)
    trial.equals("the old program is back", trial.differing_files(), "")
    trial.guest.does("systemctl start waffd")
    trial.judge("changes of the later program", one)


def undo(trial):
    """The page's commands undo it, and install it again on the data."""
    one = trial.through()
    one.socket.close()
    trial.equals("the page's commands undo it", trial.page_does(INSTALL, 1)[0], 0)
    trial.tell(trial.guest.run("systemctl is-active waffd")[1])
    found = trial.guest.run(f"ls -d /usr/local/lib/waffd {PROGRAM_THERE} {UNIT}; getent passwd waffd; ls {DEVICE}")
    is_gone = found[1].count("No such file") == 3 and "waffd:x:" not in found[1]
    trial.check("nothing is left but the data", is_gone and found[1].endswith(f"{DEVICE}\n"), found)
    end = trial.page_does(INSTALL)
    trial.check("it is installed on the data", end[0] == 0 and "formatted" not in end[1], end)
    trial.judge("undone and installed again", one)
