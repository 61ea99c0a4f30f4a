"""A plugin for nbdkit: a device that `waffd serve` serves, as a disk of 16,384 sectors of 512 bytes.

    nbdkit python plugin.py device=FILE [waffd=PROGRAM]

The README beside this file shows how to format the file, how to use the disk, and what it promises. Three parts:
where the sectors lie, the server, and the calls that nbdkit makes. Lines and replies are examples/client's: any number
of requests are in flight, and each that has no reply when the server ends is an error.
"""
import contextlib
import errno
import os
import subprocess
import sys
import threading

import nbdkit

TOP = os.path.join(os.path.dirname(os.path.abspath(__file__)), os.pardir, os.pardir)
sys.path.insert(0, os.path.join(TOP, "examples", "client"))
import client

API_VERSION = 2  # of nbdkit

# ---- where the sectors lie
#
# The device has 256 stripes of 64 blocks, and each sector is a block. A log write takes up to 64 changes, of which no
# two are of one stripe. So 64 consecutive sectors lie in the 64 stripes of one aggregate and go with one log write,
# and the next 64 lie in the same stripes, so that few of them have to be written anew by a checkpoint.

SECTOR = 512
AGGREGATES = 4
VOLUMES = 8
STRIPES = 8
WIDTH = 64
QUOTA = 64
STRIPES_OF_AN_AGGREGATE = VOLUMES * STRIPES
SECTORS_OF_AN_AGGREGATE = STRIPES_OF_AN_AGGREGATE * QUOTA
DISK_SIZE = AGGREGATES * SECTORS_OF_AN_AGGREGATE * SECTOR
GEOMETRY = "geometry 4 8 8 64 64 256 64 1024"  # as `waffd show` prints it

# Block b of file f lies in stripe (f + b / 64) % 8. A file has 256 blocks: those of file 0 fill the stripes 0 to 3, and
# those of file 4 the stripes 4 to 7.
STRIPES_OF_A_FILE = 4
FILES = (0, 4)


def place_of(sector):
    """Aggregate, volume, file and block of a sector, as a line has them."""
    aggregate, rest = divmod(sector, SECTORS_OF_AN_AGGREGATE)
    at, lane = divmod(rest, STRIPES_OF_AN_AGGREGATE)
    stripe, volume = divmod(lane, VOLUMES)
    file = FILES[stripe // STRIPES_OF_A_FILE]
    block = stripe % STRIPES_OF_A_FILE * WIDTH + at
    return f"{aggregate} {volume} {file} {block}"


def lines_that_make_files():
    """Lines that make each volume and its files."""
    lines = []
    for aggregate in range(AGGREGATES):
        for volume in range(VOLUMES):
            lines.append(f"makevol {aggregate} {volume}")
            lines += [f"create {aggregate} {volume} {file}" for file in FILES]
    return lines


def sector_of(reply):
    """The bytes of the sector that a read was answered with. One that was never written is a hole, and so is one that
    was trimmed: both are zeros."""
    if reply == "hole":
        return bytes(SECTOR)
    word, _, digits = reply.partition(" ")
    if word != "block":
        raise ServerFault(f"a read was answered: {reply}")
    return bytes.fromhex(digits).ljust(SECTOR, b"\0")


# ---- the server


class ServerFault(Exception):
    """The server could not be started, or it refused what it should have done."""


def ask(server, lines):
    """The replies to these lines. A server that has ended isn't given any more."""
    server.check()
    return server.ask(lines)


def change(server, lines, also_fine=()):
    """Sends lines that change something. Once this returns, all of them are in the server's log on the device."""
    for line, reply in zip(lines, ask(server, lines)):
        if reply != "done" and reply not in also_fine:
            raise ServerFault(f"{line[:40]} was answered: {reply}")


def stop(server):
    """Ends the input. The server answers what it has read, makes its last checkpoint and ends, if it hasn't before."""
    with contextlib.suppress(client.Lost):
        server.close()


def with_device(start, device):
    """What `start` gives for the device's file, which is locked: a second server would destroy it. A process that is
    given the file keeps the lock as long as it runs, also where nbdkit has ended before it."""
    try:
        with client.locked(device) as file:
            return start(file)
    except BlockingIOError as error:
        raise ServerFault(str(error)) from None
    except OSError as error:
        what = "opened" if error.filename == device else "run"
        raise ServerFault(f"{error.filename} can't be {what}: {error.strerror}") from None


# ---- what nbdkit calls
#
# An exception is an EIO for the client, unless another error was set.

words = {"waffd": os.path.join(TOP, "waffd")}
server = None
starting = threading.Lock()


def config(key, value):
    """A word of nbdkit's command line."""
    if key not in ("device", "waffd"):
        raise ValueError(f"unknown word: {key}")
    words[key] = os.path.abspath(value)  # nbdkit changes its folder


def config_complete():
    """Whether all words are there that have to be."""
    if "device" not in words:
        raise ValueError("device=FILE is missing")


def thread_model():
    """Requests may run side by side."""
    return nbdkit.THREAD_MODEL_PARALLEL


def show(file):
    return subprocess.run([words["waffd"], "show", file.name], capture_output=True, check=False)


def get_ready():
    """Whether the file is a device of the geometry that is wanted, before any client comes."""
    shown = with_device(show, words["device"])
    if shown.returncode != 0:
        raise ServerFault(shown.stderr.decode(errors="replace").strip())
    if shown.stdout.decode().splitlines()[:1] != [GEOMETRY]:
        device = words["device"]
        raise ServerFault(f"{device} has not the geometry of this disk; the README tells how it is formatted")


def after_fork():
    """Starts the server before the first client comes."""
    running_server()


def cleanup():
    """Ends it in order."""
    if server is not None:
        stop(server)


def start(file):
    return client.start(file, words["waffd"], ("--slots", "1024"))


def running_server():
    """The server. Where none was started yet, or the last one has ended, a new one is started."""
    global server
    with starting:
        if server is None or server.ended is not None:
            new = with_device(start, words["device"])
            try:
                change(new, lines_that_make_files(), also_fine=("error exists",))
            except (ServerFault, client.Lost):
                stop(new)
                raise
            server = new
        return server


def open(readonly):
    """The handle of a connection is the server that ran when it was opened. Where that has ended each further request
    is answered by an error; a client that connects anew has a new server."""
    return running_server()


def get_size(handle):
    return DISK_SIZE


def block_size(handle):
    return SECTOR, 8 * SECTOR, DISK_SIZE  # the least, the preferred, the greatest


def can_multi_conn(handle):
    return True  # what one connection was answered, each of them reads


def can_fua(handle):
    return nbdkit.FUA_NATIVE  # each write is durable once it is answered


def sectors_of(count, offset):
    """The sectors of a request, which has to be of whole ones."""
    if count % SECTOR or offset % SECTOR:
        nbdkit.set_error(errno.EINVAL)
        raise ValueError(f"{count} bytes at {offset} are not whole sectors")
    return range(offset // SECTOR, (offset + count) // SECTOR)


def pread(handle, buffer, offset, flags):
    lines = [f"read {place_of(sector)}" for sector in sectors_of(len(buffer), offset)]
    buffer[:] = b"".join(map(sector_of, ask(handle, lines)))


def pwrite(handle, buffer, offset, flags):
    lines = []
    for at, sector in enumerate(sectors_of(len(buffer), offset)):
        data = bytes(buffer[at * SECTOR:(at + 1) * SECTOR]).rstrip(b"\0")  # what a line leaves out are zeros
        lines.append(f"write {place_of(sector)} {data.hex() or '00'}")
    change(handle, lines)


def trim(handle, count, offset, flags):
    change(handle, [f"punch {place_of(sector)}" for sector in sectors_of(count, offset)])


def zero(handle, count, offset, flags):
    # A hole reads as zeros, and there is always room to write it again, whether or not the client allows holes.
    trim(handle, count, offset, flags)


def flush(handle, flags):
    # What was answered is on the device already. A server that has ended is reported all the same.
    handle.check()
