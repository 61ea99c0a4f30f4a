#!/usr/bin/env python3
"""Copies what a device of `waffd` holds, by messages: to a new device of any geometry that holds it, or as lines.

    examples/copy/copy.py FROM [TO [PROGRAM]]     PROGRAM is ./waffd, if none is named

FROM is a device, the socket at which a client of operations/service/front.py is alone, or `-`, for the standard input:
lines that a copy has written. TO is a device that was formatted and is empty, or `-`, for lines on the standard
output, which is also what a copy without TO writes. All is read first: what doesn't fit is printed, and TO stays
empty. Devices are locked, as by flock.
"""
import argparse
import collections
import contextlib
import itertools
import os
import stat
import subprocess
import sys

sys.path.append(os.path.join(os.path.dirname(os.path.realpath(__file__)), os.pardir, "client"))
import client

Geometry = collections.namedtuple("Geometry", "aggregates volumes stripes width files blocks quota half")
Lines = collections.namedtuple("Lines", "first creates writes last")  # that make a volume, in this order
GREATEST = Geometry(4, 8, 8, 64, 64, 256, 64, 1024)
OPTIONS = ("--slots", "1024")
TOGETHER = 256  # lines that are sent at once
LOG_WRITE = 64  # changes at most, no two of one stripe
NOTHING = "summary 0 0 0"
STREAM = "-"  # in the place of a device
END = "summary"  # the last line, so that lines that were cut off are known


class Volume:
    """A volume, at first as `makevol` makes it."""

    def __init__(self):
        self.label = "00"
        self.is_sealed = False
        self.files = []
        self.blocks = {}  # (file, block) -> data
        self.size = 0  # how many blocks there are, of which some may have to be read yet


def summary_of(volumes):
    """What a server answers that holds these volumes."""
    files = sum(len(volume.files) for volume in volumes.values())
    blocks = sum(len(volume.blocks) for volume in volumes.values())
    return f"summary {len(volumes)} {files} {blocks}"


# ---- reading


def limits(server):
    """How many aggregates, volumes and blocks there may be: a number that is greater is answered `error range`."""
    lines_of_each = (
        [f"usage {a} 0" for a in range(GREATEST.aggregates)],
        [f"usage 0 {v}" for v in range(GREATEST.volumes)],
        [f"read 0 0 0 {b}" for b in range(GREATEST.blocks)])
    return [sum(reply != "error range" for reply in server.ask(lines)) for lines in lines_of_each]


def read_volumes(server, aggregates, volumes):
    """Each volume that is made, by its aggregate and its number, without its blocks."""
    places = list(itertools.product(range(aggregates), range(volumes)))
    replies = server.ask([f"{word} {a} {v}" for a, v in places for word in ("label", "usage", "list")])
    found = {}
    for place, label, usage, listed in zip(places, replies[::3], replies[1::3], replies[2::3]):
        if label != "error volume":
            volume = found[place] = Volume()
            volume.label = label.split()[1]
            volume.is_sealed = usage.endswith(" sealed")
            volume.size = int(usage.split()[2])
            volume.files = [int(number) for number in listed.split()[1:]]
    return found


def read_all(server):
    """What a server holds. Of each volume a file is read, then of each the next one, until it has all its blocks: so
    volumes are read side by side."""
    aggregates, volumes, blocks = limits(server)
    found = read_volumes(server, aggregates, volumes)
    for at in range(GREATEST.files):
        requests = []
        for (a, v), volume in found.items():
            if at < len(volume.files) and len(volume.blocks) < volume.size:
                request = server.send(f"read {a} {v} {volume.files[at]} {block}" for block in range(blocks))
                requests.append((volume, request))
        for volume, request in requests:
            for block, reply in enumerate(server.replies(request)):
                if reply != "hole":
                    volume.blocks[volume.files[at], block] = reply.split()[1]
    if server.ask(["summary"]) != [summary_of(found)]:
        sys.exit("copy: what was read is not what is there")
    return found


def volumes_of(lines):
    """The volumes that these lines make, which a copy has written."""
    if lines[-1:] != [END]:
        sys.exit(f"copy: the lines were cut off, as the last one is not `{END}`")
    volumes = collections.defaultdict(Volume)
    for number, line in enumerate(lines[:-1], 1):
        words = line.split(" ")
        try:
            place = (int(words[1]), int(words[2]))
            add(volumes[place], words[0], words[3:])
        except (ValueError, IndexError):
            sys.exit(f"copy: line {number} is none that a copy writes: {line[:60]}")
    return volumes


def add(volume, kind, words):
    """Adds what a line makes to its volume."""
    if kind == "setlabel":
        volume.label = words[0]
    elif kind == "create":
        volume.files.append(int(words[0]))
    elif kind == "write":
        volume.blocks[int(words[0]), int(words[1])] = words[2]
    elif kind == "seal":
        volume.is_sealed = True
    elif kind != "makevol":
        raise ValueError(kind)


# ---- writing


def lines_that_make(place, volume):
    """Lines that make a volume where there is none."""
    at = "{} {}".format(*place)
    first = [f"makevol {at}", f"setlabel {at} {volume.label}"]
    creates = [f"create {at} {file}" for file in volume.files]
    writes = [f"write {at} {file} {block} {data}" for (file, block), data in volume.blocks.items()]
    last = [f"seal {at}"] if volume.is_sealed else []
    return Lines(first, creates, writes, last)


def in_turn(lists):
    """The first of each list, then the second of each, and so on."""
    return [item for row in itertools.zip_longest(*lists) for item in row if item is not None]


def stripe_of(file, block, g):
    """The number of a block's stripe in its volume."""
    return (file + block // g.width) % g.stripes


def lines_for(volumes, g):
    """Lines that make all volumes, in an order that is fast. A write of the log takes one line each of many stripes. A
    checkpoint writes each stripe anew that was changed since the one before. So the lines go to as many stripes in turn
    as a write of the log takes, until these are done."""
    made = [lines_that_make(place, volume) for place, volume in volumes.items()]
    writes = collections.defaultdict(list)
    for (place, volume), lines in zip(volumes.items(), made):
        for (file, block), line in zip(volume.blocks, lines.writes):
            writes[place, stripe_of(file, block, g)].append(line)
    stripes = sorted(writes)
    found = in_turn(lines.first for lines in made) + in_turn(lines.creates for lines in made)
    for at in range(0, len(stripes), LOG_WRITE):
        found += in_turn(writes[stripe] for stripe in stripes[at:at + LOG_WRITE])
    return found + in_turn(lines.last for lines in made)


def misfits(volumes, g):
    """What has no place in this geometry."""
    for (a, v), volume in volumes.items():
        if a >= g.aggregates or v >= g.volumes:
            yield f"volume {a} {v} is out of range"
        for file in volume.files:
            if file >= g.files:
                yield f"volume {a} {v}: file {file} is out of range"
        for file, block in volume.blocks:
            if block >= g.blocks:
                yield f"volume {a} {v}: block {block} of file {file} is out of range"
        stripes = collections.Counter(stripe_of(file, block, g) for file, block in volume.blocks)
        for stripe, count in sorted(stripes.items()):
            if count > g.quota:
                yield f"volume {a} {v}: stripe {stripe} would have {count} blocks"


def geometry_of(program, device):
    """The geometry of a device, which has to be empty."""
    end = subprocess.run([program, "show", device], stdout=subprocess.PIPE, text=True, check=False)
    if end.returncode:
        sys.exit(f"copy: {program} show {device} ended with {end.returncode}")
    lines = end.stdout.splitlines()
    if NOTHING not in lines:
        sys.exit("copy: the new device isn't empty")
    return Geometry(*map(int, lines[0].split()[1:]))


def write_all(volumes, file, program, g):
    """Makes these volumes on a device that is locked."""
    found = [f"copy: {what}" for what in misfits(volumes, g)]
    if found:
        sys.exit("\n".join(found))
    lines = lines_for(volumes, g)
    with client.start(file, program, OPTIONS) as server:
        for line, reply in zip(lines, server.answers(lines, TOGETHER)):
            if reply != "done":
                sys.exit(f"copy: {line[:60]} was answered: {reply}")
        if server.ask(["summary"]) != [summary_of(volumes)]:
            sys.exit("copy: the new device has something else")


# ---- the whole


def volumes_at(source, file, program):
    """What is to be copied: lines of the standard input, what a server holds, or what a device does that is locked."""
    if source == STREAM:
        return volumes_of(sys.stdin.read().splitlines())
    with client.start(file, program, OPTIONS) if file else client.connect(source) as server:
        return read_all(server)


def copy(source, target, program):
    """Copies: what was copied."""
    with contextlib.ExitStack() as locks:
        files = {}
        for path in (source, target):
            if path != STREAM and not stat.S_ISSOCK(os.stat(path).st_mode):
                files[path] = locks.enter_context(client.locked(path))
        if target == STREAM:
            volumes = volumes_at(source, files.get(source), program)
            for place, volume in volumes.items():
                sys.stdout.writelines(line + "\n" for lines in lines_that_make(place, volume) for line in lines)
            print(END, flush=True)
        else:
            g = geometry_of(program, target)
            volumes = volumes_at(source, files.get(source), program)
            write_all(volumes, files[target], program, g)
    return volumes


def arguments():
    parser = argparse.ArgumentParser(description=__doc__, formatter_class=argparse.RawDescriptionHelpFormatter)
    parser.add_argument("source", metavar="FROM", help="a device, a socket, or - for lines")
    parser.add_argument("target", metavar="TO", nargs="?", default=STREAM, help="a new device, or - for lines")
    parser.add_argument("program", metavar="PROGRAM", nargs="?", default="./waffd")
    return parser.parse_args()


def main():
    given = arguments()
    try:
        if STREAM not in (given.source, given.target) and os.path.samefile(given.source, given.target):
            sys.exit(f"copy: {given.source} and {given.target} are one file")
        volumes = copy(given.source, given.target, given.program)
    except (client.Lost, BlockingIOError) as why:
        sys.exit(f"copy: {why}")
    except OSError as error:  # without a name where a stream can't be written
        sys.exit(": ".join(filter(None, ("copy", error.filename, error.strerror))))
    told = summary_of(volumes).replace("summary", "copied")
    print(told, file=sys.stderr if given.target == STREAM else sys.stdout)


if __name__ == "__main__":
    main()
