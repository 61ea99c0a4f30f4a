#!/usr/bin/env python3
"""Prints what a device of `waffd` holds, from its bytes, as docs/log.md and docs/image.md have them.

    examples/inspect/inspect_device.py DEVICE            its parts, and the state to which it recovers
    examples/inspect/inspect_device.py --all DEVICE      also records that aren't committed, and empty pieces
    examples/inspect/inspect_device.py --state DEVICE    only the state, as the lines that examples/copy writes

It only reads, and takes no lock. The file is read twice: where the two differ a server writes to it, and what is
printed may be of two moments. The last line says what the device recovers to, or why it is refused: the first check
that fails, in the words of the program, and where. The status is 0 where it recovers, else 1.
"""
import argparse
import contextlib
import sys

from device_format import (
    RECORD, ROOT, Device, Refused, first_difference, gate_at, half_at, image_at, lines_of, lines_of_blocks,
    lines_of_seal, lines_of_volume, pieces_of, record_at, recovered, summary_of, text_of)


def part_at(g, at):
    """The part of a device in which this place is."""
    begins = [(0, "header"), (ROOT, "root zone")]
    for half in (0, 1):
        begins += [(half_at(g, half), f"head of half {half}"), (gate_at(g, half, 0), f"commit bytes of half {half}"),
                   (record_at(g, half, 0), f"records of half {half}")]
    begins += [(image_at(g, 0), "image 0"), (image_at(g, 1), "image 1"), (image_at(g, 2), "bytes behind the parts")]
    return [name for begin, name in begins if begin <= at][-1]


def lines_of_piece(key, value):
    """What a piece of an image holds, as lines."""
    if not value:
        return []
    return lines_of_volume(key, value) + lines_of_seal(key, value) if len(key) == 2 else lines_of_blocks(key[:2], value)


def text_of_half(device, half, is_whole):
    """The lines on a half of the log: its gates, and its records as messages."""
    g = device.g
    front = device.front(half)
    force = "in force" if half in device.halves_in_force() else "not in force"
    chain = device.data[half_at(g, half)]
    yield f"half {half} at {half_at(g, half)}: chain byte {chain}, {front} of {g.half} records committed, {force}"
    for number in range(front):
        yield f"  record {number}: {text_of(device.message(half, number))}"
    for number in range(front, g.half):
        gate = device.gates(half)[number]
        at = record_at(g, half, number)
        has_bytes = any(device.data[at:at + RECORD])
        if gate or is_whole and has_bytes:
            text = text_of(device.message(half, number)) if has_bytes else "zeros"
            yield f"  not committed {number}: commit byte {gate}, {text}"


def text_of_image(device, number, is_whole):
    """The lines on an image: its pieces, as the messages that make what they hold."""
    image = device.image(number)
    named = "named" if number == device.named else "not named"
    if not image.has_version:
        yield f"image {number} at {image.at}: no version, {named}"
        return
    yield f"image {number} at {image.at}: version {image.version}, {named}, {summary_of(image.state)}"
    for piece in pieces_of(device.g):
        value = image.state[piece.key]
        is_volume = len(piece.key) == 2
        if value or is_whole or piece.number in image.bad:
            name = " ".join(map(str, piece.key))
            yield f"  piece {piece.number} at {image.at + piece.at}: {'volume' if is_volume else 'stripe'} {name}"
        if piece.number in image.bad:
            yield f"    bad at {image.bad[piece.number]}"
        yield from (f"    {line}" for line in lines_of_piece(piece.key, value))


def report(data, is_whole):
    """The lines on a whole device but the last one."""
    device = Device(data)
    yield "geometry: " + " ".join(map(str, device.g))
    end = image_at(device.g, 2)
    yield f"length: {len(data)}, of which its parts take {end}"
    yield f"root: {data[ROOT]}, so area {device.named} is named"
    for number in (0, 1):
        yield from text_of_half(device, number, is_whole)
    for number in (0, 1):
        yield from text_of_image(device, number, is_whole)


def verdict(data):
    """The last line, and whether the device recovers."""
    try:
        _, state, count = recovered(data)
    except Refused as refused:
        at = f" at {refused.at}" if refused.at is not None else ""
        return f"refused: {refused}{at}: {refused.detail}", False
    return f"recovers to: {summary_of(state)}, with {count} records in force", True


def difference(data, again):
    """What has changed between two reads, or None."""
    if data == again:
        return None
    at = first_difference(data, again)
    if at is None:
        return "its length changed while it was read"
    try:
        part = f" ({part_at(Device(data).g, at)})"
    except Refused:
        part = ""
    return f"it changed while it was read, first at {at}{part}: a server writes to it"


def read(path):
    with open(path, "rb") as file:
        return file.read()


def main():
    parser = argparse.ArgumentParser(description=__doc__, formatter_class=argparse.RawDescriptionHelpFormatter)
    parser.add_argument("--all", action="store_true", help="also records that aren't committed, and empty pieces")
    parser.add_argument("--state", action="store_true", help="only the state, as lines that make it")
    parser.add_argument("device", metavar="DEVICE")
    given = parser.parse_args()
    try:
        data, again = read(given.device), read(given.device)
    except OSError as error:
        sys.exit(f"inspect: {error.filename}: {error.strerror}")
    changed = difference(data, again)
    if changed:
        print(f"inspect: {changed}", file=sys.stderr)
    last, is_sound = verdict(data)
    if not given.state:
        with contextlib.suppress(Refused):  # the last line says why
            for line in report(data, given.all):
                print(line)
        print(last)
    elif is_sound:
        print("\n".join(lines_of(recovered(data)[1])))
    else:
        print(last, file=sys.stderr)
    return 0 if is_sound else 1


if __name__ == "__main__":
    sys.exit(main())
