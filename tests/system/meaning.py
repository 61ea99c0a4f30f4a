"""What messages do to a state, as docs/protocol.md says, and which states a server that was killed may leave.

A state is a table of pieces: `(a, v)` is None or the volume's seal, files and label, `(a, v, s)` has the blocks of a
stripe. No piece is changed in its place. Data is digits to the last byte that isn't zero.
"""
import collections
import functools
import itertools
import re

Geometry = collections.namedtuple("Geometry", "aggregates volumes stripes width files blocks quota half")
Volume = collections.namedtuple("Volume", "sealed files label")

FIELDS = {  # how many numbers a message has, in the order of the kinds
    "makevol": 2, "dropvol": 2, "create": 3, "delete": 3, "seal": 2, "unseal": 2, "write": 4, "punch": 4, "read": 4,
    "list": 2, "usage": 2, "summary": 0, "setlabel": 2, "label": 2}
NO_VOLUME_IS_FINE = ("makevol", "summary")
MAY_BE_SEALED = ("makevol", "seal", "unseal", "read", "list", "usage", "summary", "label")
WANT_THE_FILE = ("delete", "write", "punch", "read")

LONGEST_LINE = 1100
MOST_DIGITS = {"write": 1024, "setlabel": 64}  # of the data
MOST_WAYS = 20000  # that are looked at for one kill
MANY_LINES = 4096  # whose messages are kept, as runs that are judged one by one have the same lines


def options_of(g):
    """The options of a command with this geometry."""
    return [word for name, number in g._asdict().items() for word in (f"--{name}", str(number))]


def group(g, file, block):
    """The stripe of a block."""
    return (file + block // g.width) % g.stripes


def empty_state(g):
    """Nothing, in the order of the pieces of an image: a volume, and its stripes behind it."""
    state = {}
    for a, v in itertools.product(range(g.aggregates), range(g.volumes)):
        state[a, v] = None
        state.update({(a, v, s): {} for s in range(g.stripes)})
    return state


def cut(data):
    """Digits to the last byte that isn't zero, and at least one byte."""
    return re.sub("(?<=.)(00)+$", "", data.lower())


@functools.lru_cache(MANY_LINES)
def message_of(line):
    """The words of a line that is a message, else None."""
    kind, *words = line.split(" ")
    if len(line) > LONGEST_LINE or kind not in FIELDS:
        return None
    numbers = words[:FIELDS[kind]]
    data = words[FIELDS[kind]:]
    if len(numbers) != FIELDS[kind] or len(data) != (1 if kind in MOST_DIGITS else 0):
        return None
    if not all(re.fullmatch("0|[1-9][0-9]*", number) and int(number) < 65536 for number in numbers):
        return None
    if not all(re.fullmatch("([0-9A-Fa-f]{2})+", digits) and len(digits) <= MOST_DIGITS[kind] for digits in data):
        return None
    return kind, tuple(map(int, numbers)), cut(data[0]) if data else None


def in_range(g, message):
    """Whether a device of this geometry has what it names."""
    limits = (g.aggregates, g.volumes, g.files, g.blocks)
    return all(number < limit for number, limit in zip(message[1], limits))


def place(g, message):
    """The path of the affinity at which it works."""
    kind, n, _ = message
    if kind in ("makevol", "dropvol"):
        return (n[0],)
    if kind in ("create", "delete", "list"):
        return (n[0], n[1], 0)
    if kind in ("setlabel", "label"):
        return (n[0], n[1], 1)
    if kind in ("write", "punch", "read"):
        return (n[0], n[1], 0, group(g, n[2], n[3]))
    return n  # the server, or a volume


def related(one, other):
    """Whether one of two places is the other, or lies above it."""
    least = min(len(one), len(other))
    return one[:least] == other[:least]


def refusal(g, state, message):
    """Why it is refused, or None."""
    kind, n, _ = message
    volume = state[n[0], n[1]] if n else None
    if kind == "makevol":
        return "exists" if volume else None
    if volume is None and kind not in NO_VOLUME_IS_FINE:
        return "volume"
    if kind not in MAY_BE_SEALED and volume.sealed:
        return "sealed"
    if kind == "create" and n[2] in volume.files:
        return "exists"
    if kind in WANT_THE_FILE and n[2] not in volume.files:
        return "file"
    if kind == "write":
        stripe = state[n[0], n[1], group(g, n[2], n[3])]
        if (n[2], n[3]) not in stripe and len(stripe) == g.quota:
            return "space"
    return None


def changed_pieces(g, state, message):
    """The pieces that a message sets which isn't refused; none where it changes nothing."""
    kind, n, data = message
    if kind in ("read", "list", "usage", "summary", "label"):
        return {}
    a, v = n[:2]
    volume = state[a, v]
    stripes = [(a, v, s) for s in range(g.stripes)]
    if kind == "makevol":
        return {(a, v): Volume(False, frozenset(), "00")}
    if kind == "dropvol":
        return {(a, v): None, **{key: {} for key in stripes}}
    if kind == "create":
        return {(a, v): volume._replace(files=volume.files | {n[2]})}
    if kind == "delete":
        kept = {key: {at: b for at, b in state[key].items() if at[0] != n[2]} for key in stripes}
        return {(a, v): volume._replace(files=volume.files - {n[2]}), **kept}
    if kind in ("seal", "unseal"):
        return {(a, v): volume._replace(sealed=kind == "seal")}
    if kind == "setlabel":
        return {(a, v): volume._replace(label=data)}
    key = (a, v, group(g, n[2], n[3]))
    stripe = {at: b for at, b in state[key].items() if at != (n[2], n[3])}
    if kind == "write":
        stripe[n[2], n[3]] = data
    return {key: stripe}


def changes_of(g, state, line):
    """Its message and the pieces that it sets; None where the line takes no ticket."""
    message = message_of(line)
    if message is None or not in_range(g, message):
        return None, {}
    if refusal(g, state, message):
        return message, {}
    return message, changed_pieces(g, state, message)


def lines_that_read(g):
    """Lines whose replies give the whole state."""
    found = ["summary"]
    for a, v in itertools.product(range(g.aggregates), range(g.volumes)):
        found += [f"usage {a} {v}", f"list {a} {v}", f"label {a} {v}"]
        found += [f"read {a} {v} {f} {b}" for f, b in itertools.product(range(g.files), range(g.blocks))]
    return found


def state_of_replies(g, replies):
    """The state that the replies to these lines give."""
    state = empty_state(g)
    replies = iter(replies)
    next(replies)  # the summary gives no more than the others
    for a, v in itertools.product(range(g.aggregates), range(g.volumes)):
        usage = next(replies)
        files = next(replies)
        label = next(replies)
        if usage != "error volume":
            numbers = frozenset(int(n) for n in files.split()[1:])
            state[a, v] = Volume(usage.endswith(" sealed"), numbers, label.split()[1])
        for f, b in itertools.product(range(g.files), range(g.blocks)):
            reply = next(replies)
            if reply.startswith("block "):
                state[a, v, group(g, f, b)][f, b] = reply.split()[1]
    return state


def lines_that_make(g, state):
    """Lines that lead from the empty state to this one."""
    found = []
    for a, v in itertools.product(range(g.aggregates), range(g.volumes)):
        volume = state[a, v]
        if volume is None:
            continue
        found += [f"makevol {a} {v}", f"setlabel {a} {v} {volume.label}"]
        found += [f"create {a} {v} {f}" for f in sorted(volume.files)]
        for s in range(g.stripes):
            found += [f"write {a} {v} {f} {b} {data}" for (f, b), data in state[a, v, s].items()]
        if volume.sealed:
            found.append(f"seal {a} {v}")
    return found


class Search:
    """Looks for a way to this state: each answered line was done, and of the others those that are in the log. A
    message waits until the related ones before it are in the log; so where one isn't, none related to it is."""

    def __init__(self, g, start, lines, answered, left):
        self.g = g
        self.lines = lines
        self.answered = answered
        self.left = left
        # The ways that are left to try: the next line, the state, the lines in the log as a chain from the last one
        # back, and the places in the tree where a message isn't in the log.
        self.ways = [(0, start, (), frozenset())]

    def walk(self, begin, state, logged, waiting):
        """Goes on from this line. What is in the log then, or None where that doesn't lead to the state that was
        left."""
        for at in range(begin, len(self.lines)):
            if () in waiting:
                break
            message, pieces = changes_of(self.g, state, self.lines[at])
            if message is None:
                continue
            path = place(self.g, message)
            if any(related(path, other) for other in waiting):
                if at < self.answered:
                    return None
                waiting |= {path}
            elif pieces:
                state_with_it = {**state, **pieces}
                logged_with_it = (self.lines[at], logged)
                if at >= self.answered and self.may_be_missing(state, path):
                    self.ways.append((at + 1, state_with_it, logged_with_it, waiting))
                    waiting |= {path}
                else:
                    state = state_with_it
                    logged = logged_with_it
        return logged if state == self.left else None

    def may_be_missing(self, state, path):
        """Whether what messages at this place and below may set is as it was left. The volume's piece has more than
        the files, and more than the label."""
        if len(path) == 3:
            now = state[path[:2]]
            left = self.left[path[:2]]
            if left is None or path[2] == 1:
                return left is not None and now.label == left.label
            if now.files != left.files:
                return False
        below = [key for key in state if key[:2][:len(path)] == path[:2] and len(key) >= len(path)]
        if len(path) == 4:
            below = [path[:2] + path[3:]]
        return all(state[key] == self.left[key] for key in below)

    def find(self):
        """The lines in the log, or None where there is no way."""
        for _ in range(MOST_WAYS):
            if not self.ways:
                return None
            logged = self.walk(*self.ways.pop())
            if logged is not None:
                lines = []
                while logged:
                    line, logged = logged
                    lines.append(line)
                return lines[::-1]
        raise RuntimeError("too many ways to look at")
