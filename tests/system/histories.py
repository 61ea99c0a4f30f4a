"""What clients that share a server saw, and whether a serial server could have answered so. Each block is looked at
alone, by just-in-time linearization (Lowe, Testing for linearizability, 2017): all that the block may hold is carried
along, over the moments at which lines were sent and replies came.

Of one connection, lines on a block take effect in their order. A line without a reply takes effect at any time after
it was sent, or never, until it is lost: when another connection has its first reply that began after this one had
closed.

Also the worked rows: small histories that a serial server could have given, and such that none could."""
import bisect
import collections
import itertools
import math
import random

from .program import Case

NO_FILE, HOLE = "error file", "hole"  # what a read of a block is answered; `block X` else. So a state is such a reply
OF_FILES = ("create", "delete")
KINDS = ("read", "write", "punch", *OF_FILES)
SENT, ANSWERED, BEGUN, CLOSED = "sent", "answered", "begun", "closed"  # records of a history
CALL, RETURN, LOSS = range(3)  # what comes first of what happens at one moment


class Operation:
    """A line on a block: when it was sent, when its reply came or it was lost, and the reply, None if there is none."""
    __slots__ = ("connection", "called", "ended", "kind", "value", "reply", "is_idle", "is_unseen")

    def __init__(self, connection, called, ended, kind, value, reply):
        self.connection, self.called, self.ended = connection, called, ended
        self.kind, self.value, self.reply = kind, value, reply
        self.is_idle = reply not in (None, "done")  # whether it changed nothing, by its reply
        self.is_unseen = False  # whether it is a write that was carried out and whose value nobody reads

    def __repr__(self):
        line = " ".join(filter(None, (self.kind, self.value)))
        return f"{line[:60]!r} of connection {self.connection}, sent at {self.called}, answered {self.reply!r:.60}"


def carried_out(state, operation):
    """The reply to an operation on a block, and what the block holds then."""
    kind = operation.kind
    if kind == "create":
        return ("done", HOLE) if state == NO_FILE else ("error exists", state)
    if state == NO_FILE or kind == "read":
        return state, state
    return "done", {"write": operation.value, "punch": HOLE, "delete": NO_FILE}[kind]


# ---- whether a block is linearizable


class Search:
    """All configurations of a block: what it may hold, and how many of the open lines of each connection have taken
    effect by then. Of the others the first one of a connection may be next."""

    def __init__(self, state):
        self.open = []  # for each connection with open lines, these; empty where one had some
        self.places = {}  # by connection, where its lines are in that list
        self.configurations = {(state, ())}

    def call(self, operation):
        at = self.places.get(operation.connection)
        if at is None:
            at = next((at for at, lines in enumerate(self.open) if not lines), len(self.open))
            self.places[operation.connection] = at
            if at == len(self.open):
                self.open.append(collections.deque())
                self.configurations = {(state, (*counts, 0)) for state, counts in self.configurations}
        self.open[at].append(operation)

    def passed(self, counts, may_pass, but=None):
        """The counts behind those next lines of connections, but of one, that may be passed."""
        found = list(counts)
        for at, lines in enumerate(self.open):
            if at != but:
                for operation in itertools.islice(lines, counts[at], None):
                    if not may_pass(operation):
                        break
                    found[at] += 1
        return tuple(found)

    def settled(self, state, counts):
        """A configuration, with each line that may take effect next and, by its reply, changes nothing anywhere: to put
        it off has no use."""
        return state, self.passed(counts, lambda one: one.is_idle and carried_out(state, one)[0] == one.reply)

    def behind(self, state, counts, at):
        """The configuration behind the next line of a connection; None if that isn't answered so here. If it changes
        the block, others write before it what nobody reads: to put that off has no use, either."""
        operation = self.open[at][counts[at]]
        reply, after = carried_out(state, operation)
        if operation.reply not in (None, reply):
            return None
        if NO_FILE != state != after:
            counts = self.passed(counts, lambda one: one.is_unseen, at)
        return self.settled(after, counts[:at] + (counts[at] + 1,) + counts[at + 1:])

    def reached(self, at, place):
        """The configurations in which the line at this place of a connection has taken effect."""
        found = set()
        ahead = [self.settled(*configuration) for configuration in self.configurations]
        seen = set(ahead)
        while ahead:
            state, counts = ahead.pop()
            if counts[at] > place:
                found.add((state, counts))
                continue
            for other, lines in enumerate(self.open):
                configuration = self.behind(state, counts, other) if counts[other] < len(lines) else None
                if configuration and configuration not in seen:
                    seen.add(configuration)
                    ahead.append(configuration)
        return found

    def end(self, operation):
        """A reply has come to the first open line of a connection, so it has taken effect. Or the last one is lost: it
        has, or never will."""
        at = self.places[operation.connection]
        lines = self.open[at]
        place = lines.index(operation)
        found = self.reached(at, place)
        if operation.reply is None:
            found |= {(state, counts) for state, counts in self.configurations if counts[at] <= place}
        del lines[place]
        if not lines:
            del self.places[operation.connection]
        self.configurations = {
            (state, counts[:at] + (counts[at] - 1,) + counts[at + 1:]) if counts[at] > place else (state, counts)
            for state, counts in found}


def events_of(operations):
    """What happens, in order. The lines of a connection are lost from the last one on, so that a later one that has
    taken effect had each earlier one before it."""
    for number, operation in enumerate(operations):
        yield operation.called, CALL, number, operation
        if operation.reply is not None:
            yield operation.ended, RETURN, number, operation
        elif operation.ended < math.inf:
            yield operation.ended, LOSS, -number, operation


def marked(operations):
    """Marks the writes whose value nobody reads; each value is written once. Those of them that have no reply are left
    out: they may have taken effect or not."""
    read = {operation.reply for operation in operations if operation.kind == "read"}
    for operation in operations:
        operation.is_unseen = operation.kind == "write" and operation.value not in read and operation.reply == "done"
        if operation.kind != "write" or operation.value in read or operation.reply is not None:
            yield operation


def problem_of(operations, state=NO_FILE):
    """Why no serial server could have answered so, where a block holds this at first; None if one could. Those of a
    connection are in their order."""
    search = Search(state)
    for _, event, _, operation in sorted(events_of(marked(operations)), key=lambda found: found[:3]):
        if event == CALL:
            search.call(operation)
            continue
        before = search.configurations
        search.end(operation)
        if not search.configurations:
            return f"{operation}, where it may be {sorted({held for held, _ in before})}"
    return None


# ---- what clients wrote down


class Connection:
    """What was sent and what came, each with the moment."""

    def __init__(self, begun):
        self.begun = begun
        self.closed = math.inf
        self.lines = []
        self.replies = []

    def operations(self, number, lost):
        """What it did: file, block if it is of one, and operation. Those without a reply are lost at that moment."""
        ends = itertools.chain(self.replies, itertools.repeat((None, lost)))
        for (line, called), (reply, ended) in zip(self.lines, ends):
            kind, *words = line.split(" ")
            if kind in KINDS:
                value = f"block {words[4]}" if kind == "write" else None
                block = None if kind in OF_FILES else words[3]
                yield words[2], block, Operation(number, called, ended, kind, value, reply)

    def problems(self):
        """What is wrong with the replies by themselves."""
        if len(self.replies) > len(self.lines):
            yield f"{len(self.replies)} replies to {len(self.lines)} lines"
        for (line, _), (reply, _) in zip(self.lines, self.replies):
            kind = line.split(" ")[0]
            is_message = kind in KINDS or kind == "summary"
            if is_message == (reply == "error line") or (kind == "summary") != reply.startswith("summary "):
                yield f"{line!r:.60} was answered {reply!r:.60}"


def read_history(path, died):
    """The connections of a client, from its records. It died at that moment, if it was killed."""
    connections = []
    with open(path, encoding="ascii", errors="replace", newline="\n") as file:
        for record in file:
            what, moment, *count = record.split()
            if what == BEGUN:
                connections.append(Connection(int(moment)))
            elif what == CLOSED:
                connections[-1].closed = int(moment)
            else:
                here = connections[-1].lines if what == SENT else connections[-1].replies
                lines = itertools.islice(file, int(count[0]))
                here += [(line[:-1], int(moment)) for line in lines if line.endswith("\n")]
    if connections and connections[-1].closed == math.inf:
        connections[-1].closed = died
    return connections


def moments_of_loss(connections):
    """A function that gives the moment at which the lines of a connection without a reply are lost."""
    later = sorted((one.begun, one.replies[0][1]) for one in connections if one.replies)
    begun = [moment for moment, _ in later]
    first = list(itertools.accumulate((reply for _, reply in reversed(later)), min))[::-1]

    def lost(connection):
        at = bisect.bisect_right(begun, connection.closed)
        return first[at] if at < len(first) else math.inf

    return lost


def operations_by_block(connections, blocks):
    """The operations on each block, those of a connection in their order. What makes or deletes a file is one on each
    block of it."""
    lost = moments_of_loss(connections)
    found = {place: [] for place in blocks}
    for number, connection in enumerate(connections):
        for file, block, operation in connection.operations(number, lost(connection)):
            for place in found:
                if place == (file, block) or (block is None and place[0] == file):
                    found[place].append(operation)
    return found


def problems_of(connections, blocks):
    """What no serial server could have answered to these connections, where `blocks` tells what each block holds at
    first."""
    for connection in connections:
        yield from connection.problems()
    for place, operations in operations_by_block(connections, blocks).items():
        problem = problem_of(operations, blocks[place])
        if problem:
            yield f"block {place}: {problem}"


# ---- worked rows

# Each part: connection, moments of the line and of its reply, `-` if it has none, the line, and the reply. Behind `/`
# stands the moment at which lines without a reply are lost.
LINEARIZABLE = (
    "a 1 2 write 1: done, b 3 4 read: 1",
    "a 1 4 write 1: done, b 2 3 read: 1",
    "a 1 4 write 1: done, b 2 3 read: hole",
    "a 1 4 write 1: done, b 2 3 read: 1, c 2 3 read: hole",
    "a 1 9 write 1: done, b 2 8 write 2: done, c 3 4 read: 2, c 5 6 read: 1",
    "a 1 - write 1, b 2 3 read: hole, b 4 5 read: 1, b 6 7 read: 1",
    "a 1 - write 1, a 2 - write 2, b 3 4 read: 1, b 5 6 read: 2",
    "a 1 - write 1, b 4 5 read: 1 / 5",
    "a 1 - write 1, a 1 - punch, b 2 3 read: 1, b 4 5 read: hole / 6",
    "a 1 2 delete: done, b 1 2 write 1: error file, b 3 4 create: done, a 5 6 read: hole",
    "a 1 9 create: error exists, b 2 3 delete: done, b 4 5 read: error file",
    "a 1 8 write 1: done, a 2 8 read: 2, b 3 8 write 2: done, b 4 8 read: 2",
    "a 1 9 punch: done, b 2 3 read: hole, b 4 5 write 1: done, b 6 7 read: hole",
)
NOT_LINEARIZABLE = (
    "a 1 2 write 1: done, b 3 4 read: hole",
    "a 1 4 write 1: done, b 2 3 read: 1, c 4 5 read: hole",
    "a 1 2 read: 1, b 3 4 write 1: done",
    "a 1 2 write 1: done, a 3 4 write 2: done, b 5 6 read: 1",
    "a 1 9 write 1: done, b 2 8 write 2: done, c 3 4 read: 2, c 5 6 read: 1, c 7 8 read: 2",
    "a 1 8 write 1: done, a 2 8 write 2: done, b 3 4 read: 2, b 5 6 read: 1",
    "a 1 - write 1, b 2 3 read: 1, b 4 5 read: hole",
    "a 1 - write 1, a 2 - write 2, b 3 4 read: 2, b 5 6 read: 1",
    "a 1 - write 1, b 4 5 read: hole, b 6 7 read: hole, b 8 9 read: 1 / 5",
    "a 1 - punch, b 2 3 write 1: done, b 4 5 read: 1, b 6 7 read: 1, b 8 9 read: hole / 5",
    "a 1 - delete, a 1 - write 1, b 2 3 read: 1 / 2",
    "a 1 2 delete: done, b 3 4 write 1: done",
    "a 1 2 delete: done, b 3 4 create: done, a 5 6 create: done",
    "a 1 8 write 1: done, a 2 8 read: hole",
    "a 2 4 write 1: done, a 4 9 write 2: done, a 4 9 read: 1, b 4 9 write 3: done, b 5 9 punch: done",
)


def operations_of(row):
    """The operations of a row, on a block that is a hole at first."""
    text, _, loss = row.partition(" / ")
    for part in text.split(", "):
        connection, called, ended, what = part.split(" ", 3)
        line, _, reply = what.partition(": ")
        kind, _, value = line.partition(" ")
        end = float(loss or math.inf) if ended == "-" else int(ended)
        yield Operation(connection, int(called), end, kind, value or None, reply or None)


# ---- all orders of a small history


def has_order(left, state):
    """Whether these may take effect one after the other, as they are answered: none before one that had ended before it
    was called, or that its connection has before it."""
    if not left:
        return True
    for at, one in enumerate(left):
        others = left[:at] + left[at + 1:]
        is_first = all(other.ended >= one.called for other in others) and all(
            other.connection != one.connection for other in left[:at])
        reply, after = carried_out(state, one)
        if is_first and one.reply in (None, reply) and has_order(others, after):
            return True
    return False


def has_some_order(operations, state):
    """The same, with some of those without a reply: of each connection with the first ones."""
    missing = collections.defaultdict(list)
    for operation in operations:
        if operation.reply is None:
            missing[operation.connection].append(operation)
    for counts in itertools.product(*(range(len(lines) + 1) for lines in missing.values())):
        never = {line for lines, count in zip(missing.values(), counts) for line in lines[count:]}
        if has_order([operation for operation in operations if operation not in never], state):
            return True
    return False


def random_history(chance):
    """Some operations on a block that is a hole at first, of three connections, with replies as a serial server could
    have given, but for some."""
    operations = []
    for connection in range(3):
        moment = answered = 0
        for _ in range(chance.randint(1, 3)):
            moment += chance.randint(0, 3)
            answered = max(answered, moment) + chance.randint(0, 5)
            kind = chance.choice((*KINDS, "read", "write", "write"))
            value = f"value {len(operations)}" if kind == "write" else None
            operations.append(Operation(connection, moment, answered, kind, value, None))
    state = HOLE
    for one in sorted(operations, key=lambda one: chance.uniform(one.called, one.ended)):
        reply, state = carried_out(state, one)
        one.reply = reply if chance.random() < 0.9 else chance.choice(("done", HOLE, NO_FILE, "value 0"))
    if chance.random() < 0.5:
        lost = max(operation.called for operation in operations) + chance.choice((1, 3, math.inf))
        for operation in operations[-chance.randint(1, 2):]:  # of the last connection, mostly
            if operation.connection == 2:
                operation.reply, operation.ended = None, lost
    for operation in operations:
        operation.is_idle = operation.reply not in (None, "done")
    return operations


class Histories(Case):
    """The search, by rows that were worked out by hand, and beside all orders."""

    def test_all_orders(self):
        """of small random histories it says what comes out if all orders are tried"""
        chance = random.Random("histories")
        counts = collections.Counter()
        for _ in range(10000):
            operations = random_history(chance)
            is_possible = has_some_order(operations, HOLE)
            counts[is_possible] += 1
            self.assertEqual(problem_of(operations, HOLE) is None, is_possible, operations)
        self.assertGreater(min(counts[True], counts[False]), 2000, counts)

    def test_linearizable(self):
        """what a serial server could have answered is let through"""
        for row in LINEARIZABLE:
            self.assertIsNone(problem_of(list(operations_of(row)), HOLE), row)

    def test_not_linearizable(self):
        """what no serial server could have answered is found"""
        for row in NOT_LINEARIZABLE:
            self.assertIsNotNone(problem_of(list(operations_of(row)), HOLE), row)
