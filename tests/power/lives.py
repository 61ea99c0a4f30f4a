"""Lives of `format` and `serve` in a guest, cuts of its power in them, and the judgement of what each cut has left."""
import collections
import enum
import gzip
import math
import os
import pickle
import random
import sys
import time

from ..system.meaning import Search, empty_state, lines_that_make, lines_that_read, options_of, state_of_replies
from ..system.program import TOP, put_bytes, run
from ..system.servers import COMMON, NARROW, SMALL, WIDE, Drawing, plain, replies_of, text_of
from .machine import Dead, Guest
from .served_disk import Kept, Log, private_copy
from .synced_file import EMPTIED, SyncedFile

sys.path.append(os.path.join(TOP, "examples", "inspect"))
from device_format import image_at, recovered

LIVES = 4  # of a chain
IMAGES = 40  # of a life
MOST_KEPT = 2  # violations of a chain of which the image is kept
COUNTS = (
    "lives", "images", "cuts with acknowledged changes", "byte checks", "violations", "torn disks not mounted",
    "guests that died")
ALWAYS_TOLD = 5  # of these counts; each of the others where there are any
MODES = (
    Kept.NONE, Kept.NONE, Kept.ALL, Kept.SOME, Kept.SOME, Kept.ALL_BUT_ONE, Kept.ONE, Kept.THE_FIRST, Kept.TORN_4096,
    Kept.TORN_512, Kept.TORN_512)
KILLED = 128 + 9
START_NOISE = "noise >/dev/null 2>&1 & echo $! >/tmp/noise"
STOP_NOISE = "kill -9 $(cat /tmp/noise)"
NEVER = math.inf  # a moment, and a number of lines or of events, that doesn't come

# A bug that is planted: in shim.c, which is told of it by a word, or in the disk.
Bug = collections.namedtuple("Bug", "name word disk_lies")


class Kind(enum.Enum):
    """What a phase is."""

    FOUND = "found"  # before the first program
    FORMAT = "format"
    SERVE = "serve"


def read(data):
    """What these bytes recover to, or why they don't."""
    if data is None:
        return "the file isn't there"
    try:
        return recovered(data)
    except ValueError as refused:
        return str(refused)


class Phase:
    """One program of a life with the state of the device when it starts, or, as the first one, what is found there."""

    def __init__(self, kind, g=None, state=None, lines=()):
        self.kind = kind
        self.g = g
        self.state = state
        self.lines = lines
        self.start = 0
        self.heard = ()

    def told(self, cut):
        """What the program had put out before this event."""
        return b"".join(data for at, data in self.heard if at <= cut)

    def problem(self, cut, data):
        """What is wrong with the bytes that a cut at this event has left, or None."""
        found = read(data)
        told = self.told(cut)
        if self.state is None:
            return None if data is None else "a file is there that nobody has made"
        if self.kind is Kind.FORMAT and not told and found in ("not formatted", "device too short"):
            return None
        if isinstance(found, str) or found[0] != self.g:
            return str(found)[:100]
        answered = told.count(b"\n")
        if told and not told.endswith(b"\n"):
            answered += 1
        if self.may_leave(found, len(data), answered):
            return None
        return f"of {answered} lines that were answered a change is missing, or none has made what is there"

    def may_leave(self, found, size, answered):
        """Whether a device of this size that recovers so may be left after so many answers."""
        g, state, records = found
        if self.kind is Kind.SERVE:
            return Search(g, self.state, self.lines, answered, state).find() is not None
        if self.kind is Kind.FORMAT and (records != 0 or size != image_at(g, 2)):
            return False
        return state == self.state


class Life:
    """What ran on a disk until its power was cut."""

    def __init__(self, path, found, words):
        self.path = path
        self.phases = [found]
        self.synced = None
        self.words = words

    def problem(self, cut, data):
        """A program that has told nothing may have synced nothing: then the file may be as the one before has left
        it."""
        started = [phase for phase in self.phases if phase.start <= cut]
        problem = started[-1].problem(cut, data)
        while problem and len(started) > 1 and not started.pop().told(cut):
            if started[-1].problem(cut, data) is None:
                problem = None
        if problem is None and self.synced is not None:
            problem = self.synced.problem(cut, data)
        return problem


class Chain:
    """Lives on one disk, each on what a cut in the one before has left. A bug may be planted."""

    def __init__(self, setup, name, seed, bug=None, keep="", end=NEVER):
        self.setup = setup
        self.name = name
        self.seed = seed
        self.bug = bug
        self.keep = keep
        self.end = end
        self.chance = random.Random(f"{name} {seed}")
        self.counts = collections.Counter()
        self.seen = set()  # bytes of the file that the program has been tried on
        self.guest = None
        self.life = None
        self.path = None  # of the file in the guest
        self.found = Phase(Kind.FOUND)
        self.base = setup.fresh  # the disk that the next life starts on, or None where no image could be recovered
        self.drawn = 0  # how many data were drawn
        self.scratch = f"{setup.folder}/{name}-{seed}"

    def run(self):
        """Lives until the time is over: what was counted."""
        try:
            self.guest = Guest(self.setup, self.base, random.Random(self.chance.random()))
            while self.base and self.counts["lives"] < LIVES and time.monotonic() < self.end:
                self.cut(self.live())
                self.tell(told(self.counts))
        except (Dead, OSError, ValueError, AssertionError) as dead:
            self.counts["guests that died"] += 1
            self.tell(f"{dead!r} {self.life.words if self.life else None}")
        if self.guest:
            self.guest.qemu.kill()
        return self.counts

    def tell(self, text):
        print(f"{self.name}, chain {self.seed}, life {self.counts['lives']}: {text}", flush=True)

    def file(self):
        """The bytes of the file, none where it can't be read, or None where it isn't there."""
        status, data = self.guest.ask("get", self.path)
        return {0: data, 2: None}.get(status, b"")

    def recover(self, disk):
        """What the system says where it doesn't mount this disk, and the bytes of the file."""
        self.be_served(disk, Log(""), 0)
        refused = self.guest.mount(self.setup.module)
        if refused:
            return refused, None
        data = self.file()
        if self.guest.ask("did umount /mnt")[0]:
            raise Dead("it can't be unmounted")
        return None, data

    def be_served(self, data, log, hold):
        """From now on the guest's disk has these bytes, and what is done to it comes into this log."""
        disk = self.guest.disk
        disk.bytes = data
        disk.log = log
        disk.hold = hold

    def live(self):
        """Runs programs on the disk, and returns the disk's log."""
        chance = self.chance
        guest = self.guest
        log = Log(self.base, lies=self.bug is not None and self.bug.disk_lies)
        self.be_served(private_copy(self.base), log, chance.choice((0, 0.3, 0.6)))
        pace = chance.choice((1, 10, 500))
        is_noisy = chance.random() < 0.3
        is_reported = chance.random() < 0.5
        guest.ask(f"echo {pace} | tee /proc/sys/vm/dirty_writeback_centisecs "
                  ">/proc/sys/vm/dirty_expire_centisecs; did true")
        self.path = self.path or chance.choice(("/mnt/d", "/mnt/d", "/mnt/sub/d"))
        before = self.mount_as_found()
        folder = os.path.dirname(self.path)
        guest.ask(f"mkdir -p {folder}; {START_NOISE}; did true" if is_noisy else f"mkdir -p {folder}; did true")
        words = f"noise {is_noisy}, reports {is_reported}, hold {guest.disk.hold}, write-back {pace}"
        self.life = Life(self.path, self.found, words)
        self.counts["lives"] += 1
        self.run_programs(self.environment(is_reported))
        if is_reported:
            self.life.synced = SyncedFile(before, log.heard["reports"])
        last = "did umount /mnt" if chance.random() < 0.5 else "did true"
        guest.ask(f"{STOP_NOISE}; {last}" if is_noisy else last)
        guest.wait(lambda: not guest.disk.held)
        self.be_served(guest.disk.bytes, Log(""), 0)
        guest.ask("while grep -q ' /mnt ' /proc/mounts; do umount /mnt || usleep 1000; done; did true")
        return log

    def mount_as_found(self):
        """Mounts the disk, whose file has to be as the judgement of the last cut found it. The bytes of the file."""
        refused = self.guest.mount(self.setup.module)
        if refused:
            raise Dead(f"it isn't as it was found: {refused}")
        data = self.file()
        problem = self.found.problem(0, data)
        if problem:
            raise Dead(f"it isn't as it was found: {problem}")
        return data

    def environment(self, is_reported):
        """What the environment of a program has, as words in front of it."""
        words = ["LD_PRELOAD=/bin/shim.so"]
        if is_reported:
            words.append("REPORTED=1")
        if self.bug is not None and self.bug.word:
            words.append(self.bug.word)
        return words

    def run_programs(self, environment):
        """`format` where there is no device, seldom over one; then `serve`, and some of it is killed."""
        chance = self.chance
        g = self.found.g
        state = self.found.state
        times = chance.choice((1, 2, 2, 3))
        if state is None or chance.random() < 0.15:
            g = chance.choice((SMALL, SMALL, WIDE, WIDE, NARROW, COMMON))
            state = empty_state(g)
            times -= 1
            self.guest.disk.log.heard["reports"].append((len(self.guest.disk.log.events), EMPTIED))
            words = [*environment, "/bin/waffd format", self.path, *options_of(g)]
            self.run_program(Phase(Kind.FORMAT, g, state), words, b"formatted %d\n" % image_at(g, 2))
        for _ in range(times):
            state = self.run_server(environment, g, state)

    def run_server(self, environment, g, state):
        """Runs `serve` on random lines, and judges what it leaves: the state."""
        chance = self.chance
        drawing = Drawing(chance.random(), g)
        drawing.count = self.drawn  # so that nobody in this chain has written such data before
        phase = Phase(Kind.SERVE, g, state, drawing.lines(chance.choice((10, 40, 40, 120))))
        self.drawn = drawing.count
        made = lines_that_make(g, state)
        wanted = text_of(plain(g, made + phase.lines)[len(made):])
        workers = chance.choice((1, 2, 4))
        slots = chance.choice((1, 4, 16, 64))
        every = chance.choice((0, 0, 3, 20))
        options = f"--workers {workers} --slots {slots} --every {every}"
        kill_at = chance.randrange(len(phase.lines)) if chance.random() < 0.5 else NEVER
        self.run_program(phase, [*environment, "/bin/waffd serve", self.path, options], wanted, kill_at)
        data = self.file()
        problem = phase.problem(NEVER, data)
        if problem:
            self.tell_problem(f"without a cut: {problem}")
        return recovered(data)[1]

    def run_program(self, phase, words, wanted, kill_at=NEVER):
        """Runs it to its end, or until it has answered so many lines. It has to answer what is wanted."""
        guest = self.guest
        log = guest.disk.log
        most = self.chance.choice((1, 12, 12, 120))
        begin = len(log.heard["output"])
        phase.start = len(log.events)
        guest.heard["output"].clear()
        self.life.phases.append(phase)
        self.life.words += ", " + " ".join(words)
        guest.ask("run", *words)
        self.feed(phase.lines, most, kill_at)
        guest.tell("exec 4>&-" if kill_at == NEVER else "kill -9 $(cat /tmp/program)")
        word, status, said = guest.answer()
        guest.wait(lambda: False, 0.02)
        phase.heard = log.heard["output"][begin:]
        output = bytes(guest.heard["output"])
        if status == KILLED and kill_at != NEVER:
            is_right = wanted.startswith(output)
        else:
            is_right = status == 0 and output == wanted
        if word != "exit" or not is_right:
            at = len(os.path.commonprefix([wanted, output]))
            self.tell_problem(f"it ends with {word} {status} {said[:200]!r}, and puts out {output[at:][:99]!r} "
                              f"for {wanted[at:][:99]!r} at {at}")

    def feed(self, lines, most, kill_at):
        """Gives the program its lines in parts of as many at most, and waits for the replies to some of the parts,
        until it has answered as many as it is killed at."""
        guest = self.guest
        chance = self.chance
        sent = 0
        due = 0
        while sent < len(lines) and due < kill_at:
            part = lines[sent:sent + chance.randint(1, most)]
            sent += len(part)
            if chance.random() < 0.7:
                due = sent
            guest.feed(text_of(part))
            wanted = min(due, kill_at)
            if not guest.wait(lambda: guest.heard["output"].count(b"\n") >= wanted
                              or guest.heard["control"].startswith(b"exit")):
                raise Dead("replies don't come")
            guest.wait(lambda: False, chance.choice((0, 0, 0.005, 0.02)))

    def cut(self, log):
        """Makes images of the disk after cuts of its power, and judges each. The next life goes on from one of them, if
        there is one."""
        base = None
        replies = [at for phase in self.life.phases for at, _ in phase.heard]
        for _ in range(IMAGES):
            case = self.drawn_cut(log, replies)
            left = self.judge(log, *case) if time.monotonic() < self.end else None
            if left and (base is None or self.chance.random() < 0.2):
                base = case
                self.found = Phase(Kind.FOUND, *left[:2])
        if base is None:
            self.base = None
            return
        put_bytes(f"{self.scratch}-next", log.image(*base)[0])
        os.replace(f"{self.scratch}-next", self.scratch)  # what the log stands on is still open
        self.base = self.scratch

    def drawn_cut(self, log, replies):
        """Behind which event the power is cut, what the disk keeps, and the seed of what is drawn for that."""
        chance = self.chance
        if chance.random() < 0.6:
            count = chance.choice((1, 5))
            places = [chance.randint(0, len(log.events)) for _ in range(count)]
        else:
            places = [chance.choice(replies or [0])]
        at = max(places, key=lambda place: len(log.before(place)[1]))
        mode = chance.choice(MODES)
        return at, mode, chance.random()

    def judge(self, log, at, mode, seed):
        """What the image of a cut recovers to, or None."""
        disk, kept = log.image(at, mode, seed)
        self.counts["images"] += 1
        refused, data = self.recover(disk)
        if refused and mode is Kept.TORN_512:  # a file system may rest on the 4,096 bytes that a disk writes whole
            self.counts["torn disks not mounted"] += 1
            return None
        if any(b"done\n" in phase.told(at) for phase in self.life.phases):
            self.counts["cuts with acknowledged changes"] += 1
        if self.life.synced is not None:
            self.counts["byte checks"] += 1
        found = read(data)
        try:
            problem = f"it doesn't mount: {refused}" if refused else self.problem(at, data, found)
        except AssertionError as error:  # the program refuses it, or there are too many ways to look at
            problem = str(error)
        self.seen.add(data)
        if problem:
            self.tell_problem(f"cut {at} of {len(log.events)}, {kept}: {problem}")
            self.keep_image(at, problem, log.image(at, mode, seed)[0])
            return None
        return None if isinstance(found, str) else found

    def problem(self, at, data, found):
        """What is wrong with the bytes of the file after a cut, or with what the program finds in them."""
        problem = self.life.problem(at, data)
        if problem or isinstance(found, str) or data in self.seen:
            return problem
        g, state, records = found
        path = f"{self.scratch}-device"
        put_bytes(path, data)
        shown = replies_of(run(["show", path]), "show")
        replies = replies_of(run(["serve", path], text_of(lines_that_read(g))), "serve")
        if state_of_replies(g, replies) != state or f"records {records}" not in shown:
            return "the program finds another state"
        return None

    def tell_problem(self, problem):
        """Counts a violation. Where a bug was planted it is found, and the chain ends."""
        self.counts["violations"] += 1
        self.tell(f"VIOLATION: {problem}; {self.life.words}")
        if self.bug is not None:
            self.end = time.monotonic()

    def keep_image(self, at, problem, disk):
        """Keeps the disk of one of the first violations, with all that is needed to look at it again."""
        if self.counts["violations"] > MOST_KEPT:
            return
        path = f"{self.keep}/{self.name}-{self.seed}-{self.counts['lives']}-{at}"
        os.makedirs(self.keep, exist_ok=True)
        with gzip.open(f"{path}.img.gz", "wb", 1) as image, open(f"{path}.case", "wb") as case:
            image.write(disk)
            pickle.dump((self.name, at, self.life, problem), case)
        self.tell(f"kept: {path}.img.gz")


def told(counts):
    """The counts as they are printed."""
    shown = [name for number, name in enumerate(COUNTS) if counts[name] or number < ALWAYS_TOLD]
    return ", ".join(f"{counts[name]} {name}" for name in shown)


def look(setup, path, name, at, life, problem):
    """Recovers a kept image again, in a guest that is booted for it: tells what was wrong, and what is wrong now."""
    chain = Chain(setup, name, 0)
    with gzip.open(path) as file:
        put_bytes(chain.scratch, file.read())
    chain.path = life.path
    chain.guest = Guest(setup, chain.scratch, chain.chance)
    refused, data = chain.recover(private_copy(chain.scratch))
    put_bytes(path.replace(".img.gz", ".device"), data or b"")
    now = f"it does not mount: {refused}" if refused else life.problem(at, data)
    print(f"{life.words}\nthen: {problem}\nnow: {now}")
