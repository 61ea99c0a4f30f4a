"""The store of examples/keys: what it gives, what it refuses, and what it holds after its servers and its programs were
killed."""
import json
import os
import random
import re
import subprocess
import sys
import textwrap
import threading
import time

from .program import PATIENCE, PROGRAM, TOP, Case, bytes_of, run
from .meaning import Geometry, options_of
from .servers import replies_of

FOLDER = os.path.join(TOP, "examples", "keys")
sys.path.append(FOLDER)
import keys

GEOMETRY = Geometry(1, 8, 8, 1, 8, 64, 64, 1024)
KILLS = 20  # of programs
MOST_CHANGES = 200  # that have returned before a kill, or some more
# A program that is given its folder, a device, waffd and a seed. It prints what it is about to change, each key with
# the length of its new value or null, and an empty line once that has returned.
PROGRAM_OF_A_STORE = """
import itertools, json, random, sys
folder, device, waffd, seed = sys.argv[1:]
sys.path.append(folder)
import keys
draw = random.Random(seed)
store = keys.store_on(device, waffd)
for number in itertools.count():
    names = draw.sample(range(40), draw.randint(1, 5))
    lengths = {name: draw.choice((0, 20, 600, 3000, 30000)) for name in names}
    if draw.randrange(4) == 0:
        lengths = dict.fromkeys(names)
    print(json.dumps([seed, number, lengths]), flush=True)
    if None in lengths.values():
        store.delete([b"key %d" % name for name in names])
    else:
        store.put({b"key %d" % name: (b"%s %d %d " % (seed.encode(), number, name) * 2000)[:length]
                   for name, length in lengths.items()})
    print(flush=True)
"""


def values_of(line):
    """What a line of the program tells: the new value of each key, or None."""
    seed, number, lengths = json.loads(line)
    return {
        f"key {name}".encode(): None if length is None else (f"{seed} {number} {name} " * 2000)[:length].encode()
        for name, length in lengths.items()}


class Stores(Case):
    def setUp(self):
        super().setUp()
        self.device = self.at("d")
        self.has_ended(run(["format", self.device, *options_of(GEOMETRY)]), 0)

    def store(self):
        return keys.store_on(self.device, os.path.abspath(PROGRAM))

    def test_values(self):
        """values of all lengths, and none where a key was deleted, also in the next store"""
        lengths = (0, 1, 500, 501, 502, 511, 512, 5000, 127000)
        wanted = {b"k%d" % length: (b"\0x" * 64000)[:length] for length in lengths}
        wanted[b"y" * 255] = b"z" * 63000
        with self.store() as store:
            for values in (dict.fromkeys(wanted, b"old" * 1000), wanted, {b"gone": b"x" * 2000}):
                store.put(values)
            store.delete([b"gone", b"missing"])
            unused = len(store.unused)
        for _ in range(2):
            with self.store() as store:
                self.assertEqual({key: store.get(key) for key in store.places}, wanted)
                self.assertIsNone(store.get(b"gone"))
                self.assertEqual(len(store.unused), unused)

    def test_refused(self):
        """a value that is too long, an empty key, and more than there is room for change nothing"""
        with self.store() as store:
            store.put({b"k": b"old"})
            for values in ({b"a": b"x", b"k": bytes(200000)}, {b"": b""}, {b"%d" % key: b"" for key in range(4096)},
                           {b"%d" % key: bytes(40000) for key in range(52)}):
                self.assertRaises(ValueError, store.put, values)
            self.assertEqual((list(store.places), store.get(b"k")), ([b"k"], b"old"))
            store.put({b"%d" % key: b"" for key in range(4095)})
            self.assertEqual(store.unused, [])
        run(["format", self.device])
        self.assertRaises(ValueError, self.store)

    def test_the_readme(self):
        """the commands and the program of the README do what it says"""
        os.symlink(os.path.abspath(PROGRAM), self.at("waffd"))
        os.symlink(os.path.join(TOP, "examples"), self.at("examples"))
        page = bytes_of(os.path.join(FOLDER, "README.md")).decode()
        command, = re.findall(r"^    (\./waffd format .*)", page, re.M)
        subprocess.run(command.split(), cwd=self.folder, check=True, capture_output=True)
        geometry = " ".join(map(str, GEOMETRY)).encode()
        self.has_ended(run(["show", self.device]), 0, lambda told: told.startswith(b"geometry %s\n" % geometry))
        program = re.search(r"^\n((?: {4}import .*\n)(?: {4}.*\n|\n)*)", page, re.M)[1]
        end = run(["-c", textwrap.dedent(program)], program=[sys.executable], cwd=self.folder)
        self.has_ended(end, 0, b"", b"")

    def test_kills(self):
        """programs and their servers are killed, and each key has the last value that was put, or one on its way"""
        chance = random.Random(1)
        certain, changes = {}, 0
        for number in range(KILLS):
            told = self.told_by_a_killed_program(str(number), chance)
            certain, count = self.judge(certain, told)
            changes += count
        print(f"       {KILLS} programs were killed, with {changes} changes that had returned:")
        self.assertGreater(changes, KILLS)

    def told_by_a_killed_program(self, seed, chance):
        """What a program prints until it is killed: within a change, or now and then as it opens its store. Often its
        server is killed before."""
        words = [sys.executable, "-c", PROGRAM_OF_A_STORE, FOLDER, self.device, os.path.abspath(PROGRAM), seed]
        child = self.started(words, stdout=subprocess.PIPE, text=True)
        lines = []
        reading = threading.Thread(target=lambda: lines.extend(child.stdout))
        reading.start()
        for _ in range(chance.randrange(3)):
            time.sleep(0.4 * chance.random())
            subprocess.run(["pkill", "-KILL", "-P", str(child.pid)], check=False)
        if chance.randrange(4) == 0:
            time.sleep(0.4 * chance.random())
        else:
            self.goes_on(lines, 1 + 2 * chance.randrange(MOST_CHANGES))
            time.sleep(0.01 * chance.random())
        self.assertIsNone(child.poll(), "the program has ended by itself")
        child.kill()
        reading.join(PATIENCE)
        child.communicate()
        return lines

    def goes_on(self, lines, count):
        """Waits until there are so many more lines, or patience ended."""
        count += len(lines)
        end = time.monotonic() + PATIENCE
        while len(lines) < count and time.monotonic() < end:
            time.sleep(0.001)

    def judge(self, certain, told):
        """What each key holds by the next store, and how many changes had returned. Asserts that it may."""
        changes = [values_of(line) for line in told[::2]]
        returned = changes[:len(told) // 2]
        for values in returned:
            certain = {**certain, **values}
        on_its_way = {key: value for values in changes[len(returned):] for key, value in values.items()}
        with self.store() as store:
            found = {key: store.get(key) for key in store.places}
        for key in {*certain, *on_its_way, *found}:
            may_be = (certain.get(key), on_its_way.get(key, certain.get(key)))
            self.assertTrue(found.get(key) in may_be, f"{key} holds {found.get(key)!r:.80}")
        return found, len(returned)
