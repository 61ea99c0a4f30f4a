"""What stands in the repository without being run: the scripts of tests/lint, the pictures, the figures, the model of
the bench, ./waffd, ./build and ./try."""
import os
import re
import shutil
import signal
import subprocess
import tempfile
import time
import unittest
from concurrent.futures import ThreadPoolExecutor

from .program import TOP, Case, run

SCRIPTS = {
    "tests/lint/words": "each public word of the definitions has one meaning",
    "tests/lint/names": "each name in a comment and in the map of the code is there",
    "tests/lint/form": "each clause, function, file and page has the form that it is to have",
    "tests/lint/fixed": "no line of a table of what is fixed was taken out or replaced, and no decision",
    "tests/lint/wrong_bodies": "each wrong body has its edit or test",
    "tests/lint/refusals": "each must-fail edit is a body of its own, and names the goal at which it has to be refused",
    "tests/lint/assertions": "each test of a crate reaches an assertion",
    "tests/lint/constants": "something that is proved says the number of each constant that a definition cites",
    "tests/lint/surface": "each public name and each worked row that is fixed is there",
    "tests/lint/model": "the model of the bench has the steps of its sources",
    "tests/lint/believe": "what has to be read is within its bounds, and as much as the pages say",
    "docs/pictures/draw --check": "each picture fits what it shows",
    "tests/lint/lemmas": "no lemma is stated twice, nor one of the library again, and each is used",
    "benchmark/figures --check": "the pages' figures of speed are those of benchmark/figures.json",
    "tests/lint/version": "the version names the kit, the logic and the newest changes",
}
LINTS = [words for words in SCRIPTS if words.startswith("tests/lint/")]
HELPFUL = ("./build", "./check", "./try", "./statement", "docs/pictures/draw", "tests/lint/chain", *LINTS)


def run_script(words):
    name, *arguments = words.split()
    return subprocess.run([os.path.join(TOP, name), *arguments], capture_output=True, text=True, check=False)


class Scripts(Case):
    def test_scripts(self):
        with ThreadPoolExecutor(len(os.sched_getaffinity(0))) as pool:
            ends = dict(zip(SCRIPTS, pool.map(run_script, SCRIPTS)))
        for words, fact in SCRIPTS.items():
            with self.subTest(fact):
                self.assertEqual(ends[words].returncode, 0, ends[words].stdout + ends[words].stderr)

    def test_lengths(self):
        """how long the pages and the scripts are is for whoever reviews"""
        end = run_script("tests/lint/form lengths")
        print(end.stdout, end="", flush=True)
        self.assertEqual(end.returncode, 0, end.stderr)

    def test_help(self):
        """each script tells by --help what it does"""
        for name in HELPFUL:
            end = run_script(f"{name} --help")
            self.assertEqual((end.returncode, end.stderr), (0, ""), name)
            self.assertIn(f"    {name}", end.stdout)


# The constants that limit the number of each option, or the numbers themselves.
LIMITS = {
    "aggregates": (1, "MOST_AGGREGATES"),
    "volumes": (1, "MOST_VOLUMES"),
    "stripes": (1, "MOST_STRIPES"),
    "width": (1, "MOST_WIDTH"),
    "files": (1, "MOST_FILES"),
    "blocks": (1, "MOST_BLOCKS"),
    "quota": (1, "MOST_QUOTA"),
    "half": ("LEAST_RECORDS", "MOST_RECORDS"),
    "workers": (0, "MOST_WORKERS"),
    "slots": (1, "MOST_SLOTS"),
    "every": (0, "MOST_RECORDS"),
}
COMMAND_LINE = "crates/arguments/src/command_line.rt"
CONSTANT = re.compile(r"^pub const (\w+): u16 = (\d+);$", re.M)
DEFAULT_NUMBER = re.compile(r"^ +(\w+): (\d+),$", re.M)
# Of an option its name, the three numbers in its text, and the least and the greatest number that the parser takes.
OPTION = re.compile(
    r'\(\s*"(\w+)",\s*"[^"]*?(\d+) to (\d+)\b[^"]*\[default: (\d+)\]",\s*(\w+),\s*([\w:]+),?\s*\)')
ANY = ("0", "u16::MAX")  # what the parser takes where `Geometry::new` refuses what is out of range


def read_source(path):
    with open(os.path.join(TOP, path), encoding="utf-8") as source:
        return source.read()


class Options(Case):
    """The numbers that help prints of each option."""

    def setUp(self):
        super().setUp()
        limits = read_source("crates/affinity/src/limits.rt")
        self.constants = dict(CONSTANT.findall(limits + read_source(COMMAND_LINE)))

    def number(self, limit):
        """The number of a constant, or a number itself."""
        return int(self.constants.get(limit, limit))

    def default(self, name):
        """What the code takes where the option isn't given."""
        given = self.constants.get(f"DEFAULT_{name.upper()}")
        of_geometry = read_source("crates/affinity/src/geometry.rt").partition("impl Default for Geometry")[2]
        return int(given or dict(DEFAULT_NUMBER.findall(of_geometry))[name])

    def test_numbers(self):
        """help prints the limits and the default of each option as the code has them"""
        options = OPTION.findall(read_source(COMMAND_LINE))
        self.assertEqual(sorted(name for name, *_ in options), sorted(LIMITS))
        for name, least, most, default, *taken in options:
            with self.subTest(name):
                limits = [self.number(limit) for limit in LIMITS[name]]
                self.assertEqual([int(least), int(most), int(default)], [*limits, self.default(name)])
                if tuple(taken) != ANY:
                    self.assertEqual([self.number(limit) for limit in taken], limits)


class Model(Case):
    @unittest.skipUnless(shutil.which("spin") and shutil.which("gcc"), "spin or gcc isn't installed")
    def test_searches(self):
        """each search of tests/model ends as it has to, and each planted bug is found"""
        search = os.path.join(TOP, "tests", "model", "search")
        self.assertEqual(subprocess.run([search], check=False).returncode, 0)


# A tree of five crates, of which the program is made from three.
CRATES = """\
# What it stands on
disk:
oplog: disk
machine: disk  # a model, on which the program doesn't depend
parts_tests tests_may=Wait: disk machine
waffd may_wait=1: disk oplog
"""
FILES = {
    "crates.txt": CRATES,
    "HANDLES": "Handles allowed: none.\n",
    "crates/disk/src/lib.rt": "",
    "crates/disk/proofs/Lib.antt": "",
    "crates/disk/proofs/Examples.antt": "",
    "crates/disk/must-fail/wrong.edit": "",
    "crates/oplog/src/lib.rt": "",
    "crates/machine/src/lib.rt": "",
    "crates/parts_tests/src/lib.rt": "",
    "crates/waffd/src/lib.rt": "",
    "crates/waffd/proofs/Lib.antt": "",
}
FOLDERS = sorted({os.path.dirname(path) for path in FILES if "/" in path})

# In the place of ./build: makes a program, as if begun at the time 2000 and ended at 3000, unless there is a file
# `wrong`.
BUILD = """#!/bin/sh
echo built >&2
[ ! -f "${0%/*}/wrong" ] || exit 1
cd "${0%/*}/crates/waffd" && mkdir -p out || exit 1
touch -d @2000 out/built
cp ../../program out/waffd
touch -d @3000 out/waffd
"""
PROGRAM = "#!/bin/sh\necho \"ran $*\"\nexit 7\n"
NOT_RUN = 4
BUILT = (
    b"waffd: there is no program yet: all of it is proved and built first, which takes a quarter of an hour on four "
    b"slow processors; meanwhile ./try runs it unproved, in a minute or two\nbuilt\n")
OLD = (b"waffd: a source is newer than the program, which is not run: ./build proves what has changed, and builds it "
       b"anew (in a copy, where nothing but times has changed, that takes a minute or so)\n")
RAN = (7, b"ran serve d --every 2\n")


class Launcher(Case):
    """./waffd, in a tree of its own, where ./build and the program only print that they were called."""

    def setUp(self):
        """All sources are of the time 1000."""
        super().setUp()
        self.tree = self.at("tree")
        files = {**FILES, "build": BUILD, "program": PROGRAM}
        for path, text in files.items():
            self.put_script(f"tree/{path}", text)
        for path in (*files, *FOLDERS):
            self.touch(path, 1000)
        shutil.copy(os.path.join(TOP, "waffd"), self.tree)

    def touch(self, path, seconds):
        os.utime(os.path.join(self.tree, path), (seconds, seconds))

    def remove(self, path):
        os.unlink(os.path.join(self.tree, path))

    def calls(self, name, *wanted, script="./waffd", cwd=None):
        self.ends(name, run(["serve", "d", "--every", "2"], program=(script,), cwd=cwd or self.tree), *wanted)

    def tries_newer(self, path, *wanted):
        """A call where this is newer than the begin of the build, but not than its end."""
        self.touch(path, 2500)
        self.calls(f"{path} is newer", *wanted)
        self.touch(path, 1000)

    def test_launcher(self):
        self.put_script("tree/wrong", "")
        self.calls("there is no program, and none can be built", NOT_RUN, b"", BUILT)
        self.remove("wrong")
        self.calls("there is no program", *RAN, BUILT)
        self.calls("the program is there", *RAN, b"")
        with tempfile.TemporaryDirectory() as elsewhere:
            os.symlink(os.path.join(self.tree, "waffd"), os.path.join(elsewhere, "by_link"))
            self.calls("it is called by a link", *RAN, b"", script="./by_link", cwd=elsewhere)

    def test_newer(self):
        self.calls("there is no program", *RAN, BUILT)
        for path in ("crates/disk/src/lib.rt", "crates/disk/src", "crates/waffd/proofs/Lib.antt", "crates.txt"):
            self.tries_newer(path, NOT_RUN, b"", OLD)
        for path in ("crates/parts_tests/src/lib.rt", "crates/machine/src/lib.rt", "crates/machine/src",
                     "crates/disk/proofs/Examples.antt", "crates/disk/proofs", "crates/disk/must-fail/wrong.edit"):
            self.tries_newer(path, *RAN, b"")

    def test_without_stamp(self):
        self.calls("there is no program", *RAN, BUILT)
        self.remove("crates/waffd/out/built")
        self.calls("a program without a stamp", *RAN, b"")
        self.touch("crates/disk/src/lib.rt", 4000)
        self.calls("a source is newer than a program without a stamp", NOT_RUN, b"", OLD)

    def test_copies(self):
        self.calls("there is no program", *RAN, BUILT)
        copy = self.at("copy")
        shutil.copytree(self.tree, copy)  # with the times of the files
        self.calls("a copy of a built tree", *RAN, b"", cwd=copy)
        os.utime(os.path.join(copy, "crates/disk/src/lib.rt"))
        self.calls("a copy of a built tree with times of its own", NOT_RUN, b"", OLD, cwd=copy)
        shutil.rmtree(os.path.join(copy, "crates/waffd/out"))
        self.calls("a copy of the sources", *RAN, BUILT, cwd=copy)


# In the place of `rt`: the stamp of a crate is its source, with the stamps of those below it. The file NOTES has what
# was proved. A crate whose source has the word `wrong` isn't proved, and one with `slow` takes a minute.
RT = """#!/bin/sh
crate=${PWD##*/}
[ ! -e must-fail ] && [ -f ../../crates.txt ] && [ -f ../../HANDLES ] || exit 2
stamp=$(cat src/lib.rt)
for below in ../*; do
    [ "$below" = "../$crate" ] || stamp="$stamp, $(cat "$below/out/rlib/stamp")" || exit 3
done
kept=out/rlib/stamp
[ "$1" != run ] || kept=out/waffd.stamp
mkdir -p "${kept%/*}"
[ ! -f "$kept" ] || [ "$stamp" != "$(cat "$kept")" ] || exit 0
echo "$1 $crate" >> "$NOTES"
case $stamp in
*wrong*) echo "$crate has an open goal"; exit 1 ;;
*slow*) sleep 60 ;;
esac
echo "$stamp" > "$kept"
[ "$1" != run ] || echo "the program" > out/waffd
"""
WHOLE = "lib disk\nlib oplog\nrun waffd\n"


class Build(Case):
    """./build, in a tree of its own, with a script in the place of `rt`."""

    def setUp(self):
        super().setUp()
        for path, text in FILES.items():
            self.put_script(f"tree/{path}", text)
        self.put_script("bin/rt", RT)
        self.put_script("notes", "")
        os.mkdir(self.at("tmp"))
        shutil.copy(os.path.join(TOP, "build"), self.at("tree"))
        path = f"{self.at('bin')}:{os.environ['PATH']}"
        self.env = {"PATH": path, "NOTES": self.at("notes"), "TMPDIR": self.at("tmp")}

    def put_source(self, crate, text):
        self.put_script(f"tree/crates/{crate}/src/lib.rt", text)

    def is_there(self, path):
        return os.path.exists(self.at(f"tree/crates/{path}"))

    def notes(self):
        with open(self.at("notes"), encoding="utf-8") as file:
            return file.read()

    def builds(self, name, status, proved, *arguments):
        """A call that ends so, proves these crates, and leaves nothing in the folder for temporary files."""
        self.put_script("notes", "")
        with self.subTest(name):
            end = run(arguments, program=("./build",), cwd=self.at("tree"), env=self.env)
            self.has_ended(end, status, b"")
            self.assertEqual((self.notes(), os.listdir(self.at("tmp"))), (proved, []), end[2])

    def begins(self):
        """A call that goes on."""
        env = {**os.environ, **self.env}
        child = self.started(["./build"], cwd=self.at("tree"), env=env, stderr=subprocess.PIPE, text=True)
        self.addCleanup(child.stderr.close)
        return child

    def waits_for_notes(self, wanted):
        end = time.monotonic() + 10
        while self.notes() != wanted:
            self.assertLess(time.monotonic(), end, "it doesn't begin")
            time.sleep(0.01)

    def test_build(self):
        self.builds("an argument: nothing is built", 2, "", "anew")
        self.builds("the first build", 0, WHOLE)
        self.assertTrue(self.is_there("waffd/out/waffd") and self.is_there("waffd/out/built"))
        self.assertFalse(self.is_there("machine/out"))
        self.put_source("machine", "another")
        os.utime(self.at("tree/crates/waffd/out/built"), (1000, 1000))
        self.builds("nothing of the program has changed", 0, "")
        self.assertGreater(os.path.getmtime(self.at("tree/crates/waffd/out/built")), 1000)
        self.put_source("disk", "another")
        self.builds("a crate has changed", 0, WHOLE)
        shutil.rmtree(self.at("tree/crates/disk/out"))
        self.builds("what was made of a crate is gone: all libraries above are made over what is there now", 0,
                    "lib disk\nlib oplog\n")

    def test_refused(self):
        self.put_source("waffd", "wrong")
        self.builds("a crate isn't proved", 1, WHOLE)
        self.assertFalse(self.is_there("waffd/out"))
        self.put_source("waffd", "right")
        self.builds("what was proved is kept", 0, "run waffd\n")
        self.put_source("disk", "wrong")
        self.builds("a crate below isn't proved: none above is tried, and the program stays", 1, "lib disk\n")
        self.assertTrue(self.is_there("waffd/out/waffd"))

    def test_interrupted(self):
        self.put_source("waffd", "slow")
        child = self.begins()
        self.waits_for_notes(WHOLE)
        with self.subTest("a second call waits for the first"):
            other = self.begins()
            self.assertIn("waiting for another ./build", other.stderr.readline())
            other.send_signal(signal.SIGTERM)
            self.assertEqual((other.wait(10), self.notes()), (1, WHOLE))
        with self.subTest("an interrupt: nothing goes on, and what was proved is kept"):
            child.send_signal(signal.SIGINT)
            self.assertIn("interrupted", child.stderr.read())
            self.assertEqual((child.wait(10), os.listdir(self.at("tmp"))), (1, []))
        self.put_source("waffd", "right")
        self.builds("the next call goes on", 0, "run waffd\n")


# What ./try is given, and what it gives to `rt try`, where @ is the folder of the call.
TRIED = (
    ("plain --files 2", "plain --files 2"),
    ("format d --half 8", "format @/d --half 8"),
    ("format --half 8 d", "format --half 8 @/d"),
    ("serve --workers=2 d --slots 3", "serve --workers=2 @/d --slots 3"),
    ("show /d", "show /d"),
    ("serve --help", "serve --help"),
    ("", ""),
)


class Try(Case):
    """./try, in a folder of its own, with a script in the place of `rt`."""

    def setUp(self):
        super().setUp()
        self.put_script("rt", '#!/bin/sh\necho "$*"\npwd\ncat\n')
        os.makedirs(self.at("crates/waffd"))
        shutil.copy(os.path.join(TOP, "try"), self.folder)
        self.env = {"PATH": f"{self.folder}:{os.environ['PATH']}"}

    def tries(self, given, **streams):
        return run(given.split(), program=(self.at("try"),), cwd="/tmp", env=self.env, **streams)

    def test_arguments(self):
        """./try runs `rt try` in the folder of the program, with the whole path of a device."""
        there = os.path.realpath(self.at("crates/waffd"))
        for given, wanted in TRIED:
            output = f"try --seconds 3600 -- {wanted.replace('@', '/tmp')}".strip() + f"\n{there}\n"
            self.ends(f"./try {given}", self.tries(given), 0, output.encode(),
                      lambda text: b"is proved; it is compiled anew" in text and b"Ctrl-D" not in text)

    def test_a_terminal(self):
        """./try at a terminal tells how its lines end, and takes them to their end"""
        for given in ("plain", "serve d"):
            ours, theirs = os.openpty()
            os.write(ours, b"list 0 0\nsummary\n\x04")
            status, output, told = self.tries(given, stdin=theirs)
            self.assertEqual((status, output.splitlines()[2:]), (0, [b"list 0 0", b"summary"]))
            self.assertIn(b"Ctrl-D", told)
            os.close(ours)
            os.close(theirs)
