"""The crates' own tests where memory or threads are refused, or beside busy threads."""
import functools
import os
import resource
import signal
import struct
import subprocess
import sys

from .program import MOST_TURNS, TOP, Case, bytes_of, run

FAILED_TEST = (101, -signal.SIGABRT)  # by an error that it answered, or by an assertion
LONGEST_TEST = 60  # seconds
# Without memory a session writes what it has answered. Where the writer of the one test with such numbers refuses
# that too, nothing else is reported than the last of these.
MEMORY_WORDS = (b"AllocError", b"OutOfMemory", b"out of memory", b"AllocFailed", b"left: (Err(Write), 1, ")


@functools.lru_cache(maxsize=None)
def tests_of(folder):
    """The program of a crate of tests and their names. TESTS=built takes the one that `rt ci` has built, where there
    is one."""
    path = os.path.join(TOP, "crates", folder)
    program = os.path.join(path, "out", folder + "_tests")
    if os.environ.get("TESTS") != "built" or not os.access(program, os.X_OK):
        streams = {"stdout": subprocess.PIPE, "stderr": subprocess.STDOUT}
        built = subprocess.run(["rt", "test"], cwd=path, text=True, check=False, **streams)
        if built.returncode != 0:
            raise AssertionError(f"tests of {folder}: {built.stdout[-1000:]}")
    lines = subprocess.run([program, "--list"], capture_output=True, text=True, check=True).stdout.splitlines()
    return program, [line.removesuffix(": test") for line in lines if line.endswith(": test")]


def run_test(program, test, env):
    """How one test ends."""
    return run([test], env=env, program=(program,), timeout=LONGEST_TEST)


class Refused(Case):
    """Tests to which requests are refused."""

    def setUp(self):
        super().setUp()
        self.refusing = self.between("refuse.c")

    def named(self, name):
        """The program and the test of CRATE::TEST."""
        folder, _, last = name.partition("::")
        program, tests = tests_of(folder)
        found = [test for test in tests if test.endswith("::" + last)]
        self.assertTrue(found, f"there is no test {name}")
        return program, found[0]

    def met(self, program, test, turn, has_to_pass):
        """How many requests of this kind the test makes, each refused in turn: it passes, or fails for want of
        memory. Of tests that have to pass only those count that do."""
        count = 0
        for number in range(1, MOST_TURNS):
            status, _, faults = run_test(program, test, self.refusing.env(**{turn: number}))
            if not self.refusing.happened():
                return count
            is_for_want = status in FAILED_TEST and any(word in faults for word in MEMORY_WORDS)
            if status != 0 and not is_for_want:
                self.fail(f"{test}, request {number}: status {status}, {faults[-300:]}")
            if status == 0 or not has_to_pass:
                count += 1
        self.fail("too many requests")


# Tests that make a call again to which memory was refused, and how many requests of the call there have to be at
# least: counted by hand in the sources, but of `serve`, of which this is less. Any other request that is refused
# fails such a test, so where it passes the call was refused.
MADE_AGAIN = {
    "serial_tests::lines_are_answered_at_the_next_try": 5,
    "serial_tests::beside_a_stripe_that_is_out": 11,
    "parts_tests::three_slots_and_two_chains": 3,
    "parts_tests::a_device_in_memory_is_made_at_the_next_try": 8,
    "parts_tests::a_run_queue_is_made_at_the_next_try": 7,
    "parts_tests::a_bench_is_opened_at_the_next_try": 9,
    "durability_tests::a_refused_log_is_made_at_the_next_try": 1,
    "durability_tests::a_device_is_made_at_the_next_try": 1,
    "durability_tests::a_device_is_inspected_at_the_next_try": 13,
    "durability_tests::a_device_is_opened_at_the_next_try": 17,
    "machine_tests::a_core_takes_its_own_memory_before_it_calls_the_device": 12,
    "machine_tests::a_core_is_opened_at_the_next_try": 29,
    "machine_tests::a_machine_is_made_at_the_next_try": 1,
    "server_tests::lines_are_served_at_the_next_try": 10,
}
WITH_THREADS = {"server_tests::lines_are_served_at_the_next_try": 3}  # to which threads were refused
# Tests that print on standard output between which lines they may ask for no memory.
ASK_FOR_NONE = (
    "machine_tests::a_full_log_and_its_point_take_no_memory",
    "machine_tests::two_writes_side_by_side_take_no_memory",
    "machine_tests::a_cut_takes_no_memory")


class Calls(Refused):
    """Each request for memory of a call is refused in turn, in a test that makes the call again on what was given
    back: of `serve`, and there each thread too, nothing was read or written at the refusal; of the opening of a
    device, by a core and by a journal, of `format` and of `inspect` the device has its bytes, and a core's own memory
    comes before its first call of the device; of the serial server whole lines were written; a machine; a bench; and
    the parts below them. The second call does what it has to. Requests are counted too where worked lists of steps
    may make none behind the opening."""

    def test_calls_are_made_again(self):
        for turn, wanted in (("REFUSE_ONE", MADE_AGAIN), ("REFUSE_THREAD", WITH_THREADS)):
            for name, least in wanted.items():
                with self.subTest(f"{name}: {turn}, {least} at least"):
                    self.assertGreaterEqual(self.met(*self.named(name), turn, True), least)

    def test_no_request(self):
        for name in ASK_FOR_NONE:
            with self.subTest(f"{name}: no request for memory"):
                program, test = self.named(name)
                self.has_ended(run_test(program, test, self.refusing.env(COUNTED=self.at("counted"))), 0)
                before, between_them = struct.unpack("2q", bytes_of(self.at("counted")))
                self.assertGreater(before, 0)
                self.assertEqual(between_them, 0, f"behind {before}")


# Where their tests are, and what the names of those begin with.
TAKE_MEMORY = {
    "plain": ("serial_tests", "plain_"),
    "parcel": ("serial_tests", "parcel_"),
    "arena": ("parts_tests", "arena_"),
    "disk": ("parts_tests", "disk_"),
    "workers": ("parts_tests", "workers_"),
    "oplog": ("durability_tests", "oplog_"),
    "checkpoint": ("durability_tests", "checkpoint_"),
    "machine": ("machine_tests", ""),
}
STARTS_THREADS = "a_bench_with_no_job_starts_and_ends"
# Where a crate has such a test it alone is tried, since the others make too many requests: so do those beside the
# opening of a device and beside worked lists of steps, which take memory only before their first step.
ALONE = (STARTS_THREADS, "a_device_is_opened_at_the_next_try", "steps_come_out_so")
# What is refused, and how many requests of that kind the tests that are tried have to make at least.
TURNS = {"REFUSE_ONE": 1, "REFUSE_FROM": 1, "REFUSE_THREAD": 3}


class Crates(Refused):
    """As memory, for each test of the crates with calls that take memory: it passes, or reports that there was no
    memory. Of a bench each thread is refused too, and it has to end. CRATES="NAME.." tries those crates alone."""

    def test_crates(self):
        for name in os.environ.get("CRATES", "").split() or TAKE_MEMORY:
            folder, begin = TAKE_MEMORY[name]
            program, tests = tests_of(folder)
            tests = [test for test in tests if test.startswith(begin)]
            tried = [test for test in tests if test.endswith(ALONE)] or tests
            has_threads = any(test.endswith(STARTS_THREADS) for test in tried)
            for turn, least in TURNS.items():
                if turn == "REFUSE_THREAD" and not has_threads:
                    continue
                with self.subTest(f"tests of {name}, {turn}"):
                    count = sum(self.met(program, test, turn, False) for test in tried)
                    self.assertGreaterEqual(count, least)


# The tests of each crate whose names begin so.
MEETINGS = (("parts_tests", "workers_"), ("server_tests", "serving_overlap::"))
BUSY_A_PROCESSOR = 4
PROCESSORS = 2  # on which threads meet: so a thread is held up there as on any number
ROUNDS = 20  # of the two tests that make many


class Loaded(Case):
    """The tests in which threads meet, on two processors beside eight busy threads, so that a thread is held up at
    any of its steps: a wake-up that is lost there shows as a test that doesn't end within a minute. The two long ones
    make 20 rounds."""

    def meetings(self):
        """The tests in which threads meet, each with its crate and its program. Each of the crates has one."""
        found = []
        for folder, begin in MEETINGS:
            program, tests = tests_of(folder)
            of_crate = [(folder, program, test) for test in tests if test.startswith(begin)]
            self.assertTrue(of_crate, f"no test of {folder} has such a name")
            found += of_crate
        return found

    def keep_busy(self, processors, seconds):
        """Starts busy threads, none of which takes longer."""
        def limit():
            resource.setrlimit(resource.RLIMIT_CPU, (seconds, seconds))

        for _ in range(BUSY_A_PROCESSOR * processors):
            self.started([sys.executable, "-c", "while True: pass"], preexec_fn=limit)

    def test_meetings(self):
        meetings = self.meetings()
        before = os.sched_getaffinity(0)
        os.sched_setaffinity(0, sorted(before)[:PROCESSORS])
        self.addCleanup(os.sched_setaffinity, 0, before)
        self.keep_busy(min(PROCESSORS, len(before)), LONGEST_TEST * len(meetings))
        for folder, program, test in meetings:
            with self.subTest(f"{folder}, {test} beside busy threads"):
                self.has_ended(run_test(program, test, {"BENCH_ROUNDS": str(ROUNDS)}), 0)
