"""Each request for memory of the program is refused in turn, and each thread: then nothing was read, and the device
is as it was, or as opening it leaves it."""
import os

from .program import EACH_KIND, NO_MEMORY, Case, bytes_of, is_beginning, put_bytes, run
from .servers import File

# For memory, of a server: what is read, the reorder buffer, the core, the bench and the answers among them.
LEAST_REQUESTS = 10
# The allocator asks the C library for more than one value at a time, and for less where that is refused. So a run to
# which one request is refused may end well, and then as it would have; none does to which all are refused.
MAY_END_WELL = {"REFUSE_ONE": True, "REFUSE_FROM": False, "REFUSE_THREAD": False}


# Lines that make four files of 64 blocks each.
MANY_LINES = b"".join([
    *(b"makevol 0 %d\ncreate 0 %d 0\n" % (v, v) for v in range(4)),
    *(b"write 0 %d 0 %d 61\n" % (v, b) for v in range(4) for b in range(64)),
    b"summary\n"])
COMMANDS = (
    ("plain", EACH_KIND), ("plain", MANY_LINES), ("plain --files 2", b""), ("--help", b""), ("--version", b""),
    ("help plain", b""), ("plain --what", b""), ("plain --files 0", b""), ("", b""), ("format DEVICE", b""),
    ("show DEVICE", b""))
SERVERS = (("--workers 1 --slots 1", 1), ("", 2), ("--workers 64 --slots 1024 --every 2", 64))  # with their threads


class Memory(Case):
    """Each request of a run is refused in turn, alone or with all behind it."""

    def setUp(self):
        super().setUp()
        self.refusing = self.between("refuse.c")

    def test_commands(self):
        for words, given in COMMANDS:
            for turn in ("REFUSE_ONE", "REFUSE_FROM"):
                self.refuse_to_a_command(turn, words, given)

    def refuse_to_a_command(self, turn, words, given):
        """Checks a command to which each request for memory is refused."""
        arguments = words.replace("DEVICE", self.at("device")).split()
        good = run(arguments, given)

        def attempt(number):
            return self.refusing.run(turn, number, arguments, given)

        def may_be_printed(output):
            return is_beginning(output, good[1]) if given else not output

        def judge(end):
            if end != good or not MAY_END_WELL[turn]:
                self.has_ended(end, 3, may_be_printed, NO_MEMORY)

        self.each(f"{turn}: {words or 'no words'}, {len(given)} bytes", 1, attempt, judge)

    def test_serve(self):
        file = File(self.folder)
        put_bytes(self.at("given"), EACH_KIND)
        with open(self.at("given"), "rb", buffering=0) as given:
            for options, threads in SERVERS:
                for turn in MAY_END_WELL:
                    self.refuse_to_a_server(turn, file, given, options, threads)

    def refuse_to_a_server(self, turn, file, given, options, threads):
        """Checks a server to which each request, or each of its threads, is refused."""
        words = ["serve", file.path, *options.split()]
        file.format()
        good = run(words, EACH_KIND)

        def attempt(number):
            file.format()
            given.seek(0)
            return self.refusing.run(turn, number, words, stdin=given)

        def judge(end):
            if end == good and MAY_END_WELL[turn]:
                return
            self.has_ended(end, 3, b"", NO_MEMORY)
            self.assertEqual(os.lseek(given.fileno(), 0, os.SEEK_CUR), 0, "it has read so many bytes")
            self.assertIn(bytes_of(file.path), (file.formatted, file.opened), "the device has other bytes")

        is_of_threads = turn == "REFUSE_THREAD"
        least = threads if is_of_threads else LEAST_REQUESTS
        count = self.each(f"{turn}, nothing is read: serve {options}", least, attempt, judge)
        if is_of_threads:
            self.assertEqual(count, threads)
