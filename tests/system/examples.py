"""The commands that the pages show as examples print what the page has.

An example is an indented block whose first line begins with `$ `. Each line of it that does is a command. The
commands of a page are run in order in one empty folder, where `./waffd` is the program. Below a command is what it
prints, line by line; what is behind two blanks is a remark. Below `plain` and `serve` are lines with their replies:
each reply below its line, or, where the first line has something beside it, all replies beside their lines. A line is
sent when the reply before it has come, and at last the input ends. Where the last line is `Killed`, the process is
killed instead. A command of NOT_RUN isn't run. An indented block whose first line begins with `import ` is a program
in Python, which has to end well and print nothing.
"""
import contextlib
import glob
import os
import re
import shlex
import signal
import subprocess
import sys
import tempfile
import textwrap

from .program import PATIENCE, PROGRAM, TOP, Case, read_until

PROMPT = "    $ "
BLOCK = re.compile(r"(?<=\n\n)    \$ .*\n(?:(?:    .*)?\n)*")
RUN = "./waffd"
NOT_RUN = ("rt", "./build", "./try", "./check", "tests/run")  # they prove, compile all of it, or make these checks
CONVERSE = ("plain", "serve")
KILLED = "Killed"
BESIDE = re.compile(r" {2,}")
PYTHON = re.compile(r"^\n((?: {4}import .*\n)(?: {4}.*\n|\n)*)", re.M)


def examples(text):
    """The commands of a page: the number of the line, the command, and the lines below it, each as its columns."""
    found = []
    for block in BLOCK.finditer(text):
        for number, line in enumerate(block[0].splitlines(), text.count("\n", 0, block.start()) + 1):
            if line.startswith(PROMPT):
                found.append((number, BESIDE.split(line[len(PROMPT):])[0], []))
            elif line.strip():
                found[-1][2].append(BESIDE.split(line.strip()))
    return found


def pairs_of(rows):
    """Lines with their replies: side by side, or below each other."""
    if rows and len(rows[0]) > 1:
        return [(row[0], row[1] if len(row) > 1 else "") for row in rows]
    cells = [row[0] for row in rows]
    return list(zip(cells[::2], cells[1::2] + [""]))


class Examples(Case):
    """The commands and the programs of the pages."""

    def converse(self, child, rows):
        """Sends each line and waits for its reply. The status with which the process has to end."""
        is_killed = bool(rows) and rows[-1][0] == KILLED
        if is_killed:
            rows = rows[:-1]
        for line, reply in pairs_of(rows):
            with contextlib.suppress(BrokenPipeError):  # it has ended, so nothing is read below
                child.stdin.write(line.encode() + b"\n")
            found = read_until(child.stdout, lambda found: found.endswith(b"\n"))
            self.assertEqual(found.decode(errors="replace").rstrip("\n"), reply, f"the reply to {line!r}")
        if not is_killed:
            return 0
        child.kill()
        return -signal.SIGKILL

    def runs(self, words, rows, folder):
        """Asserts that a command prints these rows, or answers their lines."""
        streams = {"stdin": subprocess.PIPE, "stdout": subprocess.PIPE, "stderr": subprocess.STDOUT}
        child = self.started(words, cwd=folder, bufsize=0, **streams)
        status = 0
        wanted = [row[0] for row in rows]
        if words[1:2] and words[1] in CONVERSE:
            status = self.converse(child, rows)
            wanted = []
        printed = child.communicate(timeout=PATIENCE)[0].decode(errors="replace").splitlines()
        self.assertEqual(printed, wanted)
        self.assertEqual(child.returncode, status)

    def programs_of(self, name, text, folder):
        """Checks the programs in Python of a page, each with a device `d`."""
        for found in PYTHON.finditer(text):
            line = text.count("\n", 0, found.start(1)) + 1
            with self.subTest(f"{name}:{line}: a program in Python"):
                self.runs([RUN, "format", "d"], [["formatted 1332608"]], folder)
                self.runs([sys.executable, "-c", textwrap.dedent(found[1])], [], folder)
                os.unlink(os.path.join(folder, "d"))

    def commands_of(self, name, text, folder):
        """Checks the commands of a page: how many were run."""
        count = 0
        for line, command, rows in examples(text):
            words = shlex.split(command)
            if words[0] in NOT_RUN:
                continue
            count += 1
            with self.subTest(f"{name}:{line}: {command}"):
                self.assertEqual(words[0], RUN, "nothing here runs it")
                self.runs(words, rows, folder)
        return count

    def test_pages(self):
        count = 0
        for path in (f"{TOP}/README.md", f"{TOP}/CONTRIBUTING.md", *sorted(glob.glob(f"{TOP}/docs/*.md"))):
            name = os.path.relpath(path, TOP)
            with open(path, encoding="utf-8") as page:
                text = page.read()
            with tempfile.TemporaryDirectory() as folder:
                os.symlink(os.path.abspath(PROGRAM), os.path.join(folder, "waffd"))
                self.programs_of(name, text, folder)
                count += self.commands_of(name, text, folder)
        self.assertTrue(count, "no command was run")
