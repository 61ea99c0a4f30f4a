"""The manual page, operations/waffd.1: its lists are those of the sources and of the pages, and mandoc takes it."""
import os
import re
import shutil
import subprocess
import unittest

from .house import COMMAND_LINE, OPTION, read_source
from .program import TOP, Case

MANUAL = "operations/waffd.1"
COMMAND = re.compile(r'^    \("(\w+)", [A-Z]+, (?:true|false), &', re.M)  # a row of COMMANDS
KEYWORD = re.compile(r'is_keyword\(word, b"(\w+)"\)')
TEXT = re.compile(r'#\[error\("(.*?)"\)\]')
FAULTS = ("crates/commands/src/faults.rt", "crates/recovery/src/fault.rt")
ROW = re.compile(r"^\| (`[^|]*`) \| (\d) \|", re.M)  # of the table of faults on docs/program.md
NUMBERS = {"bad piece {0}": "bad piece N", "bad record {0} {1}": "bad record H I"}


class Manual(Case):
    def setUp(self):
        super().setUp()
        self.page = read_source(MANUAL)

    def items(self, part, kind):
        """The items of a kind in a part of the page, each with what stands below it up to the next one."""
        text = self.page.partition(f"\n.Sh {part}\n")[2].partition("\n.Sh ")[0]
        return re.findall(rf"^\.It {kind} (.*)\n((?:(?!\.It|\.El).*\n)*)", text, re.M)

    def test_commands(self):
        """it has the commands of the program"""
        commands = [name for name, _ in self.items("DESCRIPTION", "Cm")]
        self.assertEqual(commands, [*COMMAND.findall(read_source(COMMAND_LINE)), "help"])

    def test_options(self):
        """it has each option with its limits and its default, as help prints them; no server has 0 workers"""
        wanted = {name: numbers for name, *numbers, _, _ in OPTION.findall(read_source(COMMAND_LINE))}
        wanted["workers"][0] = "1"
        found = {}
        for name, text in self.items("DESCRIPTION", "Fl"):
            found[name.removeprefix("-").removesuffix(" Ar NUMBER")] = re.findall(r"\d+", text.replace("With 0", ""))
        wanted["every"].pop()  # its text has no second number
        self.assertEqual(found, wanted)

    def test_messages(self):
        """it has the form of each message as the protocol's page has it, and each keyword of the source"""
        block = re.search(r"^    makevol A V(?:.*\n)+?\n", read_source("docs/protocol.md"), re.M)[0]
        forms = sorted(form for line in block.splitlines() for form in re.split(r" {2,}", line.strip()) if form)
        found = sorted(form for form, _ in self.items("MESSAGES", "Li") if not form.startswith("error "))
        self.assertEqual(found, forms)
        keywords = set(KEYWORD.findall(read_source("crates/message/src/parsing.rt")))
        self.assertEqual({form.split()[0] for form in found}, keywords)

    def test_refusals(self):
        """it has each refusal of the protocol's page"""
        line = re.search(r"^- refused: (.*(?:\n  .*)*)", read_source("docs/protocol.md"), re.M)[1]
        found = [form for form, _ in self.items("MESSAGES", "Li") if form.startswith("error ")]
        self.assertEqual(found, re.findall(r"`(error \w+)`", line))

    def test_faults(self):
        """it has each text of a fault, with the status that docs/program.md gives for it"""
        texts = {NUMBERS.get(text, text) for path in FAULTS for text in TEXT.findall(read_source(path))}
        statuses = {text: status for cell, status in ROW.findall(read_source("docs/program.md"))
                    for text in re.findall(r"`([^`]+)`", cell)}
        found, waiting = {}, []
        for text, below in self.items("DIAGNOSTICS", "Li"):
            waiting.append(text)
            if below:  # several texts may share what is below the last of them
                found.update(dict.fromkeys(waiting, below[1]))
                waiting = []
        self.assertEqual(found, {text: statuses[text] for text in texts})

    @unittest.skipUnless(shutil.which("mandoc"), "mandoc isn't installed")
    def test_form(self):
        """mandoc has nothing to say about it"""
        words = ["mandoc", "-T", "lint", os.path.join(TOP, MANUAL)]
        end = subprocess.run(words, capture_output=True, text=True, check=False)
        self.assertEqual(end.stdout, "")
