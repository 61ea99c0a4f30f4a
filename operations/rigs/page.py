"""The commands and the files of a page: what is run is what it says."""
import io
import os
import re
import tarfile
import textwrap

from tests.system.program import PROGRAM, TOP, bytes_of

BLOCK = re.compile(r"(?:^    .*\n|^\n(?=    ))+", re.M)  # lines that are indented, with empty ones in between
INSTALLED = re.compile(r"^ +install -D -m \d+ (\S+) (\S+)$", re.M)
BUILT = "crates/waffd/out/waffd"


class Page:
    """Pages of the repository as one text. What an operator has to change is changed in each block, as `changes` has
    it."""

    def __init__(self, *paths, changes=()):
        self.text = "".join(bytes_of(os.path.join(TOP, path)).decode() for path in paths)
        self.changes = changes

    def changed(self, block):
        text = textwrap.dedent(block).strip("\n") + "\n"
        for old, new in self.changes:
            text = text.replace(old, new)
        return text

    def blocks(self, after, count):
        """So many blocks behind these words, which may be on two lines."""
        words = re.search(r"\s+".join(map(re.escape, after.split())), self.text)
        found = BLOCK.findall(self.text[words.end():])[:count] if words else []
        if len(found) < count:
            raise ValueError(f"no page has such a block behind {after!r}")
        return [self.changed(block) for block in found]

    def block(self, after):
        """The first one."""
        return self.blocks(after, 1)[0]

    def below(self, heading, number):
        """The block of this number below a heading, before the next one."""
        part = re.search(rf"^#+ {re.escape(heading)}\n(.*?)(?=^#+ |\Z)", self.text, re.M | re.S)
        found = BLOCK.findall(part[1]) if part else []
        if len(found) <= number:
            raise ValueError(f"no page has block {number} below {heading!r}")
        return self.changed(found[number])

    def command(self, begin):
        """The command in a sentence that begins so."""
        words = r"\s+".join(map(re.escape, begin.split()))
        found = re.search(f"`({words}[^`]*)`", self.text)
        if not found:
            raise ValueError(f"no page has a command that begins with {begin!r}")
        return " ".join(found[1].split())

    def file(self, path):
        """The file that the page has for this path: the block behind its name and a colon."""
        return self.block(f"`{path}`:").encode()

    def installed(self):
        """What is installed: each file of the repository, and where it comes to be."""
        return INSTALLED.findall(self.text)

    def bring(self, guest):
        """Puts what is installed into the folder `repository` of a guest."""
        data = io.BytesIO()
        with tarfile.open(fileobj=data, mode="w") as tar:
            for name, _ in self.installed():
                tar.add(os.path.realpath(PROGRAM if name == BUILT else os.path.join(TOP, name)), name)
        guest.put("/root/repository.tar", data.getvalue())
        guest.does("mkdir -p repository && tar -xf repository.tar -C repository")
