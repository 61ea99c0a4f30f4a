"""The pages that ./statement makes: each definition that tests/lint/believe counts stands on its page once, each link
leads somewhere, and a browser asks for nothing else."""
import functools
import html.parser
import json
import os
import pathlib
import re
import shutil
import subprocess
import sys
import tempfile
import unittest
import urllib.parse

from .program import TOP, Case

STATEMENT = os.path.join(TOP, "statement")
BELIEVE = os.path.join(TOP, "tests", "lint", "believe")
APART = {"promise", "code", "library", "notation"}  # the parts of a page that have no counted definition
BROWSER = next(filter(None, map(shutil.which, ("chromium", "chromium-browser", "google-chrome"))), None)
QUIET = ("--headless=new", "--no-sandbox", "--disable-gpu", "--no-first-run", "--disable-background-networking",
         "--disable-component-update", "--proxy-server=127.0.0.1:9", "--enable-logging=stderr", "--dump-dom")
OF_THE_BROWSER = "not an origin"  # who asks where no page does
PLANTED = '<!DOCTYPE html><img src="http://nowhere.invalid/a"><script>console.log("planted")</script>'
WORD = re.compile(r"[^\s(){}\[\],;×⊎→∷≡≢≤≥<>|∙λ=:]+")


class Definition:
    """A definition on a page: the part in which it stands, its head, the names of its code that are links or are what
    it defines, and the rest of its code."""

    def __init__(self, part):
        self.part = part
        self.head = ""
        self.links = set()
        self.bare = ""

    def lacking(self):
        """The names of its file's `use` lines that stand in it without a link, but those that it binds."""
        path, _ = place_of(self)
        if not path.endswith(".antt"):
            return set()
        bound = {name for names in re.findall(r"^ +(?:pub )?(\S+) : |^ (.*?) = ", self.bare, re.M) for name in names}
        words = {name for word in WORD.findall(self.bare) for name in (word, word.split(".")[0])}
        return (words & imported(path)) - self.links - set(" ".join(bound).split())


class Parsed(html.parser.HTMLParser):
    """What stands on a page: its anchors, its links, the kinds of its elements and its definitions."""

    def __init__(self, text):
        super().__init__()
        self.anchors = []
        self.links = []
        self.tags = set()
        self.definitions = []
        self.part = None
        self.inside = []  # the elements around what is read
        self.feed(text)
        self.close()

    def counted(self):
        """The definitions that are counted."""
        return [definition for definition in self.definitions if definition.part not in APART]

    def handle_starttag(self, tag, attrs):
        found = dict(attrs)
        self.tags.add(tag)
        self.inside.append(tag)
        if "id" in found:
            self.anchors.append(found["id"])
        if tag == "a":
            self.links.append(found["href"])
        elif tag == "h2":
            self.part = found["id"]
        elif tag == "article":
            self.definitions.append(Definition(self.part))

    def handle_endtag(self, tag):
        while self.inside and self.inside.pop() != tag:  # some elements have no end
            pass

    def handle_data(self, data):
        if "article" not in self.inside:
            return
        last = self.definitions[-1]
        if "h3" in self.inside:
            last.head += data
        elif "pre" in self.inside and not {"details", "i"}.intersection(self.inside):
            if {"a", "b"}.intersection(self.inside):
                last.links.add(data)
            else:
                last.bare += data


def file_of(name):
    """The page of a row."""
    return f"{name.split('::')[-1]}.html"


def counted(names):
    """The definitions that each row counts, each as its file and its name."""
    printed = subprocess.run([BELIEVE, *names], capture_output=True, text=True, check=False).stdout
    found = {}
    row = None
    for line in printed.splitlines():
        head, _, rest = line.partition(": ")
        if line.startswith("  "):
            found[row] += [(head.strip(), word) for word in rest.split()]
        else:
            row = head
            found[row] = []
    return found


def place_of(definition):
    """The file and the name in the head of a definition: `Name path:line`."""
    name, place = definition.head.split()
    return place.partition(":")[0], name


@functools.cache
def imported(path):
    """The names that a file of definitions has from others of the repository."""
    crates = {crate.name for crate in pathlib.Path(TOP, "crates").iterdir()}
    text = pathlib.Path(TOP, path).read_text(encoding="utf-8")
    found = re.findall(r"^use Rattle\.(\w+)\.specs\.(?!contracts\.)[\w.]+\.\{([^}]*)\}", text, re.M)
    return {name.split(" as ")[-1].strip() for crate, names in found if crate in crates for name in names.split(",")}


def row_names():
    """The promises of the rows of README.md's table, as tests/lint/believe calls them."""
    text = pathlib.Path(TOP, "README.md").read_text(encoding="utf-8")
    return [found[1] for found in re.finditer(r"(\w+::\w+|all)`\)? \|(?: [\d,]+ \|){5}$", text, re.M)]


def pages_in(folder):
    """The pages of a folder by their names."""
    return {path.name: Parsed(path.read_text(encoding="utf-8")) for path in pathlib.Path(folder).glob("*.html")}


def opened(path, folder):
    """What a browser asks for on behalf of a page, and what it prints on its console."""
    log = os.path.join(folder, "log")
    own = (f"--user-data-dir={folder}/browser", f"--log-net-log={log}", f"file://{path}")
    end = subprocess.run([BROWSER, *QUIET, *own], capture_output=True, text=True, timeout=60, check=False)
    with open(log, encoding="utf-8") as file:
        events = json.load(file)["events"]
    requests = [event["params"] for event in events if "initiator" in event.get("params", {})]
    asked = [request["url"] for request in requests if request["initiator"] != OF_THE_BROWSER and "url" in request]
    return asked, [line for line in end.stderr.splitlines() if ":CONSOLE" in line]


class Statement(Case):
    @classmethod
    def setUpClass(cls):
        """The pages are made once."""
        folder = tempfile.TemporaryDirectory()
        cls.addClassCleanup(folder.cleanup)
        cls.made = pathlib.Path(folder.name)
        subprocess.run([STATEMENT, folder.name], stdout=subprocess.DEVNULL, check=True)
        cls.pages = pages_in(folder.name)

    def test_pages(self):
        names = row_names()
        with self.subTest("./statement makes a page of each row of the table"):
            self.assertEqual(sorted(self.pages), sorted(["index.html", *map(file_of, names)]))
        with self.subTest("each definition that a row counts stands on its page once, and no other"):
            rows = counted(names)
            self.assertEqual(list(rows), names)
            for name, wanted in rows.items():
                found = [place_of(definition) for definition in self.pages[file_of(name)].counted()]
                self.assertEqual(sorted(found), sorted(wanted), name)
        with self.subTest("each link of a page leads somewhere, and no anchor stands twice"):
            for file, page in self.pages.items():
                self.assertEqual(len(page.anchors), len(set(page.anchors)), file)
                self.assertEqual([link for link in page.links if not self.leads(file, link)], [], file)
        with self.subTest("each name that a definition has from elsewhere is a link"):
            for file, page in self.pages.items():
                lacking = {place_of(definition): definition.lacking() for definition in page.counted()}
                self.assertEqual({place: names for place, names in lacking.items() if names}, {}, file)
        with self.subTest("a page has no script, and takes in nothing"):
            for file, page in self.pages.items():
                self.assertFalse(page.tags & {"script", "link", "img", "iframe", "object"}, file)

    def test_without_a_kit(self):
        """without a kit the pages have the same definitions, and say which kit has the words that are no links"""
        words = [sys.executable, STATEMENT, self.folder]
        subprocess.run(words, env={"PATH": ""}, stdout=subprocess.DEVNULL, check=True)
        for file, page in pages_in(self.folder).items():
            found = [place_of(definition) for definition in page.counted()]
            self.assertEqual(found, [place_of(definition) for definition in self.pages[file].counted()])
            self.assertEqual([link for link in page.links if not self.leads(file, link)], [], file)
            self.assertNotIn("library", page.anchors)
        text = pathlib.Path(self.folder, file_of(row_names()[0])).read_text(encoding="utf-8")
        self.assertIn("No Rattle kit is installed here", text)

    def leads(self, file, link):
        """Whether a link of a file has its page and its anchor."""
        target, _, anchor = link.partition("#")
        page = self.pages.get(target or file)
        return page is not None and (not anchor or urllib.parse.unquote(anchor) in page.anchors)

    @unittest.skipUnless(BROWSER, "Chromium isn't installed")
    def test_browser(self):
        """a browser that opens these pages asks for nothing, and its console is silent"""
        for file in ("index.html", file_of(row_names()[0])):
            self.assertEqual(opened(self.made / file, self.folder), ([], []), file)
        planted = pathlib.Path(self.folder, "planted.html")
        planted.write_text(PLANTED, encoding="utf-8")
        asked, printed = opened(planted, self.folder)
        self.assertEqual((asked, len(printed)), (["http://nowhere.invalid/a"], 1), "of a page that asks and prints")
