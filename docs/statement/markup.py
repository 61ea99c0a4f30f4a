"""The pages as HTML."""
import html
import pathlib
import re
import textwrap
import urllib.parse

from content import promise_name
from library import TOP, believe
from sources import bound_in, comment_above, head_of, signature

READING = TOP / "docs" / "reading-contracts.md"
STYLE = pathlib.Path(__file__).with_name("style.css")
# A line of code: a name of a field, which is no citation, the code, and a comment.
LINE = re.compile(r"( +(?:pub )?\w+(?= : ))?(.*?)((?:(?:^|(?<=\s))--(?=\s)|//).*)?")
KIT = re.compile(r"Proved with\s+`([^`]*)`")


def escaped(text):
    return html.escape(text, quote=False)


def prose(text):
    """A comment, or a cell of a page, as HTML: of its marks only those of code and of what is bold are kept."""
    text = re.sub(r"\[([^\]]+)\]\([^)]+\)", r"\1", escaped(text))
    text = re.sub(r"`([^`]*)`", r"<code>\1</code>", text)
    return re.sub(r"\*\*([^*]+)\*\*", r"<b>\1</b>", text)


def first_sentence(text):
    return re.match(r".*?[.:](?=\s|$)|.*", " ".join(text.split()))[0]


def heading(page):
    """What a page answers, as a heading."""
    return prose(page.row.asks[0].upper() + page.row.asks[1:])


def notation():
    """The table of docs/reading-contracts.md under "The notation", the list below it, and the paragraphs on laws and on
    devices, which begin with what they are about in bold letters."""
    part = believe.read(READING).partition("## The notation\n")[2].partition("\n## ")[0]
    rows = re.findall(r"^\| (.*?) \| (.*) \|$", part, re.M)[1:]
    first_list = re.search(r"^(?:- .*\n(?:  .*\n)*)+", part, re.M)[0]
    items = re.findall(r"^- (.*(?:\n  .*)*)", first_list, re.M)
    table = "".join(f"<tr><td>{prose(sign)}</td><td>{prose(meaning)}</td></tr>\n" for sign, meaning in rows)
    rest = "".join(f"<li>{prose(item)}</li>\n" for item in items)
    paragraphs = "".join(f"<p>{prose(found)}</p>\n" for found in re.findall(r"^\*\*.*(?:\n.+)*", part, re.M))
    return f"<table>\n{table}</table>\n<ul>\n{rest}</ul>\n{paragraphs}"


def dedented(clause):
    """A clause whose first line begins at the margin and whose others stand as in the source."""
    first, newline, more = clause.partition("\n")
    return first + newline + textwrap.indent(textwrap.dedent(more), "    ")


def comment_of_clause(lines, number, clause):
    """The lines of comment above a clause of the function in this line."""
    first = clause.partition("\n")[0]
    place = next((at for at, line in enumerate(lines[number - 1:], number) if line.strip().startswith(first)), None)
    comment = comment_above(lines, place) if place and place > number else ""
    return [f"// {line}" for line in comment.splitlines()]


def document(title, contents, body):
    """A whole page, with its contents at the side."""
    style = STYLE.read_text(encoding="utf-8")
    return f"""<!DOCTYPE html>
<html lang="en">
<head>
<meta charset="utf-8">
<meta name="viewport" content="width=device-width, initial-scale=1">
<title>{escaped(title)}</title>
<style>
{style}</style>
</head>
<body>
<nav>
{contents}
</nav>
<main>
{body}
</main>
</body>
</html>
"""


class Site:
    """All pages. It knows on which of them a definition stands."""

    def __init__(self, sources, pages):
        self.sources = sources
        self.pages = pages
        self.kit = KIT.search(believe.read(believe.PAGE))[1]
        self.keeps = sources.tree.types[believe.KEEPS]
        self.notation = notation()

    # ---- names

    def link(self, page, word, text):
        """A name as a link to where it stands: on this page, or on the first that has it."""
        mark = ""
        file = ""
        if word in page.others:
            mark = ' class="library"' if self.sources.is_of_kit(word) else ""
        elif word not in page.seen:
            file = next((other.file for other in self.pages if word in other.seen), None)
        if file is None:
            return escaped(text)
        return f'<a{mark} href="{file}#{urllib.parse.quote(self.sources.anchor(word))}">{escaped(text)}</a>'

    def links(self, page, words):
        return ", ".join(self.link(page, word, word.name) for word in words)

    def promise_link(self, page, promise):
        return f'<a href="#{page.anchors[promise]}">{escaped(promise_name(promise))}</a>'

    def code(self, page, module, text, own=None):
        """Code with its names as links, and its comments marked. `own` is the word that it defines."""
        bound = bound_in(text, own.name if own else "")
        lines = []
        for line in text.split("\n"):
            field, code, comment = LINE.fullmatch(line).groups()
            parts = [escaped(field or "")]
            for piece, word in self.pieces(page, module, code, own, bound):
                if word == own and own is not None:
                    parts.append(f"<b>{escaped(piece)}</b>")
                else:
                    parts.append(self.link(page, word, piece) if word else escaped(piece))
            lines.append("".join(parts) + (f"<i>{escaped(comment)}</i>" if comment else ""))
        return "\n".join(lines)

    def pieces(self, page, module, code, own, bound):
        """The pieces of a line with the words that they mean. In a declared type the names are those of types."""
        if own is None or own.path.suffix != ".rt":
            for piece, word in self.sources.pieces(module, code, bound):
                yield piece, self.keeps if re.fullmatch(r"D\.(keeps|medium)", piece) else word
            return
        names = {word.name: word for word in [*page.cites.get(own, ()), own]}
        yield from ((piece, names.get(piece)) for piece in re.split(r"(\w+)", code))

    # ---- parts of a page

    def definition(self, page, word):
        """A definition with its comment, what cites it and the rows that work it out."""
        sources = self.sources
        comment, text = sources.shown(word)
        citing = [self.link(page, other, other.name) for other in page.citing[word]]
        citing += [self.promise_link(page, promise) for promise in page.promises if word in page.roots[promise]]
        return "\n".join(filter(None, [
            f'<article id="{escaped(sources.anchor(word))}">',
            f"<h3>{escaped(word.name)} <small>{escaped(sources.place(word))}</small></h3>",
            comment and f"<p>{prose(comment)}</p>",
            f"<pre>{self.code(page, sources.module_of(word), textwrap.dedent(text), word)}</pre>",
            self.worked(page, page.rows.get(word)),
            citing and f'<p class="cited">Cited by {", ".join(citing)}.</p>',
            "</article>"]))

    def worked(self, page, rows):
        """The worked rows of a definition, folded, with what the proofs define for them."""
        if not rows:
            return ""
        lines = [self.equation(page, row) for row in rows]
        helpers = page.worked.helpers(rows)
        if helpers:
            lines.append("<i>where</i>")
            lines += [self.code(page, self.sources.module_of(word), self.sources.shown(word)[1]) for word in helpers]
        text = "\n".join(lines)
        return f"<details><summary>Worked out, as the prover computed it</summary><pre>{text}</pre></details>"

    def equation(self, page, row):
        first, *more = page.worked.equation(row)
        text = "\n".join([first, *(f"    {line}" for line in more)])
        return self.code(page, self.sources.module_of(row), text)

    def promise(self, page, promise):
        """A law, or clauses of a function, below what binds them."""
        lines = believe.read(promise.path).splitlines()
        comment = comment_above(lines, promise.line)
        is_law = next((line for line in lines[promise.line:] if line.startswith(("{", "}"))), "") == "{}"
        if is_law:
            kind, says = "Law", f"A theorem over definitions alone. {' '.join(comment.split())}"
        elif all(clause.startswith("requires") for clause in promise.clauses):
            kind, says = "Conditions of", f"Proved wherever it is called. {first_sentence(comment)}"
        else:
            kind, says = "Contract of", f"Proved of the function's body, for every call. {first_sentence(comment)}"
        place = f"{promise.path.relative_to(TOP)}:{promise.line}"
        module = believe.module_of(promise.path)
        code = [self.head(page, promise)]
        for clause in promise.clauses:
            above = comment_of_clause(lines, promise.line, clause)
            code += [f"<i>{escaped(line)}</i>" for line in above]
            code.append(self.code(page, module, dedented(clause)))
        return "\n".join([
            f'<article id="{page.anchors[promise]}">',
            f"<h3>{kind} {escaped(promise_name(promise))} <small>{place}</small></h3>",
            f"<p>{prose(says)}</p>",
            "<pre>" + "\n".join(filter(None, code)) + "</pre>",
            "</article>"])

    def head(self, page, promise):
        """The head of a function, its types as links."""
        names = {word.name: word for word in page.types[promise]}
        pieces = re.split(r"(\w+)", "\n".join(signature(promise)))
        linked = (self.link(page, names[piece], piece) if piece in names else escaped(piece) for piece in pieces)
        return f"<i>{''.join(linked)}</i>" if pieces != [""] else ""

    def sections(self, page):
        """The parts of a page behind the promise: the anchor, the title and a sentence of each, and its words."""
        for number, (path, words) in enumerate(page.files().items(), 1):
            title = path.relative_to(TOP / "crates").as_posix().replace("/specs/", "/").replace("/src/", "/")
            yield f"file-{number}", title, head_of(path), words
        vocabulary = page.ordered(page.vocabulary())
        if vocabulary:
            yield "vocabulary", "Vocabulary", "More than a fifth of the definitions cite these.", vocabulary
        of_code = page.of_code()
        if of_code:
            sentence = "Types that functions take or give, constants, and private types. They aren't counted."
            yield "code", "Of the code", sentence, of_code
        words = page.library()
        if words:
            yield "library", "Words of the library", f"As {self.kit} defines them. They aren't counted.", words

    def page(self, page):
        """The page of a row."""
        sections = [("promise", "What is promised", "", ()), *self.sections(page), ("notation", "Notation", "", ())]
        contents = ['<p class="section"><a href="index.html">All pages</a></p>']
        for anchor, title, _, words in sections:
            contents.append(f'<p class="section"><a href="#{anchor}">{escaped(title)}</a></p>')
            contents.append(f"<p>{self.links(page, words)}</p>" if words else "")
        body = [f"<h1>{heading(page)}</h1>", self.introduction(page)]
        for anchor, title, sentence, words in sections:
            body.append(f'<h2 id="{anchor}">{escaped(title)}</h2>')
            body.append(f"<p>{prose(sentence)}</p>" if sentence else "")
            body += [self.definition(page, word) for word in words]
            if anchor == "promise":
                body += [self.promise(page, promise) for promise in page.promises]
        body.append(self.notation)
        return document(f"{page.row.name} of waffd", "\n".join(filter(None, contents)), "\n".join(filter(None, body)))

    def introduction(self, page):
        """What the page is, what it has, and what it leaves out."""
        definitions, lines, files, crates, _ = self.sources.tree.counts(page.seen)
        text = (f"<p>Of <code>waffd</code>, for {escaped(page.row.reader)}: what is promised, and behind it the "
                f"{definitions:,} definitions, {lines:,} lines in {files} files of {crates} crates, that give it its "
                'meaning. The signs are explained under <a href="#notation">Notation</a>.</p>')
        if page.left_open():
            text += f"\n<p>Cited here, and left to other pages: {self.links(page, page.left_open())}.</p>"
        if self.sources.kit.folder is None:
            text += (f"\n<p>No Rattle kit is installed here, so the words of its library stand without their "
                     f"definitions. The proofs are made with {self.kit}.</p>")
        return text

    def index(self):
        """The page that leads to the others."""
        rows = "".join(
            f'<tr><td>{prose(page.row.reader)}</td><td><a href="{page.file}">{prose(page.row.asks)}</a></td>'
            f"<td>{prose(page.row.contract)}</td><td>{len(page.seen):,}</td></tr>\n" for page in self.pages)
        body = ("<h1>What is proved of waffd</h1>\n<p>A page for each row: what is promised, and each definition that "
                "has to be read to believe it.</p>\n<table>\n<tr><th>who</th><th>asks</th><th>contract</th>"
                f"<th>definitions</th></tr>\n{rows}</table>")
        links = "\n".join(f'<p class="section"><a href="{page.file}">{heading(page)}</a></p>' for page in self.pages)
        return document("What is proved of waffd", links, body)
