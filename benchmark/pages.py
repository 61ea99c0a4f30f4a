"""What the pages show of the file of figures, each part between two comments: `<!-- figures: NAME -->` and `<!-- end
of figures -->`."""
import pathlib
import re
import textwrap
from datetime import date
from statistics import median

from figures_file import (
    EVERY, GEOMETRIES, MORE_READS, OF_WAFFD, ORDINARY, PATH, PIPED, PLAIN, SERVED, Figures, Missing, served)
from programs import TOP

COLUMNS = 140
MAIN = "waffd 2"  # the default number of workers
MOST_SHOWN = 256  # slots
LOGGED = 521  # bytes of a change in the log: its record and its gate
BUSY = 0.5  # a load from which times mean little
PART = re.compile(
    r"(?P<begin><!-- figures: (?P<name>\w+) -->\n).*?^(?P<end>(?P<indent> *)<!-- end of figures -->)", re.S | re.M)


def number(value):
    """A number as the pages have it, of three digits at least."""
    return f"{value:,.0f}" if abs(value) >= 100 else f"{value:.3g}"


def span(values):
    """The least and the greatest, or the one number that both are."""
    least, most = number(min(values)), number(max(values))
    return least if least == most else f"{least} to {most}"


def listed(words):
    """`one, two and three`."""
    return f"{', '.join(map(str, words[:-1]))} and {words[-1]}"


def at_each_geometry(values):
    """`one at the default geometry and two at the greatest`."""
    return listed([f"{value} at the {geometry} geometry" for value, geometry in zip(values, GEOMETRIES)])


def spread(values):
    """Half of the distance of the least and the greatest value, in percent of the median."""
    return (max(values) - min(values)) / median(values) * 50


def of_run(figures):
    """When, where and how the run was made."""
    told = figures.told
    machine = told["machine"]
    lines = told["lines"]
    disk = figures.values("disk", "disk", "us")
    day = date.fromisoformat(told["date"])
    rows = [served(geometry, mix, slots) for geometry in GEOMETRIES for mix, slots in SERVED]
    programs = (*ORDINARY, *OF_WAFFD)
    spreads = sorted(spread(figures.values(row, program, "lines/s")) for row in rows for program in programs)
    text = (
        f"{day.day} {day:%B %Y}, commit `{told['commit'][:10]}`, `{told['version']}`; {machine['processors']} "
        f"processors ({machine['model']}), {machine['kernel']}. Each number is the median of {told['repeat']} rounds. "
        f"A row of writes or mixed lines has {lines:,} lines, one of reads {lines * MORE_READS:,}, and one with 1 "
        f"slot, of one file or of one stripe a tenth of that. The disk takes {number(median(disk))} microseconds "
        f"({span(disk)}) to write and sync a record of the log. Half of the way from the slowest round of a "
        f"row to its fastest is {median(spreads):.0f} percent of the median as a rule, and {spreads[-1]:.0f} percent "
        f"at most.")
    if told["load"] > BUSY:
        text += f" **The machine did other work** (load {told['load']})."
    yield text


HEAD = ("lines, slots", "1 worker", "2", "4", "pipe", "batch", "twice", "cpu us", "twice us", "syncs/k", "B/change")
TABLE_ROW = "    {:12}  {:>8}  {:>7}  {:>7}  {:>7}  {:>7}  {:>7}  {:>6}  {:>8}  {:>7}  {:>8}"


def cells(figures, geometry, mix, slots):
    """The cells of a row of the table."""
    def cell(program, what, form=",.0f", output="file"):
        return format(figures.median(served(geometry, mix, slots, output), program, what), form)

    yield f"{mix} {slots}"
    yield from (cell(program, "lines/s") for program in OF_WAFFD)
    yield cell(MAIN, "lines/s", output="pipe") if (mix, slots) in PIPED else "-"
    yield from (cell(program, "lines/s") for program in ("batch", "twice"))
    yield from (cell(program, "cpu us", ".2f") for program in (MAIN, "twice"))
    yield from (cell(MAIN, what) if mix != "read" else "-" for what in ("syncs", "bytes"))


def of_table(figures):
    """The table, indented."""
    yield TABLE_ROW.format(*HEAD)
    for geometry in GEOMETRIES:
        yield f"    {geometry} geometry"
        for mix, slots in SERVED:
            if slots <= MOST_SHOWN:
                yield TABLE_ROW.format(*cells(figures, geometry, mix, slots))


def of_memory(figures):
    """What a change writes, and the peaks of memory."""
    sizes = [figures.median(served(geometry, "write", 64), MAIN, "bytes") for geometry in GEOMETRIES]
    parts = listed([number((size - LOGGED) / size * 100) for size in sizes])
    costs = at_each_geometry([f"{size:,.0f} bytes" for size in sizes])
    yield (
        f"- **Bytes written**: with 64 slots a change costs {costs}. Of these {LOGGED} go to the log, and the rest "
        f"({parts} percent) to checkpoints.")
    peaks = []
    for geometry in GEOMETRIES:
        rows = [served(geometry, mix, slots) for mix, slots in SERVED]
        peaks.append(span([figures.median(row, program, "peak MB") for row in rows for program in OF_WAFFD]) + " MB")
    yield f"- **Memory**: at its peak {at_each_geometry(peaks)}."


def of_starts(figures):
    """The first reply, after an end in order and after a kill."""
    openings = [f"opening {geometry}" for geometry in GEOMETRIES]
    times = at_each_geometry([f"{number(figures.median(row, MAIN, 'ms'))} ms" for row in openings])
    floors = listed([number(figures.ratio(row, MAIN, "floor", "ms")) for row in openings])
    yield (
        f"- **The first reply** comes after {times}. That is {floors} times what a plain program takes to read half "
        "of the device, write half and sync five times.")

    def of_every(what):
        return listed([number(figures.median("every default", f"every {every}", what)) for every in EVERY])

    yield (
        f"- **`--every`** {listed(EVERY)}, with writes at the default geometry and 16 slots: {of_every('lines/s')} "
        f"lines a second. After a kill there were {of_every('records')} records to replay, and the next server's first "
        f"reply came after {of_every('ms')} ms.")


def of_plain(figures):
    """The serial server beside an ordinary one."""
    shown = []
    for mix in PLAIN:
        time = number(figures.median(f"plain {mix}", "waffd", "cpu us"))
        speed = figures.ratio(f"plain {mix}", "serial", "waffd", "cpu us")
        shown.append(f"{mix} {time} ({speed:.2f})")
    yield (
        "- **`plain`**, on the mixes of lines of `benchmark/lines.rs`: microseconds of processor time for a line and, "
        "in brackets, how many times as fast it is as an ordinary serial server (`benchmark/serial.rs`): "
        f"{listed(shown)}.")


def of_others(figures):
    """What the table doesn't show."""
    yield from of_memory(figures)
    yield from of_starts(figures)
    yield from of_plain(figures)


def of_speed(figures):
    """The few figures of the front page: writes with 64 and 256 slots."""
    rows = [served(geometry, "write", slots) for geometry in GEOMETRIES for slots in (64, 256)]

    def medians(what):
        return [figures.median(row, program, what) for row in rows for program in OF_WAFFD]

    def times_as_fast(other):
        return span([round(figures.ratio(row, other, MAIN, "lines/s"), 1) for row in rows])

    speeds = span([round(speed, -3) for speed in medians("lines/s")])
    sync = number(figures.median("disk", "disk", "us"))
    yield (
        f"With writes spread over all stripes, and 64 or 256 slots, `waffd` does {speeds} writes of full blocks a "
        f"second, at {span(medians('syncs'))} syncs for 1,000 of them. The disk takes {sync} microseconds to write and "
        f"sync a record of the log. An ordinary unproved Rust server is {times_as_fast('batch')} times as fast as "
        f"`waffd` with 2 workers, or {times_as_fast('twice')} times if it, too, locks stripes and syncs twice for each "
        f"batch.")


PAGES = {
    "docs/speed.md": {"run": of_run, "table": of_table, "others": of_others},
    "README.md": {"speed": of_speed},
}


def wrapped(lines, indent):
    """These lines in the width of the pages; what is indented stays."""
    for line in lines:
        if not line or line.startswith("    "):
            yield line
            continue
        below = indent + "  " if line.startswith("- ") else indent
        yield textwrap.fill(line, COLUMNS, initial_indent=indent, subsequent_indent=below, break_long_words=False,
                            break_on_hyphens=False)


def changed(figures):
    """Each page with its text as it should be, where that differs."""
    for page, parts in PAGES.items():
        path = pathlib.Path(TOP, page)
        text = path.read_text(encoding="utf-8")
        if sorted(found["name"] for found in PART.finditer(text)) != sorted(parts):
            raise Missing(f"{page} has not the places {' '.join(parts)} for figures, each once")

        def part(found):
            """The part that stands there, with its comments."""
            lines = wrapped(parts[found["name"]](figures), found["indent"])
            return found["begin"] + "\n".join(lines) + "\n" + found["end"]

        new = PART.sub(part, text)
        if new != text:
            yield path, new


def set_all(figures):
    """Sets the figures of the pages."""
    for path, text in changed(figures):
        path.write_text(text, encoding="utf-8")


def problems():
    """What is wrong with the file and the pages."""
    figures = Figures.read()
    yield from figures.holes()
    if PATH.read_text(encoding="utf-8") != figures.text():
        yield "benchmark/figures.json is not as benchmark/figures writes it"
    for path, _ in changed(figures):
        page = path.relative_to(TOP)
        yield f"{page} has other figures than benchmark/figures.json: benchmark/figures --pages sets them"
