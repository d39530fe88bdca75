#!/usr/bin/env python3
"""Draws what bench/run printed as a chart: our time, that of libfec and the limit, on a logarithmic scale.

    bench/chart.py [PRINTED [CHART.svg]]

PRINTED is a file of what bench/run printed, standard input where there is none; the chart goes to standard output unless CHART.svg is given. Every number of
the chart is one of PRINTED. Where a row is missing nothing is drawn, a sentence says why, and it ends with 2. docs/speed.txt is such a file, and docs/speed.svg
its chart, which tools/tables writes."""

import math
import pathlib
import re
import sys
from typing import Dict, NamedTuple
from xml.sax.saxutils import escape

sys.dont_write_bytecode = True
sys.path.insert(0, str(pathlib.Path(__file__).resolve().parents[1] / "tools"))
from drawing import BLUE, INK, ORANGE, WHITE, framed, text

# the rows that are drawn, in the chart's words
SHOWN = {
    "encode": "encode a line",
    "read_0": "read a line, no error",
    "read_1": "read a line, 1 error",
    "read_5": "read a line, 5 errors",
    "read_6_refused": "read a line, 6 errors, refused",
    "spool_clean": "a line of a clean spool",
    "list_clean_radius_1": "list a clean ring, radius 1",
    "list_noise_radius_1": "list a ring of noise, radius 1",
    "list_clean_radius_5": "list a clean ring, radius 5",
    "list_noise_radius_5": "list a ring of noise, radius 5",
}

# what the lines of a run look like that the chart takes something from
NUMBER = r"([0-9]+(?:\.[0-9]+)?)"
MEASURED = r"# .*; version (\S+); processor (.+); (\d{4}-\d\d-\d\d\b.*)"
ROUNDS = r"nanoseconds a call, .*, minimum of ([1-9][0-9]*) rounds\b.*"

EDGE, LEFT, PLOT, RATIOS = 14, 270, 530, 120
RIGHT = LEFT + PLOT
WIDTH = RIGHT + RATIOS + EDGE
TITLE, SUBTITLE, LEGEND, AXIS, TOP = 28, 52, 84, 118, 132
# below the plot: the axis again, what it is, and the end
AXIS_BELOW, CAPTION, FOOT = 14, 36, 56
# from the top of a row: the value of the limit, and the two bars
ROW, LIMIT, OURS, BAR = 56, 7, 18, 15
LIBFEC = OURS + BAR + 2
GRID = "#dedede"
SMALLEST, SMALL = 'font-size="11"', 'font-size="12"'

HEAD = "How long a call takes: this library, libfec and the limit, on a logarithmic scale."


class Fault(Exception):
    """Why nothing is drawn."""


class Row(NamedTuple):
    """Nanoseconds a call, and how many times ours libfec takes."""

    ours: float
    libfec: float
    limit: float
    ratio: float


class Run(NamedTuple):
    """What was measured, where and when, in how many rounds, and each row that is drawn."""

    version: str
    processor: str
    date: str
    rounds: str
    rows: Dict[str, Row]


def found(form, lines, what):
    """What the one line of a form has."""
    matches = [match for match in (re.fullmatch(form, line) for line in lines) if match]
    if len(matches) != 1:
        raise Fault(f"there are {len(matches)} lines with {what}, and one is wanted: what bench/run printed has it")
    return matches[0].groups()


def row_of(name, lines):
    ours, libfec, _ = found(rf"{name} +{NUMBER} +{NUMBER} +{NUMBER}", lines, f"the times of {name}")
    (limit,) = found(rf"limit {name} {NUMBER}", lines, f"the limit of {name}")
    (ratio,) = found(rf"ratio {name} {NUMBER}", lines, f"the ratio of {name}")
    row = Row(float(ours), float(libfec), float(limit), float(ratio))
    if min(row) == 0:
        raise Fault(f"a number of {name} is 0, which has no place on a logarithmic scale")
    return row


def run_of(printed):
    lines = printed.splitlines()
    version, processor, date = found(MEASURED, lines, "the version, the processor and the date")
    (rounds,) = found(ROUNDS, lines, "the number of rounds")
    return Run(version, processor, date, rounds, {name: row_of(name, lines) for name in SHOWN})


class Scale(NamedTuple):
    """A logarithmic scale, from one power of ten to another."""

    first: int
    last: int

    def at(self, nanoseconds):
        """Where a time stands."""
        return LEFT + PLOT * (math.log10(nanoseconds) - self.first) / (self.last - self.first)


def scale_of(rows):
    """The shortest scale that has all times."""
    times = [time for row in rows for time in (row.ours, row.libfec, row.limit)]
    first = math.floor(math.log10(min(times)))
    return Scale(first, max(math.ceil(math.log10(max(times))), first + 1))


def digits(number):
    """Three digits, and more only before the point."""
    rounded = float(f"{number:.2e}")
    return f"{number:,.{max(2 - math.floor(math.log10(rounded)), 0)}f}"


def said(nanoseconds):
    """A time in the unit that leaves one to three digits before the point."""
    unit, ten = ("ns", 1) if nanoseconds < 999.5 else ("µs", 1e3) if nanoseconds < 999.5e3 else ("ms", 1e6)
    return f"{digits(nanoseconds / ten)} {unit}"


def power(exponent):
    """A power of ten as the axis has it."""
    unit, ten = ("ns", 0) if exponent < 3 else ("µs", 3) if exponent < 6 else ("ms", 6)
    return f"{10 ** (exponent - ten):,g} {unit}"


def axis(scale, bottom):
    """The powers of ten, above the bars and below them."""
    for exponent in range(scale.first, scale.last + 1):
        x = scale.at(10**exponent)
        yield f'<path d="M{x:.1f} {TOP}V{bottom}" stroke="{GRID}"/>'
        for y in AXIS, bottom + AXIS_BELOW:
            yield text(x, y, power(exponent), f'{SMALL} text-anchor="middle" fill="{INK}"')
    caption = "a logarithmic scale: each line stands for ten times what the one before stands for"
    yield text(LEFT + PLOT / 2, bottom + CAPTION, caption, f'{SMALL} text-anchor="middle" fill="{INK}"')


def bar(scale, top, nanoseconds, colour):
    """A bar from the scale's beginning to a time, with the time after it."""
    yield f'<rect x="{LEFT}" y="{top}" width="{scale.at(nanoseconds) - LEFT:.2f}" height="{BAR}" fill="{colour}"/>'
    yield text(scale.at(nanoseconds) + 6, top + BAR / 2, said(nanoseconds), f'{SMALL} fill="{INK}"')


def mark(x, top, height):
    """A line with a white edge, so that it is seen on a bar too."""
    line = f'd="M{x:.2f} {top}v{height}"'
    return f'<path {line} stroke="{WHITE}" stroke-width="6"/><path {line} stroke="{INK}" stroke-width="3"/>'


def drawn_row(scale, top, words, row):
    """The words of a row, its two bars, the limit across both, and the ratio."""
    middle = top + (OURS + LIBFEC + BAR) / 2
    yield text(LEFT - 12, middle, words, f'text-anchor="end" fill="{INK}"')
    yield from bar(scale, top + OURS, row.ours, BLUE)
    yield from bar(scale, top + LIBFEC, row.libfec, ORANGE)
    yield mark(scale.at(row.limit), top + OURS - 3, LIBFEC + BAR - OURS + 6)
    yield text(scale.at(row.limit), top + LIMIT, said(row.limit), f'{SMALLEST} text-anchor="middle" fill="{INK}"')
    yield text(WIDTH - EDGE, middle, f"{digits(row.ratio)} ×", f'text-anchor="end" fill="{INK}" font-weight="bold"')


def legend():
    """What stands for what, in one row, and above the ratios what they are."""
    signs = [
        (EDGE, lambda x: f'<rect x="{x}" y="{LEGEND - 7}" width="14" height="14" fill="{BLUE}"/>', "this library (above)"),
        (EDGE + 190, lambda x: f'<rect x="{x}" y="{LEGEND - 7}" width="14" height="14" fill="{ORANGE}"/>', "libfec (below)"),
        (EDGE + 340, lambda x: mark(x + 7, LEGEND - 9, 18), "the limit of looking characters up one by one"),
    ]
    for x, sign, words in signs:
        yield sign(x)
        yield text(x + 22, LEGEND, words, f'fill="{INK}"')
    for y, words in (LEGEND, "libfec's time"), (LEGEND + 16, "over ours"):
        yield text(WIDTH - EDGE, y, words, f'{SMALL} text-anchor="end" fill="{INK}"')


def description(run):
    """The chart in words, with the numbers as they were printed."""
    rows = "; ".join(f"{SHOWN[name]}: this library {row.ours}, libfec {row.libfec}, the limit {row.limit}" for name, row in run.rows.items())
    return escape(f"Nanoseconds a call, version {run.version}, {run.processor}, {run.date}. {rows}.")


def picture(printed):
    """The chart as a file's text."""
    run = run_of(printed)
    scale, bottom = scale_of(run.rows.values()), TOP + ROW * len(run.rows)
    measured = f"version {run.version}, {run.processor}, {run.date}, the least of {run.rounds} rounds"
    elements = [
        text(EDGE, TITLE, "How long a call takes", f'font-size="20" font-weight="bold" fill="{INK}"'),
        text(EDGE, SUBTITLE, escape(measured), f'{SMALL} fill="{INK}"'),
        *legend(),
        *axis(scale, bottom),
        f'<path d="M{LEFT} {TOP}V{bottom}" stroke="{INK}"/>',
    ]
    for k, (name, row) in enumerate(run.rows.items()):
        elements += drawn_row(scale, TOP + ROW * k, SHOWN[name], row)
    return framed(HEAD, WIDTH, bottom + FOOT, elements, [description(run)], "bench/chart.py")


def draw(printed_name=None, chart_name=None):
    """Reads what was printed, and writes the chart."""
    if chart_name is not None and not chart_name.endswith(".svg"):
        raise Fault(f"'{chart_name}' is no name for a chart: it ends with .svg")
    printed = sys.stdin.buffer.read() if printed_name is None else pathlib.Path(printed_name).read_bytes()
    chart = picture(printed.decode("utf-8")).encode("utf-8")
    if chart_name is None:
        sys.stdout.buffer.write(chart)
    else:
        pathlib.Path(chart_name).write_bytes(chart)


def main(arguments):
    if "--help" in arguments or "-h" in arguments:
        print(__doc__)
        return 0
    try:
        if len(arguments) > 2 or any(word.startswith("-") for word in arguments):
            raise Fault("it takes the name of a file of what bench/run printed, and that of a chart; --help says more")
        draw(*arguments)
    except (Fault, OSError, UnicodeDecodeError) as fault:
        print(f"bench/chart.py: {fault}", file=sys.stderr)
        return 2
    return 0


if __name__ == "__main__":
    sys.exit(main(sys.argv[1:]))
