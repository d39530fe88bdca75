"""Draws how clear a scan is: how many of its 378 cells have each brightness, the threshold, the means of the dark cells and of the bright ones, and the ratio.

    python3 tools/scan_picture.py CELLS THRESHOLD PICTURE.svg

CELLS is a file of 378 bytes, the brightness of each cell of a line. Cells below THRESHOLD, a number from 0 to 255, are dark, all others bright. The library,
which tools/build-library makes, is asked for the ratio and the means. A scan that has no spread, or that is refused with 20, is drawn too, and the picture says
so. Where nothing is drawn a sentence says why, and it ends with 2. samples/clear.scan and samples/dim.scan are scans to begin with.
"""

import pathlib
import random
import re
import sys
from collections import Counter
from fractions import Fraction
from typing import NamedTuple, Optional
from xml.sax.saxutils import escape

sys.dont_write_bytecode = True
from drawing import BLUE, INK, framed, path, text
from refusals import refusals_of

ROOT = pathlib.Path(__file__).resolve().parents[1]
BINDING = str(ROOT / "bindings/python")
CELLS, BRIGHTEST = 378, 255
WRONG_LENGTH, ONE_SIDED = 1, 20

# the samples in samples/, by name: how bright a dark cell and a bright one should be, and how far each of three parts can lead away from that
SEED, PARTS = 1968, 3
SAMPLES = {"clear": (60, 190, 9), "dim": (98, 158, 15)}
THRESHOLD = 128

BAR = 3
LEFT, RIGHT = 64, 64 + BAR * (BRIGHTEST + 1)
WIDTH = RIGHT + LEFT
# of one scan: where the rows of text stand, and the plot
HEADING, SAID, ABOVE, TOP, TALL = 28, 56, 82, 96, 120
BOTTOM = TOP + TALL
MARKS, TICKS, SCAN = BOTTOM + 9, BOTTOM + 28, BOTTOM + 44
LEGEND, LEGEND_COLUMN = 44, 196
BRIGHTNESSES = (0, 64, 128, 192, BRIGHTEST)
# how many cells lie between two lines of the plot: the first of these that leaves at most this many lines
STEPS, LINES = (1, 2, 5, 10, 20, 50, 100), 4
# dark cells are drawn in INK: the two differ in grey too
AMBER, GRID = "#c77700", "#dedede"
SMALL, LARGE = 12, 30
LONGEST_NAME = 28

HEAD = "How clear a scan is: its cells by brightness, the threshold, the means of the dark and of the bright cells, and the ratio."
HANDBOOK = "A clear scan and a dim one under one threshold: the cells of each by brightness, their means and their ratios."


class Scan(NamedTuple):
    """What a scan is answered with: the ratio, or None where there is no spread, and the means of the dark cells and of the bright ones."""

    ratio: Optional[float]
    dark: float
    bright: float


class Fault(Exception):
    """Why nothing is drawn."""


def made(dark, bright, away):
    """The cells of a scan, taken by chance: always of one film, so that the same cells should be dark. Of Python's generator only random() is used: of that
    alone it is promised that every version gives the same numbers."""
    chance = random.Random(SEED).random
    return bytes((bright if chance() < 0.5 else dark) + sum(int(chance() * (2 * away + 1)) - away for _ in range(PARTS)) for _ in range(CELLS))


def sample(name):
    return made(*SAMPLES[name])


def sides(cells, threshold):
    """The dark cells and the bright ones."""
    return [c for c in cells if c < threshold], [c for c in cells if c >= threshold]


def mean(numbers):
    return Fraction(sum(numbers), len(numbers))


def variance(numbers):
    return mean([c * c for c in numbers]) - mean(numbers) ** 2


def worked_out(cells, threshold):
    """A scan, or the number of a refusal, as the library answers it, from means and variances. These are exact, and each result is rounded once."""
    if len(cells) != CELLS:
        return WRONG_LENGTH
    dark, bright = sides(cells, threshold)
    if not dark or not bright:
        return ONE_SIDED
    spread = variance(dark) + variance(bright)
    return Scan(float((mean(bright) - mean(dark)) ** 2 / spread) if spread else None, float(mean(dark)), float(mean(bright)))


def asked(cells, threshold):
    """The same from the library."""
    if BINDING not in sys.path:
        sys.path.append(BINDING)
    try:
        import film
    except ImportError as why:
        raise Fault(f"there is no library to ask: {why}")
    try:
        return Scan(*film.scan_clarity(cells, threshold))
    except film.Refused as refused:
        return refused.number


def words_of(number):
    """When a refusal is given, in words."""
    return next(refusal.given for refusal in refusals_of((ROOT / "refusals.txt").read_text()) if refusal.number == number)


def shown(ratio):
    """A ratio as it is read from afar; the description has every digit."""
    return f"{ratio:,.2f}" if ratio >= 1 else f"{ratio:.4f}"


def result(answer):
    """The answer in a few words, in large type."""
    if isinstance(answer, int):
        return f"refused ({answer})"
    return "no spread" if answer.ratio is None else f"ratio {shown(answer.ratio)}"


def counted(cells):
    return "1 cell" if len(cells) == 1 else f"{len(cells)} cells"


def explained(cells, threshold, answer):
    """What stands below it: why a scan is refused, or the cells and the mean of each side."""
    if isinstance(answer, int):
        return words_of(answer)
    dark, bright = sides(cells, threshold)
    return f"dark: {counted(dark)}, mean {answer.dark:.2f}; bright: {counted(bright)}, mean {answer.bright:.2f}"


def at(brightness):
    """Where the middle of the bar of a brightness stands, or of a mean, which may lie between two."""
    return LEFT + BAR * (float(brightness) + 0.5)


def edge(threshold):
    """Where the threshold stands: between the last brightness that is dark and the first that is bright."""
    return LEFT + BAR * threshold


def step(most):
    """How many cells lie between two lines of a plot whose highest bar has so many."""
    return next(cells for cells in STEPS if most // cells <= LINES)


def grid(most):
    """The lines of the plot with their numbers of cells, and the brightnesses below it."""
    yield text(LEFT - 8, ABOVE, "cells", f'font-size="{SMALL}" text-anchor="end" fill="{INK}"')
    for cells in range(step(most), most + 1, step(most)):
        y = BOTTOM - TALL * cells / most
        yield f'<path d="M{LEFT} {y:.2f}H{RIGHT}" stroke="{GRID}"/>'
        yield text(LEFT - 8, y, cells, f'font-size="{SMALL}" text-anchor="end" fill="{INK}"')
    for brightness in BRIGHTNESSES:
        yield f'<path d="M{at(brightness):.1f} {BOTTOM}v6" stroke="{INK}"/>'
        yield text(at(brightness), TICKS, brightness, f'font-size="{SMALL}" text-anchor="middle" fill="{INK}"')
    yield text(at(sum(BRIGHTNESSES[-2:]) / 2), TICKS, "brightness", f'font-size="{SMALL}" text-anchor="middle" fill="{INK}"')


def bars(cells, most, colour):
    """A bar for each brightness that cells of one side have, as high as they are many."""
    if cells:
        yield f'<g fill="{colour}" shape-rendering="crispEdges">'
        for brightness, count in sorted(Counter(cells).items()):
            height = TALL * count / most
            yield f'<rect x="{LEFT + BAR * brightness}" y="{BOTTOM - height:.2f}" width="{BAR}" height="{height:.2f}"/>'
        yield "</g>"


def dashes(x, top, bottom):
    return f'<path d="M{x} {top}V{bottom}" stroke="{BLUE}" stroke-width="2" stroke-dasharray="6 3"/>'


def threshold_line(threshold):
    """The threshold, with its number above it, no nearer to the plot's sides than the words are long."""
    half = 50
    place = min(max(edge(threshold), LEFT + half), RIGHT - half)
    yield dashes(edge(threshold), TOP - 4, BOTTOM)
    yield text(place, ABOVE, f"threshold {threshold}", f'font-size="{SMALL}" text-anchor="middle" fill="{BLUE}" font-weight="bold"')


def pointer(x, y, colour):
    """A triangle from below, with its tip at a point, in the colour of a side."""
    return path([(x, y), (x - 6, y + 12), (x + 6, y + 12)], f'fill="{colour}" stroke="{INK}"')


def means(answer):
    """A mark at each mean, with its value: that of the dark cells, which is the smaller, on its left, and the other on its right."""
    for value, colour, side, anchor in (answer.dark, INK, -1, "end"), (answer.bright, AMBER, 1, "start"):
        yield pointer(at(value), BOTTOM + 2, colour)
        yield text(at(value) + 10 * side, MARKS, f"{value:.2f}", f'font-size="{SMALL}" text-anchor="{anchor}" fill="{INK}" font-weight="bold"')


def one(cells, threshold, answer, name):
    """One scan, drawn from the point 0, 0 on."""
    most = max(Counter(cells).values())
    dark, bright = sides(cells, threshold)
    yield text(LEFT, HEADING, escape(name), f'font-size="16" fill="{INK}" font-weight="bold"')
    yield text(RIGHT, HEADING, result(answer), f'font-size="{LARGE}" text-anchor="end" fill="{INK}" font-weight="bold"')
    yield text(LEFT, SAID, explained(cells, threshold, answer), f'fill="{INK}"')
    yield from grid(most)
    yield from bars(dark, most, INK)
    yield from bars(bright, most, AMBER)
    yield f'<path d="M{LEFT} {BOTTOM}H{RIGHT}" stroke="{INK}"/>'
    yield from threshold_line(threshold)
    if not isinstance(answer, int):
        yield from means(answer)


def legend(y):
    """What stands for what, in one row."""
    rows = [
        (lambda x: [f'<rect x="{x}" y="{y - 7}" width="14" height="14" fill="{INK}"/>'], "dark cells"),
        (lambda x: [f'<rect x="{x}" y="{y - 7}" width="14" height="14" fill="{AMBER}"/>'], "bright cells"),
        (lambda x: [dashes(x + 7, y - 10, y + 10)], "threshold"),
        (lambda x: [pointer(x - 2, y - 6, INK), pointer(x + 14, y - 6, AMBER)], "mean of each side"),
    ]
    for k, (sign, said) in enumerate(rows):
        x = LEFT + k * LEGEND_COLUMN
        yield from sign(x)
        yield text(x + 26, y, said, f'fill="{INK}"')


def description(cells, threshold, answer, name):
    """A scan in words, with every digit of its numbers."""
    dark, bright = map(len, sides(cells, threshold))
    means_and_ratio = (
        f"refused ({answer}): {words_of(answer)}"
        if isinstance(answer, int)
        else f"means {answer.dark!r} and {answer.bright!r}; {'no spread' if answer.ratio is None else f'ratio {answer.ratio!r}'}"
    )
    return escape(f"{name}: threshold {threshold}; {dark} cells dark, {bright} bright; {means_and_ratio}.")


def all_drawn(scans, head, writer):
    """Scans above one another, each with its threshold, its answer and its name."""
    elements = []
    for k, scan in enumerate(scans):
        elements += [f'<g transform="translate(0 {k * SCAN})">', *one(*scan), "</g>"]
    height = len(scans) * SCAN + LEGEND
    return framed(head, WIDTH, height, [*elements, *legend(height - LEGEND // 2)], [" ".join(description(*scan) for scan in scans)], writer)


def drawn(cells, threshold, answer, name="a scan"):
    """The picture of one scan as a file's text."""
    return all_drawn([(cells, threshold, answer, name)], HEAD, "tools/scan_picture.py")


def picture():
    """The handbook's picture as a file's text: the samples, answered without the library, which tools/tables has not at hand."""
    scans = [(sample(name), THRESHOLD, worked_out(sample(name), THRESHOLD), f"samples/{name}.scan") for name in SAMPLES]
    return all_drawn(scans, HANDBOOK, "tools/tables")


def name_shown(name):
    """The name of a file, without what no picture can hold, and not too long."""
    printable = "".join(c if c.isprintable() else "?" for c in pathlib.Path(name).name)
    return printable if len(printable) <= LONGEST_NAME else f"{printable[: LONGEST_NAME - 2]}.."


def draw(cells_name, threshold, picture_name, ask):
    """Reads a scan, asks, and writes the picture."""
    if not re.fullmatch("[0-9]{1,3}", threshold) or int(threshold) > BRIGHTEST:
        raise Fault(f"'{threshold}' is no threshold: a number from 0 to {BRIGHTEST} is wanted")
    if not picture_name.endswith(".svg"):
        raise Fault(f"'{picture_name}' is no name for a picture: it ends with .svg")
    with open(cells_name, "rb") as file:
        cells = file.read(CELLS + 1)
    answer = ask(cells, int(threshold))
    if answer == WRONG_LENGTH:
        raise Fault(f"{cells_name}: refused ({answer}): {words_of(answer)}")
    pathlib.Path(picture_name).write_text(drawn(cells, int(threshold), answer, name_shown(cells_name)), encoding="utf-8")


def main(arguments, ask=asked):
    if arguments in (["--help"], ["-h"]):
        print(__doc__, end="")
        return 0
    if len(arguments) != 3:
        print("usage: scan_picture.py CELLS THRESHOLD PICTURE.svg | scan_picture.py --help", file=sys.stderr)
        return 2
    try:
        draw(*arguments, ask)
    except (Fault, OSError) as fault:
        print(f"scan_picture.py: {fault}", file=sys.stderr)
        return 2
    return 0


if __name__ == "__main__":
    sys.exit(main(sys.argv[1:]))
