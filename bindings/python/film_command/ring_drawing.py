"""The picture of a ring's starts: 63 places, an arrow at each start that is listed, which tells the true one from the false, and a table of them."""

import itertools
import math
from typing import Callable, Iterator, List, Tuple

import film

from .drawing import BLUE, INK, ORANGE, PALE, PLACES, PURPLE, dot, framed, on_ring, painted, path, text
from .ring_starts import Fit, Listed, word_for
from .words import counted

# where the point of a shape goes that lies so far along the way that is read, and so far across it
Put = Callable[[float, float], Tuple[float, float]]
Shape = Tuple[List[Tuple[int, int]], str, bool]

CENTRE = (222, 232)
RING = 165
# how far from the ring the arrows stand, outside or inside, and the edges of the numbers beside them
ARROWS, NUMBERS = 12, 27

# half of what a number takes: a digit of it and its line, and three small digits
DIGIT, HALF_LINE, SMALL_DIGITS = 4.5, 6, 10

# shapes, each pointing right from its middle
SHAFTED = [(11, 0), (1, -9), (1, -4), (-9, -4), (-9, 4), (1, 4), (1, 9)]
TRIANGLE = [(6, 0), (-5, -6), (-5, 6)]
DART = [(7, 0), (-6, -6), (-2, 0), (-6, 6)]
TRUE: Shape = (SHAFTED, INK, True)
# of a start that is not told to be the true one, by its distance; a start at 0 or 1 always is, since any other is further away
OTHERS = {2: (DART, INK, False), 3: (DART, PURPLE, True), 4: (TRIANGLE, ORANGE, True), 5: (TRIANGLE, BLUE, False)}

# to the right of the ring stand the legend and the table: their left edge, their rows, and where the columns end, or the text begins
WIDTH, LEFT, TOP, ROW = 1004, 462, 38, 22
LEAST_HEIGHT = 2 * CENTRE[1]
AFTER_SIGN = LEFT + 30
START, DISTANCE, NUMBER, TEXT = LEFT + 62, LEFT + 128, LEFT + 190, LEFT + 206
MOST_ROWS = 13
INKED = f'fill="{INK}"'
MONOSPACED = 'font-family="DejaVu Sans Mono, Consolas, Menlo, monospace" font-size="11" xml:space="preserve"'


def shape_of(found: Listed, fit: Fit) -> Shape:
    return TRUE if found.is_true(fit) else OTHERS[fit.distance]


def sign(found: Listed, fit: Fit, put: Put) -> str:
    """The arrow of a start."""
    points, colour, filled = shape_of(found, fit)
    return path([put(along, across) for along, across in points], painted(colour, filled))


def way(fit: Fit) -> int:
    return 1 if fit.is_forward else -1


def at_row(fit: Fit, y: float) -> Put:
    """At the beginning of a row, pointing right where the start is a forward one."""
    return lambda along, across: (LEFT + 12 + way(fit) * along, y + across)


def at_place(fit: Fit) -> Put:
    """At the place of a start: outside the ring and pointing clockwise where it is a forward one, else inside and the other way."""
    radius = RING + way(fit) * ARROWS
    pitch = 2 * math.pi * radius / PLACES
    return lambda along, across: on_ring(CENTRE, fit.place + way(fit) * along / pitch, radius + across)


def number(fit: Fit, colour: str, is_crowded: bool) -> str:
    """The number of a start beside its arrow. Where a neighbour has one too it is small and lies along the radius, so that the two do not meet."""
    turn = 2 * math.pi * fit.place / PLACES
    reach = SMALL_DIGITS if is_crowded else DIGIT * len(str(fit.start)) * abs(math.sin(turn)) + HALF_LINE * abs(math.cos(turn))
    x, y = on_ring(CENTRE, fit.place, RING + way(fit) * (NUMBERS + reach))
    how = f'text-anchor="middle" fill="{colour}" font-weight="bold"'
    if not is_crowded:
        return text(x, y, fit.start, how)
    degrees = math.degrees(turn) + (-90 if fit.place <= PLACES // 2 else 90)
    return text(x, y - 1.5, fit.start, f'{how} font-size="10" transform="rotate({degrees:.1f} {x:.1f} {y:.1f})"')


def ring(found: Listed) -> Iterator[str]:
    """The places, at each start its arrow and its number, and in the middle what was asked and found."""
    yield f'<circle cx="{CENTRE[0]}" cy="{CENTRE[1]}" r="{RING}" fill="none" stroke="{PALE}"/>'
    for place in range(PLACES):
        yield dot(*on_ring(CENTRE, place, RING), 3, f'fill="{PALE if place else INK}"')
    taken = {(fit.is_forward, fit.place) for fit in found.fits}
    for fit in found.fits:
        is_crowded = any((fit.is_forward, (fit.place + step) % PLACES) in taken for step in (1, -1))
        yield sign(found, fit, at_place(fit))
        yield number(fit, shape_of(found, fit)[1], is_crowded)
    said = [f"ring {found.item}", f"radius {found.radius}", counted(len(found.fits), "start"), f"reading it answers {found.answer}"]
    for i, words in enumerate(said):
        yield text(CENTRE[0], CENTRE[1] + ROW * (i - 1.5), words, f'text-anchor="middle" {INKED}')


def groups(found: Listed) -> Iterator[Tuple[str, List[Fit]]]:
    """The starts at each distance, the nearest first, and what they are."""
    for distance, group in itertools.groupby(found.nearest_first, key=lambda fit: fit.distance):
        fits = list(group)
        if found.truth and found.is_true(fits[0]):
            yield f"the true start, where at most {found.truth.most_wrong} characters of the ring are wrong", fits
        else:
            yield f"{counted(len(fits), 'false start' if found.truth else 'start')} at distance {distance}", fits


def untold(found: Listed) -> str:
    """What is said where no start is told to be the true one."""
    if not found.fits:
        return "at no start a line lies within the radius"
    if not found.nearest:
        return "which of them is the true one cannot be told"
    return f"{found.nearest.start} is the nearest: the true one, where at most {found.nearest.most_wrong} characters are wrong"


def legend(found: Listed) -> Iterator[Tuple[Callable[[float], str], str]]:
    """What the picture shows, row by row: a sign, drawn at a height, and its words."""
    for words, fits in groups(found):
        yield lambda y, fit=fits[0]: sign(found, fit, at_row(fit, y)), words
    if not found.truth:
        yield lambda y: "", untold(found)
    yield lambda y: dot(LEFT + 12, y, 3, INKED), "place 0; the others follow clockwise"
    ways = [words for words, is_forward in (("outside the ring: read forward", True), ("inside: read backward", False))
            if any(fit.is_forward == is_forward for fit in found.fits)]
    if ways:
        yield lambda y: "", "; ".join(ways)


def table_head(y: float) -> Iterator[str]:
    for x, anchor, words in ((START, "end", "start"), (DISTANCE, "end", "distance"), (NUMBER, "end", "number"), (TEXT, "start", "text")):
        yield text(x, y, words, f'text-anchor="{anchor}" {INKED} font-weight="bold" font-size="12"')


def table_row(found: Listed, fit: Fit, y: float) -> Iterator[str]:
    yield sign(found, fit, at_row(fit, y))
    for x, value in ((START, fit.start), (DISTANCE, fit.distance), (NUMBER, fit.number)):
        yield text(x, y, value, f'text-anchor="end" {INKED} font-size="12"')
    word = word_for(fit.note)
    if word:
        yield text(TEXT, y, word, f'{INKED} font-size="12" font-style="italic"')
    else:
        yield text(TEXT, y - 1, film.panel_text(fit.line[:1 + film.LETTERS]).rstrip(), f"{INKED} {MONOSPACED}")


def beside(found: Listed) -> Tuple[List[str], float]:
    """The legend and the table, and where they end."""
    elements, y = [], TOP
    for draw_sign, words in legend(found):
        elements += [draw_sign(y), text(AFTER_SIGN, y, words, INKED)]
        y += ROW
    y += ROW // 2
    if found.fits:
        elements += table_head(y)
    for fit in found.nearest_first[:MOST_ROWS]:
        y += ROW
        elements += table_row(found, fit, y)
    left = len(found.fits) - MOST_ROWS
    if left > 0:
        y += ROW
        elements.append(text(AFTER_SIGN, y, f"and {left} more", INKED))
    return [element for element in elements if element], y


def described(found: Listed) -> str:
    """What is drawn, for whoever does not see it."""
    rows = [f"{words}: {', '.join(str(fit.start) for fit in fits)}" for words, fits in groups(found)]
    return f"{'; '.join(rows) or 'no start'}.".capitalize()


def picture(found: Listed) -> str:
    """The picture as a file's text."""
    head = f"{found.summary.capitalize()}."
    elements, bottom = beside(found)
    return framed(head, WIDTH, max(LEAST_HEIGHT, bottom + TOP - ROW // 2), [*ring(found), *elements], [described(found)], "film explain")
