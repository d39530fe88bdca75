"""Draws the starts of an undamaged ring, for the handbook: a line recorded at start 0, its true start and the twelve false ones.

Where they lie is worked out from the marks alone: where the marks, taken from a start, differ from the marks in four characters, that start is listed from
radius 4 on, and so with five."""

import math

from drawing import BLUE, GREEN, INK, ORANGE, PALE, arrow, framed, path, text

PLACES = 63
WIDTH, HEIGHT = 760, 510
CENTRE = (270, 270)
RING = 190
FOUR, FIVE, MARK = ORANGE, BLUE, GREEN
HEAD = "The ring of a line recorded at start 0 with no wrong character: its true start, the false ones, and the marks."


def apart(marks, start):
    """In how many characters the marks, taken from a start of their ring, differ from the marks."""
    taken = [marks.get((start + a if start < PLACES else start - a) % PLACES, 0) for a in range(PLACES)]
    return sum(character != marks.get(a, 0) for a, character in enumerate(taken))


def point(place, radius):
    """Where a place of the ring lies, place 0 at the top and the others clockwise."""
    angle = 2 * math.pi * place / PLACES
    return CENTRE[0] + radius * math.sin(angle), CENTRE[1] - radius * math.cos(angle)


def dot(x, y, size, more):
    return f'<circle cx="{x:.1f}" cy="{y:.1f}" r="{size}" {more}/>'


def start_arrow(place, forward, colour, filled):
    """An arrow at a place, clockwise for a forward start."""
    way = 0.45 if forward else -0.45
    return arrow(point(place + way, RING), point(place - way, RING + 8), point(place - way, RING - 8), colour, filled)


def diamond(x, y):
    return path([(x, y - 6), (x + 6, y), (x, y + 6), (x - 6, y)], f'fill="{MARK}"')


def ring(marks):
    """The ring: its places, the marks inside, and at each start an arrow with the start's number outside."""
    yield f'<circle cx="{CENTRE[0]}" cy="{CENTRE[1]}" r="{RING}" fill="none" stroke="{PALE}"/>'
    for place in range(PLACES):
        yield dot(*point(place, RING), 3, f'fill="{PALE}"')
    for place in sorted(marks):
        yield diamond(*point(place, RING - 22))
    for start in range(2 * PLACES):
        forward, distance = start < PLACES, apart(marks, start)
        if distance > 5:
            continue
        colour = {0: INK, 4: FOUR, 5: FIVE}[distance]
        yield start_arrow(start % PLACES, forward, colour, distance < 5)
        yield text(*point(start % PLACES, RING + (24 if forward else 44)), start, f'text-anchor="middle" fill="{colour}" font-weight="bold"')


def direction():
    """An arc inside the ring, from the true start on, with an arrow at its end."""
    (x, y), (u, v), inner = point(1, RING - 48), point(8, RING - 48), RING - 48
    yield f'<path d="M {x:.1f} {y:.1f} A {inner} {inner} 0 0 1 {u:.1f} {v:.1f}" fill="none" stroke="{INK}" stroke-width="1.5"/>'
    yield arrow(point(8.8, inner), point(7.9, inner + 5), point(7.9, inner - 5), INK, True)
    yield text(*point(4.6, inner - 26), "forward", f'text-anchor="middle" fill="{INK}"')


def legend():
    """What stands for what, to the right of the ring."""
    x, y = 530, 180
    rows = [
        (arrow((x + 8, y), (x - 8, y - 8), (x - 8, y + 8), INK, True), ["the true start"]),
        (arrow((x - 8, y + 60), (x + 8, y + 52), (x + 8, y + 68), FOUR, True), ["six false starts at radius 4", "and 5, the other way"]),
        (arrow((x + 8, y + 120), (x - 8, y + 112), (x - 8, y + 128), FIVE, False), ["six more at radius 5,", "the same way"]),
        (diamond(x, y + 180), ["the three marks"]),
    ]
    for i, (sign, said) in enumerate(rows):
        yield sign
        for j, words in enumerate(said):
            yield text(x + 22, y + 60 * i + 18 * j, words, f'fill="{INK}"')


def picture(marks):
    """The picture as a file's text. The marks are characters by address."""
    elements = [
        *ring(marks),
        *direction(),
        *legend(),
        text(CENTRE[0], CENTRE[1] - 9, "a line recorded at start 0,", f'text-anchor="middle" fill="{INK}"'),
        text(CENTRE[0], CENTRE[1] + 9, "no character wrong", f'text-anchor="middle" fill="{INK}"'),
    ]
    return framed(HEAD, WIDTH, HEIGHT, elements)
