"""The drawing of a ring's starts: 63 places, and an arrow with its number at each start that is listed, outside for a forward one, inside for a backward one."""

import math

PLACES = 63
RING = 160
FORWARD, BACKWARD = RING + 12, RING - 12
HALF = RING + 44


def point(place, radius):
    """Where a place lies, place 0 at the top and the others clockwise; the ring's middle is 0, 0."""
    angle = 2 * math.pi * place / PLACES
    return radius * math.sin(angle), -radius * math.cos(angle)


def turned(place):
    return f'transform="rotate({360 * place / PLACES:.2f})"'


def shapes():
    """What every drawing of a page uses, once: the ring and the two arrows, as they stand at place 0."""
    dots = "".join(f'<circle cx="{x:.1f}" cy="{y:.1f}" r="2"/>' for x, y in (point(place, RING) for place in range(PLACES)))
    return (f'<svg class="shapes" aria-hidden="true"><defs><g id="ring"><circle class="way" r="{RING}"/>{dots}</g>'
            f'<path id="forward" d="M 8 {-FORWARD} l -15 -5 v 10 Z"/><path id="backward" d="M -8 {-BACKWARD} l 15 -5 v 10 Z"/></defs></svg>')


def arrow(start):
    place, is_forward = start % PLACES, start < PLACES
    x, y = point(place, FORWARD + 18 if is_forward else BACKWARD - 18)
    way = "forward" if is_forward else "backward"
    return f'<g class="{way}"><use href="#{way}" {turned(place)}/><text x="{x:.1f}" y="{y + 3:.1f}">{start:d}</text></g>'


def drawing(starts):
    """The drawing of a list of starts."""
    return (f'<svg class="starts" role="img" viewBox="{-HALF} {-HALF} {2 * HALF} {2 * HALF}"><title>The starts at which the ring fits</title>'
            f'<use href="#ring"/>{"".join(map(arrow, starts))}</svg>')
