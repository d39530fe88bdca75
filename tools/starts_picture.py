"""Draws what a start number is, for the handbook: a ring with a forward start and a backward one, and where their first addresses lie."""

from drawing import BLUE, INK, ORANGE, PALE, PLACES, arrow, dot, framed, on_ring, text

# the two starts, how many addresses of each are drawn, and one further on that is worked out in words
FORWARD, BACKWARD = 10, PLACES + 40
DRAWN, FURTHER = 7, 60

CENTRE, RING = (240, 226), 160
WIDTH, HEIGHT = 950, 452
# how far from the ring the numbers, the arcs and the names of the starts stand
NUMBERS, ARCS, NAMES = 20, 40, 66
COLUMN, TOP, ROW = 500, 84, 24
HEAD = "What a start number is: a ring of 63 places with a forward start and a backward one, and the places of their first addresses."
INKED, MIDDLE, SMALL, BOLD = f'fill="{INK}"', 'text-anchor="middle"', 'font-size="12"', 'font-weight="bold"'


def way(start):
    """1 clockwise, which is forward; -1 backward."""
    return 1 if start < PLACES else -1


def place_of(start, address):
    return (start + way(start) * address) % PLACES


def places():
    yield f'<circle cx="{CENTRE[0]}" cy="{CENTRE[1]}" r="{RING}" fill="none" stroke="{PALE}"/>'
    for place in range(PLACES):
        yield dot(*on_ring(CENTRE, place, RING), 3, f'fill="{PALE}"')
    yield text(*on_ring(CENTRE, 0, RING + NUMBERS), "place 0", f"{MIDDLE} {SMALL} {INKED}")


def arc(start, colour):
    """An arc along the addresses that are drawn, with an arrow at its end."""
    first, radius = start % PLACES, RING + way(start) * ARCS
    last = first + way(start) * DRAWN
    (x, y), (u, v) = on_ring(CENTRE, first, radius), on_ring(CENTRE, last, radius)
    yield f'<path d="M {x:.1f} {y:.1f} A {radius} {radius} 0 0 {int(start < PLACES)} {u:.1f} {v:.1f}" fill="none" stroke="{colour}" stroke-width="2"/>'
    yield arrow(on_ring(CENTRE, last + way(start), radius), on_ring(CENTRE, last, radius + 6), on_ring(CENTRE, last, radius - 6), colour, True)


def drawn(start, colour):
    """A start: its first addresses on the side where it is drawn, their places on the other side, an arc along them, and its name."""
    for address in range(DRAWN):
        place = place_of(start, address)
        yield dot(*on_ring(CENTRE, place, RING), 6 if address == 0 else 4, f'fill="{colour}"')
        yield text(*on_ring(CENTRE, place, RING + way(start) * NUMBERS), address, f'{MIDDLE} {BOLD} fill="{colour}"')
        yield text(*on_ring(CENTRE, place, RING - way(start) * NUMBERS), place, f"{MIDDLE} {SMALL} {INKED}")
    yield from arc(start, colour)
    yield text(*on_ring(CENTRE, start % PLACES, RING + way(start) * NAMES), f"start {start}", f'{MIDDLE} {BOLD} fill="{colour}"')


def worked_out(start):
    """The place of an address further on, step by step."""
    sign, sum_ = "+" if way(start) > 0 else "-", start % PLACES + way(start) * FURTHER
    turned = "" if 0 <= sum_ < PLACES else f"; {sum_} {'-' if way(start) > 0 else '+'} {PLACES} = {place_of(start, FURTHER)}"
    return f"address {FURTHER}: {start % PLACES} {sign} {FURTHER} = {sum_}{turned}, so it is at place {place_of(start, FURTHER)}"


def told(start):
    """What is said of a start, row by row."""
    place = start % PLACES
    if start < PLACES:
        yield f"Start {start}: forward"
        yield f"0 to {PLACES - 1} are forward: the line is read clockwise,"
        yield f"and its address 0 is at place {place}"
        yield f"address a is at place ({place} + a) mod {PLACES}"
    else:
        yield f"Start {start}: backward"
        yield f"{PLACES} to {2 * PLACES - 1} are backward: the line is read the other way,"
        yield f"and its address 0 is at place {start} - {PLACES} = {place}"
        yield f"address a is at place ({place} - a) mod {PLACES}"
    yield worked_out(start)


def column():
    """What is said beside the ring."""
    y = TOP
    for start, colour in ((FORWARD, BLUE), (BACKWARD, ORANGE)):
        for i, words in enumerate(told(start)):
            yield text(COLUMN, y, words, f'fill="{INK if i else colour}"{"" if i else f" {BOLD}"}')
            y += ROW
        y += ROW
    yield text(COLUMN, y, "Bold: addresses of the line. Small: places of the ring.", INKED)


def picture():
    """The picture as a file's text."""
    described = " ".join(f"{head}: {', '.join(rows)}." for head, *rows in (told(FORWARD), told(BACKWARD)))
    return framed(HEAD, WIDTH, HEIGHT, [*places(), *drawn(FORWARD, BLUE), *drawn(BACKWARD, ORANGE), *column()], [described])
