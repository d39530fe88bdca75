"""Draws a smudge, for the handbook: a block as it was stored, with the four cells of a window turned, straightened, and as it is read.

All of it is worked out here from the data rows, and the block is read here: what is drawn is what reading does. A block is the set of its bright cells, each a
row and a column: cell j of row i is bit j of byte i."""

from collections import Counter
from itertools import combinations, product
from typing import NamedTuple

from drawing import BLUE, GREEN, INK, ORANGE, PALE, WHITE, arrow, framed, text
from tray import block

DATA = (1, 2, 3, 4, 5, 6, 7)
# the window of the example in 000, section 3.5: its top row and its left column
WINDOW = (4, 3)
SIDE, SPAN, TURN = 8, 2, 2
ALL = range(SIDE)
# where the first row or column of a window that does not go around the edge can be
FIRST = range(SIDE - SPAN + 1)

CELL = 20
SQUARE = CELL * SIDE
LEFT, TOP, GAP = 40, 96, 68
WIDTH, HEIGHT = LEFT + 4 * SQUARE + 3 * GAP + 44, TOP + SQUARE + 98
LEGEND_COLUMN = 300
GRID = "#dedede"
SMALL = 'font-size="12"'
LETTERS = "abcd"
COUNTS = "no one two three four".split()

HEAD = "A block four times: as it was stored, with a smudge on it, straightened, and as it is read."


def straight(cell):
    """Where straightening brings a cell: two rows up in an odd column, then two toward bit 0 in an odd row, both around the edge."""
    i, j = cell
    up = (i - TURN * (j % 2)) % SIDE
    return up, (j - TURN * (up % 2)) % SIDE


STRAIGHT = {cell: straight(cell) for cell in product(ALL, ALL)}
STAGGERED = {after: before for before, after in STRAIGHT.items()}


def moved(cells, places):
    return frozenset(places[cell] for cell in cells)


def cells_of(rows):
    return frozenset((i, j) for i, j in product(ALL, ALL) if rows[i] >> j & 1)


def rows_of(cells):
    return [sum(1 << j for j in ALL if (i, j) in cells) for i in ALL]


def odd(numbers):
    """Those that come an odd number of times."""
    return {number for number, times in Counter(numbers).items() if times % 2}


def odd_rows(cells):
    return odd(i for i, _ in cells)


def even_columns(cells):
    return set(ALL) - odd(j for _, j in cells)


def is_proper(cells):
    return not odd_rows(cells) and not even_columns(cells)


def stored(data):
    """The staggered form of the block with these data rows."""
    return moved(cells_of(block(data)), STAGGERED)


def window(top, left):
    return [(top + i, left + j) for i, j in product(range(SPAN), range(SPAN))]


def fillings():
    """The sets of cells of each window that does not go around the edge."""
    for top, left in product(FIRST, FIRST):
        for count in range(SPAN * SPAN + 1):
            yield from map(frozenset, combinations(window(top, left), count))


def mended(cells):
    """The cells inside one window that have to be turned for a stored block; None where no window serves."""
    return next((turned for turned in fillings() if is_proper(moved(cells ^ turned, STRAIGHT))), None)


class Story(NamedTuple):
    """The bright cells as stored, with the smudge, straightened and as read; of each the cells that are wrong, or were; the rows and columns that fail once it
    is straightened; and in how many cells what is read differs from what was handed over."""

    bright: list
    wrong: list
    rows: set
    columns: set
    distance: int


def story():
    """The block smudged and read."""
    clean, turned = stored(DATA), window(*WINDOW)
    smudged = clean ^ frozenset(turned)
    straightened, back = moved(smudged, STRAIGHT), mended(smudged)
    return Story(
        [clean, smudged, straightened, smudged ^ back],
        [[], turned, [STRAIGHT[cell] for cell in turned], sorted(back)],
        odd_rows(straightened),
        even_columns(straightened),
        len(back),
    )


def corner(left, cell):
    """Where the corner of a cell lies, in the square that begins at left."""
    i, j = cell
    return left + CELL * j, TOP + CELL * i


def middle(place):
    return CELL * place + CELL // 2


def drawn_cells(left, cells):
    """Bright cells, a path for each row that has any."""
    for row in ALL:
        corners = (corner(left, cell) for cell in sorted(cells) if cell[0] == row)
        strokes = "".join(f"M{x} {y}h{CELL}v{CELL}h-{CELL}z" for x, y in corners)
        if strokes:
            yield f'<path d="{strokes}" fill="{WHITE}"/>'


def marked(x, y, letter, is_bright, colour):
    """A cell with its letter: white where it is bright, and filled where it is dark."""
    inside, ink = (WHITE, colour) if is_bright else (colour, WHITE)
    yield f'<rect x="{x + 1}" y="{y + 1}" width="{CELL - 2}" height="{CELL - 2}" fill="{inside}" stroke="{colour}" stroke-width="2"/>'
    yield text(x + CELL / 2, y + CELL / 2, letter, f'text-anchor="middle" fill="{ink}" font-weight="bold"')


def outline(x, y, size):
    """The border of a window."""
    return f'<rect x="{x - 3}" y="{y - 3}" width="{size + 6}" height="{size + 6}" rx="7" fill="none" stroke="{INK}" stroke-width="2"/>'


def square(left, bright, wrong, colour):
    """The block at one time: its cells, and those that are wrong, or were, with their letters."""
    place = f'x="{left}" y="{TOP}" width="{SQUARE}" height="{SQUARE}"'
    yield f'<rect {place} fill="{PALE}"/>'
    yield from drawn_cells(left, bright)
    lines = "".join(f"M{left} {TOP + CELL * k}h{SQUARE}M{left + CELL * k} {TOP}v{SQUARE}" for k in range(1, SIDE))
    yield f'<path d="{lines}" stroke="{GRID}"/>'
    yield f'<rect {place} fill="none" stroke="{INK}"/>'
    for letter, cell in zip(LETTERS, wrong):
        yield from marked(*corner(left, cell), letter, cell in bright, colour)


def pointer(x, y):
    """An arrow to the right, with its tip at a point."""
    return arrow((x, y), (x - 8, y - 5), (x - 8, y + 5), BLUE, True)


def pointer_down(x, y):
    return arrow((x, y), (x - 5, y - 8), (x + 5, y - 8), BLUE, True)


def emphasis(is_told, colour):
    return f'fill="{colour}" font-weight="bold"' if is_told else f'fill="{INK}"'


def numbers(left, rows, columns):
    """The numbers of the rows and columns, and an arrow at each that fails."""
    for k in ALL:
        yield text(left - 6, TOP + middle(k), k, f'{SMALL} text-anchor="end" {emphasis(k in rows, BLUE)}')
        yield text(left + middle(k), TOP - 11, k, f'{SMALL} text-anchor="middle" {emphasis(k in columns, BLUE)}')
    yield from (pointer(left - 20, TOP + middle(i)) for i in sorted(rows))
    yield from (pointer_down(left + middle(j), TOP - 21) for j in sorted(columns))


def row_bytes(left, bright, wrong, colour):
    """The byte of each row, to its right."""
    touched = {i for i, _ in wrong}
    for i, byte in enumerate(rows_of(bright)):
        yield text(left + SQUARE + 6, TOP + middle(i), byte, f"{SMALL} {emphasis(i in touched, colour)}")


def headings(told):
    """What stands above each of the four: when, and what of it."""
    top, left = WINDOW
    rows, columns = COUNTS[len(told.rows)], COUNTS[len(told.columns)]
    yield "as stored", f"data {' '.join(map(str, DATA))}"
    yield "with a smudge", f"window at row {top}, column {left}"
    yield "straightened", f"{rows} rows, {columns} columns fail"
    yield "as read", f"{'as stored' if told.bright[-1] == told.bright[0] else 'another block'}, distance {told.distance}"


def squares(told):
    """The block four times."""
    none = (set(), set())
    fails, colours = (none, none, (told.rows, told.columns), none), (INK, ORANGE, ORANGE, GREEN)
    for k, (bright, wrong, said) in enumerate(zip(told.bright, told.wrong, headings(told))):
        left = LEFT + k * (SQUARE + GAP)
        yield from square(left, bright, wrong, colours[k])
        yield from numbers(left, *fails[k])
        yield from row_bytes(left, bright, wrong, colours[k])
        for j, (words, weight) in enumerate(zip(said, ("bold", "normal"))):
            yield text(left + SQUARE / 2, TOP - 72 + 20 * j, words, f'text-anchor="middle" fill="{INK}" font-weight="{weight}"')
    yield outline(*corner(LEFT + SQUARE + GAP, WINDOW), SPAN * CELL)


def cell_sign(fill):
    return lambda x, y: [f'<rect x="{x - CELL // 2}" y="{y - CELL // 2}" width="{CELL}" height="{CELL}" fill="{fill}" stroke="{INK}"/>']


def marked_sign(colour):
    """A bright cell and a dark one."""
    return lambda x, y: [line for k in (0, 1) for line in marked(x - CELL // 2 - k * (CELL + 4), y - CELL // 2, LETTERS[0], k == 1, colour)]


def outline_sign(x, y):
    return [outline(x - CELL // 2 + 1, y - CELL // 2 + 1, CELL - 2)]


def pointers_sign(x, y):
    return [pointer(x - 12, y), pointer_down(x + 2, y + 4)]


def legend():
    """What stands for what, below the squares, in three columns."""
    rows = [
        (cell_sign(WHITE), "bright, 1"),
        (cell_sign(PALE), "dark, 0"),
        (marked_sign(ORANGE), "wrong, bright and dark"),
        (marked_sign(GREEN), "put right, bright and dark"),
        (outline_sign, "the window"),
        (pointers_sign, "an odd row, an even column"),
    ]
    for k, (sign, said) in enumerate(rows):
        x, y = LEFT + 10 + k // 2 * LEGEND_COLUMN, TOP + SQUARE + 42 + k % 2 * 32
        yield from sign(x, y)
        yield text(x + 22, y, said, f'fill="{INK}"')


def description(told):
    """The picture in words."""
    rows, columns = (", ".join(map(str, sorted(places))) for places in (told.rows, told.columns))
    return "; ".join(f"{when}: {what}" for when, what in headings(told)) + f"; rows {rows} are odd, and columns {columns} even."


def picture():
    """The picture as a file's text."""
    told = story()
    return framed(HEAD, WIDTH, HEIGHT, [*squares(told), *legend()], [description(told)])
