"""Draws a damaged sheet, for the handbook: as it was scanned, after its lines were read, and after its columns were read.

The sheet and its damage are taken by chance, from a seed, and it is read here: what is drawn is what reading does. All is done with the marks off, which makes no
difference to where characters are wrong."""

import random
from typing import NamedTuple

from clean_words import CHARACTERS, CHECKS, ELEMENTS, MENDED, Code, added
from drawing import BLUE, INK, ORANGE, PALE, WHITE, arrow, framed, text

SEED = 1968
FREE = CHARACTERS - CHECKS
LAST = range(FREE, CHARACTERS)
# the damaged lines: under dust, under a scratch of some addresses, and one that is nearer to another line than to its own
DUSTY, SCRATCHED, SCRATCH, BETWEEN = (6, 13, 57), 29, range(11, 47), 41
# two lines differ in twelve characters at least; of those, seven are wrong, and reading makes the other five wrong too
APART, WRONG = CHECKS + 1, CHECKS + 1 - MENDED

CELL = 4
SQUARE = CELL * CHARACTERS
LEFT, TOP, GAP = 44, 66, 34
WIDTH, HEIGHT = LEFT + 3 * SQUARE + 2 * GAP + 18, TOP + SQUARE + 104
LEGEND_COLUMN = SQUARE + GAP + 62
GROUND = "#ececec"
COUNTS = "no one two three four five six seven eight nine ten eleven twelve".split()

HEAD = "A damaged sheet three times: as it was scanned, after its lines were read, and after its columns were read, with its wrong characters."


class Chance:
    """What is taken by chance. Of Python's generator only random() is used: of that alone it is promised that every version gives the same numbers."""

    def __init__(self):
        self.next = random.Random(SEED).random

    def below(self, bound):
        return int(self.next() * bound)

    def word(self, length):
        return [self.below(ELEMENTS) for _ in range(length)]

    def addresses(self, count):
        left = list(range(CHARACTERS))
        return sorted(left.pop(self.below(len(left))) for _ in range(count))

    def errors(self, addresses):
        return {a: 1 + self.below(ELEMENTS - 1) for a in addresses}


def turned(sheet):
    """The columns of a sheet, or the sheet of its columns."""
    return [list(column) for column in zip(*sheet)]


def proper_sheet(code, chance):
    """52 lines of any characters and their checks, and the eleven lines that the columns force."""
    lines = [code.filled(chance.word(FREE) + [0] * CHECKS, LAST) for _ in range(FREE)] + [[0] * CHARACTERS] * CHECKS
    return turned(code.filled(column, LAST) for column in turned(lines))


def towards_another(code, chance):
    """Errors that bring a line within five characters of another."""
    first, *others = addresses = chance.addresses(APART)
    apart = code.filled(added([0] * CHARACTERS, chance.errors([first])), others)
    return {a: apart[a] for a in addresses[:WRONG]}


def scanned(code, chance, sheet):
    """The sheet with five lines damaged, and up to five characters in each other."""
    for i, line in enumerate(sheet):
        if i in DUSTY:
            yield chance.word(CHARACTERS)
        elif i == SCRATCHED:
            yield added(line, chance.errors(SCRATCH))
        elif i == BETWEEN:
            yield added(line, towards_another(code, chance))
        else:
            yield added(line, chance.errors(chance.addresses(chance.below(MENDED + 1))))


class Story(NamedTuple):
    """The wrong cells of the sheet, each a line and an address, as scanned, after its lines were read and after its columns were; the damaged lines, which the
    second of the three has; and those of them that were read as other lines."""

    wrong: list
    damaged: list
    misread: list


def story(product):
    """The sheet damaged and read, over the field that has these products."""
    code, chance = Code(product), Chance()
    sheet = proper_sheet(code, chance)
    scan = list(scanned(code, chance, sheet))
    lines_read = [code.kept(line) for line in scan]
    columns_read = turned(code.kept(column) for column in turned(lines_read))
    wrong = [wrong_cells(now, sheet) for now in (scan, lines_read, columns_read)]
    damaged = lines_of(wrong[1])
    return Story(wrong, damaged, [i for i in damaged if lines_read[i] != scan[i]])


def wrong_cells(now, sheet):
    return {(i, a) for i in range(CHARACTERS) for a in range(CHARACTERS) if now[i][a] != sheet[i][a]}


def lines_of(cells):
    return sorted({i for i, _ in cells})


def runs(addresses):
    """The first address and the length of each run of addresses."""
    ends = [a for a in range(CHARACTERS + 1) if (a in addresses) != (a - 1 in addresses)]
    return [(first, after - first) for first, after in zip(ends[::2], ends[1::2])]


def middle(i):
    """Where the middle of a line lies."""
    return TOP + CELL * i + CELL // 2


def drawn_cells(left, cells, colour):
    """Cells of one colour, a path for each line that has any."""
    yield f'<g stroke="{colour}" stroke-width="{CELL}">'
    for i in lines_of(cells):
        strokes = (f"M{left + CELL * first} {middle(i)}h{CELL * length}" for first, length in runs({a for line, a in cells if line == i}))
        yield f'<path d="{"".join(strokes)}"/>'
    yield "</g>"


def grid(left):
    """White lines between the cells of a square, as a pattern."""
    return (
        f'<pattern id="grid{left}" x="{left}" y="{TOP}" width="{CELL}" height="{CELL}" patternUnits="userSpaceOnUse">'
        f'<path d="M0 0H{CELL}M0 0V{CELL}" stroke="{WHITE}"/></pattern>'
    )


def square(left, said, wrong, right, damaged):
    """The sheet at one time: its wrong cells, those of the damaged lines in their own colour, and the cells that have become right."""
    place = f'x="{left}" y="{TOP}" width="{SQUARE}" height="{SQUARE}"'
    yield grid(left)
    yield f'<rect {place} fill="{GROUND}"/>'
    yield from drawn_cells(left, right, PALE)
    yield from drawn_cells(left, {cell for cell in wrong if cell[0] not in damaged}, ORANGE)
    yield from drawn_cells(left, {cell for cell in wrong if cell[0] in damaged}, BLUE)
    yield f'<rect {place} fill="url(#grid{left})"/>'
    yield f'<rect {place} fill="none" stroke="{PALE}"/>'
    yield f'<path d="M{left} {TOP + CELL * FREE}h{SQUARE}" stroke="{INK}"/>'
    for j, (words, weight) in enumerate(zip(said, ("bold", "normal"))):
        yield text(left + SQUARE / 2, TOP - 40 + 20 * j, words, f'text-anchor="middle" fill="{INK}" font-weight="{weight}"')


def pointer(x, y, filled):
    """An arrow to the right, with its tip at a point."""
    return arrow((x, y), (x - 8, y - 5), (x - 8, y + 5), BLUE, filled)


def squares(told):
    """The three sheets, with arrows at the damaged lines and, at the first, their numbers."""
    before = set()
    for k, (wrong, said) in enumerate(zip(told.wrong, headings(told))):
        left = LEFT + k * (SQUARE + GAP)
        yield from square(left, said, wrong, before - wrong, told.damaged)
        yield from (pointer(left - 5, middle(i), k == 0 or i not in told.misread) for i in told.damaged if k < 2)
        before = wrong
    yield from (text(LEFT - 19, middle(i), i, f'text-anchor="end" fill="{BLUE}" font-weight="bold"') for i in told.damaged)


def headings(told):
    """What stands above each of the three: when, and how many characters are wrong."""
    scan, lines_read, columns_read = map(len, told.wrong)
    yield "as scanned", f"{scan} characters wrong"
    yield "after its lines were read", f"{lines_read} wrong, all in {COUNTS[len(told.damaged)]} lines"
    yield "after its columns were read", f"{columns_read or 'none'} wrong"


def misread_line(told, i):
    """What became of a line that was read as another."""
    scan, lines_read = (COUNTS[sum(line == i for line, _ in wrong)] for wrong in told.wrong[:2])
    return f"line {i}, read as another line: {scan} were wrong, {lines_read} are"


def cell_sign(colour):
    return lambda x, y: f'<rect x="{x - 6}" y="{y - 6}" width="12" height="12" fill="{colour}"/>'


def pointer_sign(filled):
    return lambda x, y: pointer(x + 4, y, filled)


def border_sign(x, y):
    return f'<path d="M{x - 8} {y}h16" stroke="{INK}"/>'


def legend(told):
    """What stands for what, below the sheets, in two columns."""
    rows = [
        (cell_sign(BLUE), f"wrong, in one of the {COUNTS[len(told.damaged)]} damaged lines"),
        (cell_sign(ORANGE), f"wrong, in another line: at most {COUNTS[MENDED]} in each"),
        (cell_sign(PALE), "put right in this step"),
        (pointer_sign(True), "a damaged line"),
        *((pointer_sign(False), misread_line(told, i)) for i in told.misread),
        (border_sign, f"below it, the {COUNTS[CHECKS]} lines that the columns force"),
    ]
    for k, (sign, said) in enumerate(rows):
        x, y = LEFT + 6 + k // 3 * LEGEND_COLUMN, TOP + SQUARE + 32 + k % 3 * 24
        yield sign(x, y)
        yield text(x + 18, y, said, f'fill="{INK}"')


def description(told):
    return "; ".join(f"{when}: {count}" for when, count in headings(told)) + "; " + "; ".join(misread_line(told, i) for i in told.misread) + "."


def picture(product):
    """The picture as a file's text."""
    told = story(product)
    return framed(HEAD, WIDTH, HEIGHT, [*squares(told), *legend(told)], [description(told)])
