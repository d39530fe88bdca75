"""Draws a line, for the handbook: its 63 addresses, what stands where, the three marks, and the characters of a note as letters and as numbers."""

from drawing import BLUE, GREEN, INK, ORANGE, PLACES, WHITE, framed, path, text
from tray import MARKS, line

NOTE, NUMBER = "GLASS NEGATIVE, HARBOUR, 1931", 65
# the first addresses of the letters, of the number and of the checks
LETTERED, NUMBERED, CHECKED = 1, 50, 52

CELL, CELL_HEIGHT, LEFT = 14, 20, 104
WIDTH, HEIGHT = LEFT + CELL * PLACES + 18, 292
# the middles of the rows: the title, the names of the parts, the addresses, the letters, the characters, the marks, and what is said of the parts
TITLE, NAMES, ADDRESSES, LETTERS, CHARACTERS, MARKED, SAID, SAID_ROW = 26, 62, 88, 116, 142, 178, 212, 22
HEAD = "A line: 63 characters by address, what stands where, the three marks, and a note as letters and as numbers."
INKED, BOLD, MIDDLE, END, SMALL = f'fill="{INK}"', 'font-weight="bold"', 'text-anchor="middle"', 'text-anchor="end"', 'font-size="9.5"'


def characters():
    """The line that is drawn: kind 0, the note and blanks, the number, and the checks."""
    return line([0, *(ord(letter) - 32 for letter in NOTE.ljust(NUMBERED - LETTERED))], NUMBER)


def parts(word):
    """The parts of a line, each with its first address, the one after its last, its colour, its name and what is said of it."""
    high, low = word[NUMBERED:CHECKED]
    marks = ", ".join(f"{mark} at {address}" for address, mark in MARKS.items())
    yield 0, LETTERED, ORANGE, "kind", f"{word[0]}: a plain note; 1 is a template. It is no letter, and the first of the 50 characters of the text."
    yield LETTERED, NUMBERED, INK, "letters", "A character v stands for the ASCII character 32 + v. Blanks, which are 0, fill the rest."
    yield NUMBERED, CHECKED, BLUE, "number", f"{high} times 64 and {low} is {NUMBER}."
    yield CHECKED, PLACES, GREEN, "checks", f"Worked out from all before them, and three marks are added to them, by exclusive or: {marks}."


def left_of(address):
    return LEFT + CELL * address


def middle_of(address):
    return left_of(address) + CELL / 2


def cells(y, first, after, colour, strength):
    """The cells of a part in one row, tinted with its colour."""
    top = y - CELL_HEIGHT // 2
    yield (f'<rect x="{left_of(first)}" y="{top}" width="{CELL * (after - first)}" height="{CELL_HEIGHT}" fill="{colour}" '
           f'fill-opacity="{strength}"/>')
    yield f'<path d="{"".join(f"M {left_of(address)} {top} v {CELL_HEIGHT} " for address in range(first, after + 1))}" stroke="{WHITE}"/>'


def drawn_part(first, after, colour, name):
    """A part of the line: its name, and its cells in the row of addresses and in that of characters."""
    yield text((left_of(first) + left_of(after)) / 2, NAMES, name, f'{MIDDLE} fill="{colour}" {BOLD}')
    yield from cells(ADDRESSES, first, after, colour, 0.25)
    yield from cells(CHARACTERS, first, after, colour, 0.1)


def row(y, name, values, more):
    """A row: its name, and a value at each address that has one."""
    yield text(LEFT - 12, y, name, f"{END} {INKED}")
    for address, value in values:
        yield text(middle_of(address), y - 1.5, value, f"{MIDDLE} {more}")


def diamond(x, y):
    return path([(x, y - 6), (x + 6, y), (x, y + 6), (x - 6, y)], f'fill="{GREEN}"')


def rows(word):
    yield from row(ADDRESSES, "address", enumerate(range(PLACES)), f"{INKED} {SMALL}")
    yield from row(LETTERS, "letter", enumerate(NOTE, LETTERED), f"{INKED} {BOLD}")
    yield from row(CHARACTERS, "character v", enumerate(word), f"{INKED} {SMALL}")
    yield from row(MARKED, "marks", MARKS.items(), f'fill="{GREEN}" {BOLD}')
    for address in MARKS:
        yield diamond(middle_of(address), (CHARACTERS + MARKED) / 2)


def picture():
    """The picture as a file's text."""
    word = characters()
    elements = [text(LEFT, TITLE, f"The line of the note {NOTE} with number {NUMBER}", f'{INKED} font-size="16"')]
    for i, (first, after, colour, name, said) in enumerate(parts(word)):
        elements += drawn_part(first, after, colour, name)
        elements.append(text(LEFT - 12, SAID + SAID_ROW * i, name, f'{END} fill="{colour}" {BOLD}'))
        elements.append(text(LEFT, SAID + SAID_ROW * i, said, INKED))
    described = " ".join(f"Addresses {first} to {after - 1}, {name}: {said}" for first, after, _, name, said in parts(word))
    return framed(HEAD, WIDTH, HEIGHT, [*elements, *rows(word)], [described])
