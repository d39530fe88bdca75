"""Tests of the handbook's picture of a smudge: blocks are staggered and read by the rules, the example is that of 000, and what is drawn is what reading does.

It takes no words."""

import random
import re
import sys
import unittest

sys.dont_write_bytecode = True
import smudge_picture
from drawing import BLUE, GREEN, ORANGE, WHITE
from shared import words
from smudge_picture import ALL, CELL, GAP, LEFT, SIDE, SQUARE, STAGGERED, STRAIGHT, TOP, cells_of, mended, moved, rows_of, stored, window
from tray import block

EVEN_COLUMNS, ODD_COLUMNS, BRIGHT = 0b01010101, 0b10101010, 0b11111111
LETTERED = re.compile(r'<rect x="(\d+)" y="(\d+)".* fill="(.*?)" stroke="(.*?)" stroke-width="2"/>\n<text.*>([a-d])</text>')


def straightened(rows):
    """By whole bytes: the odd columns of a row come from two rows below, and then an odd row is turned two bits toward bit 0."""
    up = [rows[i] & EVEN_COLUMNS | rows[(i + 2) % SIDE] & ODD_COLUMNS for i in ALL]
    return [(up[i] >> 2 | up[i] << 6) & BRIGHT if i % 2 else up[i] for i in ALL]


def place(x, y):
    """The square, the row and the column of a point in the picture, or None where it lies in no square."""
    k, inside = divmod(x - LEFT, SQUARE + GAP)
    return (k, ((y - TOP) // CELL, inside // CELL)) if TOP <= y < TOP + SQUARE and 0 <= inside < SQUARE else None


class Tests(unittest.TestCase):
    def setUp(self):
        self.chance = random.Random(1968)

    def any_rows(self, below, count):
        return [int(self.chance.random() * below) for _ in range(count)]

    def any_stored(self):
        return stored(self.any_rows(128, SIDE - 1))

    def test_straightening(self):
        for _ in range(100):
            rows = self.any_rows(256, SIDE)
            self.assertEqual(rows_of(cells_of(rows)), rows)
            self.assertEqual(rows_of(moved(cells_of(rows), STRAIGHT)), straightened(rows))
            self.assertEqual(straightened(rows_of(moved(cells_of(rows), STAGGERED))), rows)

    def test_encoding(self):
        self.assertEqual(rows_of(stored([1, 2, 3, 4, 5, 6, 7])), [131, 170, 129, 26, 7, 18, 5, 93])
        for _ in range(100):
            data = self.any_rows(128, SIDE - 1)
            rows = straightened(rows_of(stored(data)))
            self.assertEqual([row % 128 for row in rows[:-1]], data)
            self.assertEqual([bin(row).count("1") % 2 for row in rows], [0] * SIDE)
            self.assertEqual([sum(row >> j & 1 for row in rows) % 2 for j in ALL], [1] * SIDE)
            self.assertEqual(rows, list(block(data)))

    def test_fillings(self):
        """49 windows with 16 fillings each, of which 520 differ."""
        fillings = list(smudge_picture.fillings())
        self.assertEqual((len(fillings), len(set(fillings))), (49 * 16, 520))
        self.assertTrue(all(i in ALL and j in ALL for cells in fillings for i, j in cells))

    def test_reading(self):
        """Every filling of a window is found again, on a block of its own."""
        for cells in set(smudge_picture.fillings()):
            self.assertEqual(mended(self.any_stored() ^ cells), cells)

    def test_refused(self):
        """Whole windows that go around the edge, two whole windows apart, and film that is dark or bright are not read."""
        around = [frozenset((i % SIDE, j % SIDE) for i, j in window(top, left)) for top in ALL for left in ALL if SIDE - 1 in (top, left)]
        apart = [frozenset(window(0, 0) + window(top, left)) for top, left in [(0, 2), (2, 0), (4, 4), (6, 6)]]
        self.assertEqual(len(around), 15)
        for cells in around + apart:
            self.assertIsNone(mended(self.any_stored() ^ cells))
        for cells in frozenset(), frozenset(STRAIGHT):
            self.assertIsNone(mended(cells))

    def test_story(self):
        """The example of 000: the four cells of the window at row 4, column 3, and where they come to."""
        (clean, smudged, straight, read), wrong, rows, columns, distance = smudge_picture.story()
        self.assertEqual((wrong[0], wrong[1]), ([], [(4, 3), (4, 4), (5, 3), (5, 4)]))
        self.assertEqual(wrong[2], [(2, 3), (4, 4), (3, 1), (5, 2)])
        self.assertEqual(wrong[3], wrong[1])
        self.assertEqual((rows, columns), ({2, 3, 4, 5}, {1, 2, 3, 4}))
        self.assertEqual(rows_of(straight), straightened(rows_of(smudged)))
        self.assertEqual(clean ^ smudged, set(wrong[1]))
        self.assertEqual((read, distance), (clean, 4))

    def test_headings(self):
        self.assertEqual(
            list(smudge_picture.headings(smudge_picture.story())),
            [
                ("as stored", "data 1 2 3 4 5 6 7"),
                ("with a smudge", "window at row 4, column 3"),
                ("straightened", "four rows, four columns fail"),
                ("as read", "as stored, distance 4"),
            ],
        )

    def test_cells(self):
        """The bright cells of each square are those of the story, and so are the cells with letters, with their colours."""
        told, picture = smudge_picture.story(), smudge_picture.picture()
        bright, lettered = {}, {}
        for strokes in re.findall(rf'<path d="(.*?)" fill="{WHITE}"/>', picture):
            for x, y in re.findall(rf"M(\d+) (\d+)h{CELL}v{CELL}h-{CELL}z", strokes):
                square, cell = place(int(x), int(y))
                bright.setdefault(square, set()).add(cell)
        for x, y, inside, colour, letter in LETTERED.findall(picture):
            at = place(int(x), int(y))
            if at:
                lettered[at[0], letter] = (at[1], colour, inside == WHITE)
        self.assertEqual([bright[k] for k in range(4)], [set(cells) for cells in told.bright])
        colours = [None, ORANGE, ORANGE, GREEN]
        self.assertEqual(lettered, {(k, letter): (cell, colours[k], cell in told.bright[k]) for k in range(4) for letter, cell in zip("abcd", told.wrong[k])})

    def test_margins(self):
        """Arrows stand at the rows and columns that fail, of the third square alone; each row has its byte."""
        told, picture = smudge_picture.story(), smudge_picture.picture()
        left = LEFT + 2 * (SQUARE + GAP)
        tips = [tuple(map(float, tip)) for tip in re.findall(rf'<path d="M (\S+) (\S+) L [^"]*" fill="{BLUE}"', picture)]
        rows = {(y - TOP) // CELL for x, y in tips if TOP < y < TOP + SQUARE and left - GAP / 2 < x < left}
        columns = {(x - left) // CELL for x, y in tips if TOP - CELL - CELL < y < TOP and left < x < left + SQUARE}
        self.assertEqual((rows, columns), (told.rows, told.columns))
        in_legend = [y for _, y in tips if y > TOP + SQUARE]
        self.assertEqual(len(tips), len(rows) + len(columns) + len(in_legend))
        for k in range(4):
            beside = re.findall(rf'<text x="{LEFT + k * (SQUARE + GAP) + SQUARE + 6:.1f}" .*>(\d+)</text>', picture)
            self.assertEqual([int(byte) for byte in beside], rows_of(told.bright[k]))

    def test_same_again(self):
        self.assertEqual(smudge_picture.picture(), smudge_picture.picture())


if __name__ == "__main__":
    words(__doc__)
    unittest.main()
