"""Tests of blocks that outlast a smudge: what is encoded straightens to what encode_block gives, every window with every filling is read back, two cells that
are far apart are read or refused by their wrong rows and columns, and the refusals come in their order."""

import itertools
import random
import unittest

from words import TestCase, film

# The rows of a block, and its columns. The top left cell of a window that does not go around the edge has a row and a column below EDGE.
SIDE = range(8)
EDGE = 7

# Which cells of a window are wrong: two bits for the upper row, two for the lower one; and the two of each of its rows and columns.
FILLINGS = range(16)
UPPER, LOWER, LEFT, RIGHT = 0b0011, 0b1100, 0b0101, 0b1010

# The example that has its stored form written down.
DATA = bytes([1, 2, 3, 4, 5, 6, 7])
STORED = bytes([131, 170, 129, 26, 7, 18, 5, 93])

DARK, BRIGHT = bytes(8), bytes([255] * 8)


def of_cells(cells):
    """Rows with these cells, each a row and a column, set."""
    rows = bytearray(8)
    for i, j in cells:
        rows[i] |= 1 << j
    return bytes(rows)


def cells_of(rows):
    return {(i, j) for i, j in itertools.product(SIDE, SIDE) if rows[i] >> j & 1}


def window(top, left, filling):
    """The wrong cells of a window, which may go around the edge."""
    return of_cells(((top + bit // 2) % 8, (left + bit % 2) % 8) for bit in range(4) if filling >> bit & 1)


def windows(edge):
    """Every window whose top left cell has a row and a column below the edge, with every filling."""
    return itertools.product(range(edge), range(edge), FILLINGS)


def added(rows, wrong):
    return bytes(row ^ turned for row, turned in zip(rows, wrong))


def straightened(stored):
    """Each cell of an odd column goes two rows up, and each of an odd row two columns toward 0: a row stays odd or even when it goes up."""
    return of_cells(((i - 2 * (j % 2)) % 8, (j - 2 * (i % 2)) % 8) for i, j in cells_of(stored))


def wrong_of(stored):
    """The wrong rows and the wrong columns of what these rows straighten to: rows that are odd, columns that are even."""
    cells = cells_of(straightened(stored))
    rows = frozenset(i for i in SIDE if len([cell for cell in cells if cell[0] == i]) % 2 == 1)
    return rows, frozenset(j for j in SIDE if len([cell for cell in cells if cell[1] == j]) % 2 == 0)


class Tests(TestCase):
    def setUp(self):
        chance = random.Random(1)
        self.several = [bytes(7), bytes([127] * 7), DATA, *(bytes(chance.choices(range(128), k=7)) for _ in range(5))]
        self.blocks = [film.encode_smudge(data) for data in self.several]

    def is_read(self, scan, block, distance):
        out = bytearray([170] * film.SMUDGE)
        self.assertEqual(film.read_smudge(scan), (block, distance))
        self.assertEqual(film.read_smudge(list(scan), out), (block, distance))
        self.assertEqual(out, block)

    def no_block(self, scan):
        self.refused(9, film.read_smudge, scan)
        self.refused(9, film.read_smudge, scan, room=film.SMUDGE)

    def test_encoding(self):
        self.assertEqual(film.encode_smudge(DATA), STORED)
        for data, block in zip(self.several, self.blocks):
            out = bytearray([170] * film.SMUDGE)
            self.assertEqual(straightened(block), film.encode_block(data))
            self.assertEqual(film.encode_smudge(list(data), out), block)
            self.assertEqual(out, block)
            self.is_read(block, block, 0)
        self.assertEqual(film.SMUDGE, 8)

    def test_windows(self):
        for block, (top, left, filling) in itertools.product(self.blocks, windows(EDGE)):
            self.is_read(added(block, window(top, left, filling)), block, bin(filling).count("1"))

    def test_worked_example(self):
        """The worked example of 000: all four cells of the window at row 4 and column 3."""
        wrong = window(4, 3, UPPER | LOWER)
        self.assertEqual(cells_of(straightened(wrong)), {(3, 1), (5, 2), (2, 3), (4, 4)})
        for block in self.blocks:
            scan = added(block, wrong)
            self.assertEqual(wrong_of(scan), ({2, 3, 4, 5}, {1, 2, 3, 4}))
            self.is_read(scan, block, 4)

    def test_around_the_edge(self):
        """Windows around the edge, below, to the side and at the corner: they are refused, but for wrong cells that lie in another window too."""
        for block, (top, left, filling) in itertools.product(self.blocks, windows(EDGE + 1)):
            is_below = top == EDGE and filling & UPPER and filling & LOWER
            is_beside = left == EDGE and filling & LEFT and filling & RIGHT
            scan = added(block, window(top, left, filling))
            if is_below or is_beside:
                self.no_block(scan)
            else:
                self.is_read(scan, block, bin(filling).count("1"))

    def test_two_cells(self):
        """Every two cells: they are taken for the cells of a window that have the same wrong rows and columns, which are others where the two are far apart,
        and are refused where there are none."""
        smudges = {wrong_of(added(STORED, wrong)): wrong for wrong in itertools.starmap(window, windows(EDGE))}
        self.assertEqual(len(smudges), 520)
        for cells in itertools.combinations(itertools.product(SIDE, SIDE), 2):
            scan = added(STORED, of_cells(cells))
            wrong = smudges.get(wrong_of(scan))
            if wrong is None:
                self.no_block(scan)
            else:
                self.is_read(scan, added(scan, wrong), len(cells_of(wrong)))
        self.no_block(added(STORED, of_cells([(0, 0), (4, 5)])))

    def test_no_blocks(self):
        """Dark and bright film, and a block that is not staggered."""
        for rows in (DARK, BRIGHT, film.encode_block(DATA)):
            self.no_block(rows)

    def test_lengths(self):
        """The count of rows comes before the output's length, and that before the rows themselves: a block, dark film, or data rows that are too large."""
        rooms = (0, 1, 7, 9, 64)
        for length, room in itertools.product((0, 1, 2, 7, 9, 64), (None, 8, *rooms)):
            for rows in (DARK, STORED):
                self.refused(8, film.read_smudge, (rows * 8)[:length], room=room)
        for length, room in itertools.product((0, 1, 6, 8, 63, 64), (None, 8, *rooms)):
            for data in (DARK, BRIGHT):
                self.refused(8, film.encode_smudge, (data * 8)[:length], room=room)
        for room in rooms:
            for rows in (DARK, STORED):
                self.refused(5, film.read_smudge, rows, room=room)
            for data in (BRIGHT[:7], DATA):
                self.refused(5, film.encode_smudge, data, room=room)

    def test_values(self):
        """A data row that is too large, at any place."""
        for i, over in itertools.product(range(7), range(128, 256)):
            data = bytearray(DATA)
            data[i] = over
            self.refused(2, film.encode_smudge, data)
            self.refused(2, film.encode_smudge, data, room=film.SMUDGE)

    def test_types(self):
        """What reading and encoding a block take and do not take."""
        for kind in (bytes, bytearray, memoryview, list, tuple, iter):
            for call in (film.read_block, film.read_smudge):
                self.assertEqual(type(call(kind(film.encode_block(DATA) if call is film.read_block else STORED))), film.BlockRead)
            for call in (film.encode_block, film.encode_smudge):
                self.assertEqual(type(call(kind(DATA))), bytes)
        for call in (film.read_block, film.read_smudge, film.encode_block, film.encode_smudge):
            for given in (8, None, "12345678", [1.5] * 8):
                self.assertRaises(TypeError, call, given)
            for given in ([256] * 8, [-1] * 8):
                self.assertRaises(ValueError, call, given)
            for out in (bytes(8), [0] * 8):
                self.assertRaises(TypeError, call, DATA, out)


if __name__ == "__main__":
    unittest.main()
