"""Tests of the handbook's picture of a sheet: words are read as the code has it, the damage is what the promise allows, and what is drawn are the wrong cells.

It takes no words."""

import re
import sys
import unittest

sys.dont_write_bytecode = True
import sheet_picture
from clean_words import CHARACTERS, CHECKS, MENDED, Code, added
from drawing import BLUE, ORANGE, PALE
from shared import words
from tray import MARKS, line, product

CLEAN = [0] * CHECKS


class Tests(unittest.TestCase):
    def setUp(self):
        self.code, self.chance = Code(product), sheet_picture.Chance()

    def any_clean_word(self):
        return self.code.filled(self.chance.word(CHARACTERS), self.chance.addresses(CHECKS))

    def test_lines(self):
        """A line of tray.py, which divides by the generator, is the clean word with its first 52 characters once the marks are off."""
        for _ in range(20):
            clean = added(line(self.chance.word(50), self.chance.below(4096)), MARKS)
            self.assertEqual(self.code.filled(clean, sheet_picture.LAST), clean)

    def test_clean_words(self):
        for _ in range(20):
            word, addresses = self.chance.word(CHARACTERS), self.chance.addresses(CHECKS)
            clean = self.code.filled(word, addresses)
            self.assertEqual(self.code.sums(clean), CLEAN)
            self.assertLessEqual({a for a in range(CHARACTERS) if clean[a] != word[a]}, set(addresses))

    def test_reading(self):
        for count in range(MENDED + 1):
            for _ in range(10):
                clean = self.any_clean_word()
                self.assertEqual(self.code.kept(added(clean, self.chance.errors(self.chance.addresses(count)))), clean)
        left = 0
        for _ in range(100):
            word = added(self.any_clean_word(), self.chance.errors(self.chance.addresses(MENDED + 1 + self.chance.below(9))))
            kept = self.code.kept(word)
            left += kept == word
            self.assertTrue(kept == word or self.code.sums(kept) == CLEAN and sum(c != d for c, d in zip(kept, word)) <= MENDED)
        self.assertGreater(left, 90)

    def test_sheet(self):
        sheet = sheet_picture.proper_sheet(self.code, self.chance)
        for word in sheet + sheet_picture.turned(sheet):
            self.assertEqual((len(word), self.code.sums(word)), (CHARACTERS, CLEAN))

    def test_story(self):
        (scan, lines_read, columns_read), damaged, misread = sheet_picture.story(product)
        self.assertEqual((damaged, misread), (sorted([*sheet_picture.DUSTY, sheet_picture.SCRATCHED, sheet_picture.BETWEEN]), [sheet_picture.BETWEEN]))
        for i in range(CHARACTERS):
            wrong = sum(at == i for at, _ in scan)
            self.assertEqual(wrong > MENDED, i in damaged)
        self.assertEqual(columns_read, set())
        self.assertEqual(sum(at == sheet_picture.BETWEEN for at, _ in lines_read), sheet_picture.APART)

    def test_cells(self):
        """The cells of each colour in each square of the picture are those of the story."""
        told, drawn = sheet_picture.story(product), {}
        for colour, paths in re.findall(rf'<g stroke="(.*?)" stroke-width="{sheet_picture.CELL}">(.*?)</g>', sheet_picture.picture(product), re.DOTALL):
            for x, y, length in (map(int, stroke) for stroke in re.findall(r"M(\d+) (\d+)h(\d+)", paths)):
                square, inside = divmod(x - sheet_picture.LEFT, sheet_picture.SQUARE + sheet_picture.GAP)
                i, first = (y - sheet_picture.TOP) // sheet_picture.CELL, inside // sheet_picture.CELL
                drawn.setdefault((square, colour), set()).update((i, first + k) for k in range(length // sheet_picture.CELL))
        scan, lines_read, _ = told.wrong
        in_damaged = {cell for cell in scan if cell[0] in told.damaged}
        self.assertEqual(
            drawn,
            {(0, BLUE): in_damaged, (0, ORANGE): scan - in_damaged, (1, BLUE): lines_read, (1, PALE): scan - lines_read, (2, PALE): lines_read},
        )


if __name__ == "__main__":
    words(__doc__)
    unittest.main()
