"""Tests of sheets: what is encoded is proper and has its texts and numbers, the damage of the promise is undone, an improper sheet is raised with its rounds,
and the refusals come in their order."""

import itertools
import random
import unittest

from words import TestCase, film, number_of, random_line, read_as

# How many lines, or characters of a line, are put right.
MOST = 5

# The line of zeros: nothing but the marks.
MARKS = film.encode_line(bytes(50), 0)

BYTES_OVER = (64, 65, 127, 128, 192, 255)
NUMBERS_OVER = (4096, 4097, 8191, 32768, 65535, 65536, 65536 + 65)


def added(one, other):
    return bytes(c ^ d for c, d in zip(one, other))


class Tests(TestCase):
    def setUp(self):
        self.chance = random.Random(1)

    def texts(self):
        return bytes(self.chance.choices(range(64), k=film.TEXTS))

    def numbers(self):
        return self.chance.choices(range(4096), k=film.NUMBERS)

    def sheet(self):
        return film.encode_sheet(self.texts(), self.numbers())

    def spoil(self, scan, i, addresses):
        """Other characters at these addresses of a line."""
        for a in addresses:
            scan[63 * i + a] ^= self.chance.randrange(1, 64)

    def is_read(self, scan, sheet, rounds):
        out = bytearray(film.SHEET)
        self.assertEqual(film.read_sheet(scan), (sheet, rounds))
        self.assertEqual(film.read_sheet(list(scan), out), (sheet, rounds))
        self.assertEqual(out, sheet)

    def is_improper(self, scan, left, rounds):
        for out in (None, bytearray([170] * film.SHEET)):
            with self.assertRaises(film.ImproperSheet) as caught:
                film.read_sheet(scan, out)
            self.assertEqual((caught.exception.number, caught.exception.sheet, caught.exception.rounds), (16, left, rounds))
            self.assertTrue(str(caught.exception).startswith("refused (16): sheet reading: "))
        self.assertEqual(out, left)

    def is_line(self, word):
        self.assertEqual(film.read_line(word, 0), read_as(word, word))

    def is_encoded(self, texts, numbers):
        """The sheet has its texts and numbers, every line is one and every column a clean word, and it is read in one round."""
        sheet, out = film.encode_sheet(texts, numbers), bytearray(film.SHEET)
        self.assertEqual(film.encode_sheet(list(texts), iter(numbers), out), sheet)
        self.assertEqual(out, sheet)
        lines = [sheet[at : at + 63] for at in range(0, film.SHEET, 63)]
        for i, number in enumerate(numbers):
            self.assertEqual((lines[i], number_of(lines[i])), (film.encode_line(texts[50 * i : 50 * i + 50], number), number))
        for a, line in enumerate(lines):
            self.is_line(line)
            # a clean word is a line with the marks on
            self.is_line(bytes(c ^ MARKS[a] ^ mark for c, mark in zip(sheet[a::63], MARKS)))
        self.is_read(sheet, sheet, 1)

    def test_encoding(self):
        self.is_encoded(bytes(film.TEXTS), [0] * film.NUMBERS)
        self.is_encoded(bytes([63] * film.TEXTS), [4095] * film.NUMBERS)
        for _ in range(10):
            self.is_encoded(self.texts(), self.numbers())
        self.assertEqual((film.SHEET, film.TEXTS, film.NUMBERS, film.ROUNDS), (63 * 63, 50 * 52, 52, 8))

    def test_promise(self):
        """Up to five lines with any characters or with another line in them, and up to five wrong characters in each other: two rounds, or one."""
        for destroyed, wrong, is_a_line in itertools.product(range(MOST + 1), range(MOST + 1), (False, True)):
            sheet = self.sheet()
            scan = bytearray(sheet)
            for k, i in enumerate(self.chance.sample(range(63), 63)):
                if k < destroyed:
                    scan[63 * i : 63 * i + 63] = random_line(self.chance) if is_a_line else self.chance.choices(range(64), k=63)
                else:
                    self.spoil(scan, i, self.chance.sample(range(63), wrong))
            self.is_read(scan, sheet, 2 if destroyed + wrong else 1)

    def test_improper(self):
        """Six lines with six wrong characters each, in the same columns: neither can be read. They are left, in one round; where other lines have wrong
        characters too, these are put right, in two."""
        for wrong in (*range(MOST + 1), *range(MOST + 1)):
            scan = bytearray(self.sheet())
            lines, columns = self.chance.sample(range(63), 63), self.chance.sample(range(63), MOST + 1)
            for i in lines[: MOST + 1]:
                self.spoil(scan, i, columns)
            left = bytes(scan)
            for i in lines[MOST + 1 :]:
                self.spoil(scan, i, self.chance.sample(range(63), wrong))
            self.is_improper(scan, left, 2 if wrong else 1)

    def clean(self):
        """A clean word: the sum of two lines."""
        return added(random_line(self.chance), random_line(self.chance))

    def test_lines_alone(self):
        """Six lines with a clean word added that is nowhere 0: each line is one, no column can be read, and all is left as it is."""
        for _ in range(8):
            scan = bytearray(self.sheet())
            clean = next(word for word in iter(self.clean, None) if 0 not in word)
            for i in self.chance.sample(range(63), MOST + 1):
                scan[63 * i : 63 * i + 63] = added(scan[63 * i : 63 * i + 63], clean)
            self.is_improper(scan, bytes(scan), 1)

    def test_columns_undo_lines(self):
        """Six columns with clean words added: a line is read where one of them is 0, and the columns undo it where these are five lines at most. So the round
        ends as it began, though it changed characters."""
        tried = 0
        while tried < 8:
            scan, zeros = bytearray(self.sheet()), set()
            for a in self.chance.sample(range(63), MOST + 1):
                clean = self.clean()
                scan[a::63] = added(scan[a::63], clean)
                zeros |= {i for i in range(63) if clean[i] == 0}
            if 1 <= len(zeros) <= MOST:
                self.is_improper(scan, bytes(scan), 1)
                tried += 1

    def test_lengths(self):
        """The lengths of what is given come before the output's, and that before values."""
        scan, texts, numbers = [64] * (film.SHEET + 1), [64] * (film.TEXTS + 1), [4096] * (film.NUMBERS + 1)
        due_texts, due_numbers = texts[: film.TEXTS], numbers[: film.NUMBERS]
        for length in (0, 1, 63, film.SHEET - 1, film.SHEET + 1):
            for room in (length, film.SHEET):
                self.refused(1, film.read_sheet, scan[:length], room=room)
            self.refused(5, film.read_sheet, scan[: film.SHEET], room=length)
            self.refused(5, film.encode_sheet, due_texts, due_numbers, room=length)
        lengths, counts = (0, 1, 50, film.TEXTS - 1, film.TEXTS + 1), (0, 1, film.NUMBERS - 1, film.NUMBERS + 1)
        for length, count, room in itertools.product(lengths, counts, (0, film.SHEET - 1, film.SHEET, film.SHEET + 1)):
            self.refused(1, film.encode_sheet, texts[:length], due_numbers, room=room)
            self.refused(1, film.encode_sheet, due_texts, numbers[:count], room=room)
            self.refused(1, film.encode_sheet, texts[:length], numbers[:count], room=room)

    def test_values_and_numbers(self):
        """A byte that is no character, in every column of a sheet and of its texts, where it comes before a number that is too large, at any place."""
        sheet, texts, numbers = bytearray(self.sheet()), bytearray(self.texts()), self.numbers()
        for i, over in zip(range(film.NUMBERS), itertools.cycle(NUMBERS_OVER)):
            self.refused(4, film.encode_sheet, texts, numbers[:i] + [over] + numbers[i + 1 :], room=film.SHEET)
        numbers[0] = 4096
        for given, call, others in ((sheet, film.read_sheet, ()), (texts, film.encode_sheet, (numbers,))):
            for k, over in zip((*range(0, len(given), 13), len(given) - 1), itertools.cycle(BYTES_OVER)):
                kept, given[k] = given[k], over
                self.refused(2, call, given, *others, room=film.SHEET)
                given[k] = kept

    def test_no_bytes(self):
        self.assertRaises(TypeError, film.read_sheet, film.SHEET)
        self.assertRaises(ValueError, film.read_sheet, [256] * film.SHEET)
        self.assertRaises(TypeError, film.encode_sheet, film.TEXTS, self.numbers())
        self.assertRaises(TypeError, film.encode_sheet, self.texts(), film.NUMBERS)
        self.assertRaises(ValueError, film.encode_sheet, self.texts(), [-1] * film.NUMBERS)


if __name__ == "__main__":
    unittest.main()
