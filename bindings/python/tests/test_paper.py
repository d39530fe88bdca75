"""Tests of reading a line by the method of 1968: what is due where the line is known, what read_line gives for any word, and the refusals in their order."""

import itertools
import random
import unittest

from words import TestCase, film, number_of, random_line, read_as


def with_errors(line, addresses, values):
    word = bytearray(line)
    for a, value in zip(addresses, values):
        word[a] ^= value
    return word


class Tests(TestCase):
    def setUp(self):
        self.chance = random.Random(1)

    def values(self, count):
        return [self.chance.randrange(1, 64) for _ in range(count)]

    def scan(self, wrong):
        """A line, and the word with so many wrong characters."""
        line = random_line(self.chance)
        return line, with_errors(line, self.chance.sample(range(63), wrong), self.values(wrong))

    def refused(self, number, word, radius, wanted=None, room=63):
        """The word is refused with this number, and an output of a length is left alone."""
        super().refused(number, film.read_line_paper, word, radius, wanted, room=room)

    def is_read(self, line, word, radius):
        """The word is read as the line, with no wanted number and with its own; any other is refused, one that the word shows too."""
        due = read_as(line, word)
        for wanted in (None, due[1]):
            out = bytearray(63)
            self.assertEqual(film.read_line_paper(word, radius, wanted), due)
            self.assertEqual(film.read_line_paper(list(word), radius, wanted, out), due)
            self.assertEqual(out, line)
        for wanted in {(due[1] + self.chance.randrange(1, 4096)) % 4096, number_of(word)} - {due[1]}:
            self.refused(7, word, radius, wanted)

    def is_no_line(self, line, word, radius):
        """There is no line, whichever number is wanted; one that is too large is refused before."""
        for wanted in (None, 0, number_of(line), 4095):
            self.refused(6, word, radius, wanted)
        self.refused(4, word, radius, 4096)

    def test_every_count(self):
        """Every count of wrong characters at every radius: with six at most any other line is too far away, since two lines differ in 12 addresses or more."""
        for radius, wrong, _ in itertools.product(range(6), range(7), range(10)):
            line, word = self.scan(wrong)
            if wrong <= radius:
                self.is_read(line, word, radius)
            else:
                self.is_no_line(line, word, radius)

    def test_every_two_addresses(self):
        """Every one and every two addresses, with equal values and with any."""
        for addresses in itertools.chain(((a,) for a in range(63)), itertools.combinations(range(63), 2)):
            line, value = random_line(self.chance), self.chance.randrange(1, 64)
            for values in ([value, value], self.values(2)):
                self.is_read(line, with_errors(line, addresses, values), self.chance.randrange(len(addresses), 6))

    def test_equal_values(self):
        """Up to five wrong characters of one value."""
        for value, wrong in itertools.product(range(1, 64), range(1, 6)):
            line = random_line(self.chance)
            word = with_errors(line, self.chance.sample(range(63), wrong), [value] * wrong)
            self.is_read(line, word, wrong)
            self.is_no_line(line, word, wrong - 1)

    def test_six_as_five(self):
        """Six wrong characters whose first ten sums are those of five: the last sum alone tells that there is no line."""
        line = random_line(self.chance)
        for radius in range(6):
            self.is_no_line(line, with_errors(line, range(6), (1, 1, 4, 4, 5, 3)), radius)

    def is_as_otherwise(self, word, radius, wanted):
        """What read_line gives or raises, and leaves in an output."""
        out, due_out = bytearray([170] * 63), bytearray([170] * 63)
        try:
            due = film.read_line(word, radius, wanted, due_out)
        except film.Refused as refused:
            self.refused(refused.number, word, radius, wanted)
        else:
            self.assertEqual(film.read_line_paper(word, radius, wanted, out), due)
            self.assertEqual(out, due_out)

    def test_any_word(self):
        """Lines with any count of wrong characters, and words with any characters and with bytes that are none."""
        for wrong in range(64):
            line, word = self.scan(wrong)
            high = with_errors(word, [self.chance.randrange(63)], [64])
            for given in (word, high, self.chance.choices(range(64), k=63), [wrong] * 63):
                wanted = (None, number_of(line), self.chance.randrange(4096), 4096)
                for radius, number in itertools.product(range(8), wanted):
                    self.is_as_otherwise(given, radius, number)

    def test_lengths(self):
        """Lengths come before values, and those before the radius and the wanted number."""
        word = bytes([64] * 126)
        for length, wanted in itertools.product((0, 1, 62, 64, 126), (None, 0, 4096)):
            for room in (62, 63, length):
                self.refused(1, word[:length], 6, wanted, room)
            self.refused(5, word[:63], 6, wanted, length)

    def test_values_radii_and_numbers(self):
        """A byte that is no character, at any address, comes before the radius, and that before the wanted number."""
        for a, wanted in itertools.product(range(63), (None, 0, 4096)):
            word = self.scan(a % 8)[1]
            for radius in (6, 7, 8, 64, 255, 256, 261):
                self.refused(3, word, radius, wanted)
            for over, radius in itertools.product((64, 65, 127, 128, 192, 255), (5, 6)):
                word[a] = over
                self.refused(2, word, radius, wanted)
        for wrong, wanted in itertools.product(range(8), (4096, 4097, 8191, 32768, 65535, 65536, 65536 + 65)):
            self.refused(4, self.scan(wrong)[1], 5, wanted)

    def test_no_bytes(self):
        line = random_line(self.chance)
        self.assertRaises(TypeError, film.read_line_paper, 63, 5)
        self.assertRaises(ValueError, film.read_line_paper, [256] * 63, 5)
        self.assertRaises(ValueError, film.read_line_paper, line, -1)
        self.assertRaises(ValueError, film.read_line_paper, line, 5, -1)


if __name__ == "__main__":
    unittest.main()
