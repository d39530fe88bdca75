"""Tests of reading a line with blots: every count of blots with every count of wrong characters, what stands at a blot, and the refusals in their order."""

import itertools
import random
import unittest

from words import TestCase, film, random_line, read_as

MOST = 11

# What stands at the blots: what was recorded, other characters everywhere, or either.
RECORDED, SPOILT, EITHER = FILLINGS = range(3)


def scan(chance, blots, wrong, filling):
    """A line with so many blots and so many wrong characters outside them: the line, the word that was scanned, and the map."""
    line = random_line(chance)
    word, map = bytearray(line), bytearray(63)
    for i, a in enumerate(chance.sample(range(63), blots + wrong)):
        map[a] = i < blots
        if i >= blots or filling == SPOILT or filling == EITHER and chance.randrange(2):
            word[a] ^= chance.randrange(1, 64)
    return line, word, map


class Tests(TestCase):
    def setUp(self):
        self.chance = random.Random(1)

    def refused(self, number, word, map, room=63):
        """The word and the map are refused with this number, and an output of a length is left alone."""
        super().refused(number, film.read_blotted, word, map, room=room)

    def test_found(self):
        for blots in range(MOST + 1):
            for wrong, filling, _ in itertools.product(range((MOST - blots) // 2 + 1), FILLINGS, range(10)):
                line, word, map = scan(self.chance, blots, wrong, filling)
                out = bytearray(63)
                self.assertEqual(film.read_blotted(word, map), read_as(line, word))
                self.assertEqual(film.read_blotted(list(word), list(map), out), read_as(line, word))
                self.assertEqual(out, line)

    def test_not_found(self):
        """One wrong character too many for an even count of blots: any other line is too far away, since two lines differ in 12 addresses or more."""
        for blots, filling, _ in itertools.product(range(0, MOST, 2), FILLINGS, range(10)):
            self.refused(6, *scan(self.chance, blots, (MOST + 1 - blots) // 2, filling)[1:])

    def test_always_found(self):
        """Eleven blots: whatever is seen, there is one line that has all of it."""
        for _ in range(40):
            map = scan(self.chance, MOST, 0, RECORDED)[2]
            word = bytes(self.chance.randrange(64) for _ in range(63))
            read = film.read_blotted(word, map)
            self.assertEqual(read, read_as(read.line, word))
            self.assertEqual(film.read_line(read.line, 0).line, read.line)
            self.assertTrue(all(map[a] or read.line[a] == word[a] for a in range(63)))

    def test_never_found(self):
        """Twelve blots or more, even where nothing is wrong."""
        for blots, filling in itertools.product(range(MOST + 1, 64), FILLINGS):
            self.refused(6, *scan(self.chance, blots, 0, filling)[1:])

    def test_no_blots(self):
        """With no blot it is reading a line with radius 5."""
        for wrong, _ in itertools.product(range(8), range(10)):
            word = scan(self.chance, 0, wrong, RECORDED)[1]
            try:
                due = film.read_line(word, 5)
            except film.Refused as refused:
                self.refused(refused.number, word, bytes(63))
            else:
                self.assertEqual(film.read_blotted(word, bytes(63)), due)

    def test_lengths(self):
        """Lengths come before values, and those before too many blots."""
        word, map = bytes([64] * 126), bytes([1] * 40 + [2] + [1] * 85)
        for length in (0, 1, 62, 64, 126):
            for room in (62, 63, length):
                self.refused(1, word[:length], map[:63], room)
                self.refused(1, word[:63], map[:length], room)
                self.refused(1, word[:length], map[:length], room)
            self.refused(5, word[:63], map[:63], length)

    def test_values(self):
        """A byte that is no character, or none of a map, at any address: at a blot too, and with too many blots."""
        for a, blots in itertools.product(range(63), range(14)):
            line, word, map = scan(self.chance, blots, 0, EITHER)
            map[a] = blots % 2
            word[a] = (64, 255, self.chance.randrange(64, 256))[blots % 3]
            self.refused(2, word, map)
            word[a] = line[a]
            map[a] = (2, 255, self.chance.randrange(2, 256))[blots % 3]
            self.refused(2, word, map)

    def test_no_bytes(self):
        line = film.encode_line(bytes(50), 0)
        self.assertRaises(TypeError, film.read_blotted, line, 63)
        self.assertRaises(TypeError, film.read_blotted, 63, bytes(63))
        self.assertRaises(ValueError, film.read_blotted, line, [256] * 63)


if __name__ == "__main__":
    unittest.main()
