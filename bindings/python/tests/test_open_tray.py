"""Tests of an open tray: from an empty one on its lines are those that were added and changed, its sums and its count what working them out afresh gives; one
that is made by hand is taken as it is; the refusals come in their order and change no byte."""

import copy
import functools
import itertools
import pickle
import random
import unittest

from words import TestCase, film, random_line, read_as

# The bytes of a line with its sums, where these begin, and where the number of lines and the count stand in a tray.
ROOM, SUMS_IN_ROOM = 74, 63
HELD, COUNT = 4736, 4737

# The power of α that each sum is taken at.
EXPONENTS = range(-5, 6)

LAST_ADDRESS = 62
WRONG_LENGTHS = (0, 1, 62, 64, 126)
BYTES_OVER = (64, 65, 127, 128, 192, 255)
NUMBERS_OVER = (255, 256, 256 + 1, 10**6)


def doubled(u):
    """Twice an element, as a polynomial over bits, reduced by x^6 + x + 1."""
    return 2 * u ^ (0b1000011 if u >= 32 else 0)


def times_power(u, exponent):
    """An element times a power of α, which is 2."""
    for _ in range(exponent % 63):
        u = doubled(u)
    return u


def added(one, other):
    return bytes(u ^ v for u, v in zip(one, other))


@functools.lru_cache(maxsize=None)
def share(change, address):
    """What a change of a character by an exclusive or adds to the power sums."""
    return bytes(times_power(change, j * (LAST_ADDRESS - address)) for j in EXPONENTS)


def sums_of(line):
    """The power sums of a line, worked out afresh, marks off."""
    sums = bytes(film.SUMS)
    for address, character in (*enumerate(line), (52, 32), (55, 8), (62, 1)):
        sums = added(sums, share(character, address))
    return sums


class Kept:
    """A tray, and what it has to be: the lines that it holds with their sums, and the bytes that were in its rooms before."""

    def __init__(self, data):
        self.tray = film.OpenTray.from_bytes(data)
        self.data = bytearray(data)

    def line(self, i):
        return bytes(self.data[ROOM * i : ROOM * i + SUMS_IN_ROOM])

    def sums(self, i):
        return bytes(self.data[ROOM * i + SUMS_IN_ROOM : ROOM * i + ROOM])

    def put(self, i, line, sums):
        """What is due where line `i` is another; the count goes by the sums."""
        self.data[COUNT] += any(sums) - (i < self.data[HELD] and any(self.sums(i)))
        self.data[ROOM * i : ROOM * i + ROOM] = line + sums

    def write_sums(self, i, sums):
        """Writes the sums of line `i` by hand, and no other byte."""
        self.data[ROOM * i + SUMS_IN_ROOM : ROOM * i + ROOM] = sums
        self.tray = film.OpenTray.from_bytes(self.data)

    def add(self, line):
        self.tray.add(line)
        self.put(self.data[HELD], line, sums_of(line))
        self.data[HELD] += 1

    def replace(self, i, address, character):
        """Replaces a character: the share of the change is added to the sums that are held, whatever they are."""
        self.tray.replace(i, address, character)
        line = bytearray(self.line(i))
        change, line[address] = line[address] ^ character, character
        self.put(i, line, added(self.sums(i), share(change, address)))

    def drop_last(self):
        self.tray.drop_last()
        self.data[HELD] -= 1
        self.data[COUNT] -= any(self.sums(self.data[HELD]))


class Tests(TestCase):
    def setUp(self):
        self.chance = random.Random(1)

    def characters(self, length=63):
        return bytes(self.chance.choices(range(64), k=length))

    def any_line(self):
        return self.chance.choice((random_line(self.chance), self.characters()))

    def empty(self, byte=0):
        """An empty tray whose rooms hold this byte."""
        return Kept(bytes([byte] * HELD + [0, 0]))

    def by_hand(self, held, count):
        """Any characters and any sums, so many lines and such a count."""
        return Kept(self.characters(HELD) + bytes([held, count]))

    def is_due(self, kept):
        """The tray is as is due, however it is looked at."""
        held = kept.data[HELD]
        self.assertEqual(bytes(kept.tray), kept.data)
        self.assertEqual((len(kept.tray), kept.tray.count()), (held, kept.data[COUNT]))
        self.assertEqual(kept.tray.lines, [kept.line(i) for i in range(held)])
        self.assertEqual([kept.tray.sums(i) for i in range(held)], [kept.sums(i) for i in range(held)])

    def is_afresh(self, kept):
        """The same of a tray that was empty once: its sums and its count can be worked out, and the sums are all 0 in lines of the code alone."""
        self.is_due(kept)
        afresh = [sums_of(line) for line in kept.tray.lines]
        self.assertEqual([kept.tray.sums(i) for i in range(len(afresh))], afresh)
        self.assertEqual(kept.tray.count(), len([sums for sums in afresh if any(sums)]))
        for line, sums in zip(kept.tray.lines, afresh):
            if any(sums):
                self.refused(6, film.read_line, line, 0)
            else:
                self.assertEqual(film.read_line(line, 0), read_as(line, line))

    def refuses(self, number, kept, operation, *given):
        """The operation is refused, and changes no byte."""
        self.refused(number, getattr(kept.tray, operation), *given)
        self.assertEqual(bytes(kept.tray), kept.data)

    def step(self, kept):
        """One operation, whatever it is answered."""
        held, operation = kept.data[HELD], self.chance.choice(("add", "add", "add", "replace", "replace", "replace", "replace", "drop_last"))
        i, address, character = self.chance.randint(0, held), self.chance.randint(0, 63), self.chance.randint(0, 64)
        if operation == "add" and held == film.TRAY_LINES:
            self.refuses(17, kept, operation, self.any_line())
        elif operation == "add":
            kept.add(self.any_line())
        elif operation == "drop_last" and held == 0:
            self.refuses(18, kept, operation)
        elif operation == "drop_last":
            kept.drop_last()
        elif i == held or address > LAST_ADDRESS or character == 64:
            self.refuses(18 if i == held else 19 if address > LAST_ADDRESS else 2, kept, operation, i, address, character)
        else:
            kept.replace(i, address, character)

    def test_sequences(self):
        for byte in (0, 170):
            kept = self.empty(byte)
            for n in range(400):
                self.step(kept)
                self.is_due(kept)
                if n % 50 == 0:
                    self.is_afresh(kept)
            self.is_afresh(kept)

    def test_wrong_and_right(self):
        """A line is made wrong at every address and right again: the count follows."""
        kept, line = self.empty(), random_line(self.chance)
        kept.add(random_line(self.chance))
        kept.add(line)
        for address, character in enumerate(line):
            kept.replace(1, address, character ^ self.chance.randrange(1, 64))
            self.assertEqual(kept.tray.count(), 1)
            self.is_afresh(kept)
            kept.replace(1, address, character)
            self.assertEqual((kept.tray.count(), kept.tray.lines[1], kept.tray.sums(1)), (0, line, bytes(film.SUMS)))
            self.is_due(kept)

    def test_full_and_empty(self):
        """64 lines and no more; all are dropped, their rooms keep their bytes, and are used again."""
        kept = self.empty(170)
        for _ in range(2):
            for _ in range(film.TRAY_LINES):
                kept.add(self.any_line())
                self.is_due(kept)
            self.is_afresh(kept)
            self.refuses(17, kept, "add", random_line(self.chance))
            self.refuses(2, kept, "add", [64] * 63)
            self.refuses(1, kept, "add", [64] * 62)
            for _ in range(film.TRAY_LINES):
                kept.drop_last()
                self.is_due(kept)
            self.refuses(18, kept, "drop_last")
            self.refuses(18, kept, "replace", 0, 63, 64)

    def test_claims(self):
        """Any number of lines with any count: where they do not fit, each operation says so first, and the lines can be looked at all the same."""
        kept = self.by_hand(0, 0)
        for held, far in itertools.product(range(256), (-256, -1, 0, 1, 256)):
            count = min(max(held + far, 0), 255)
            kept = Kept(kept.data[:HELD] + bytes([held, count]))
            lines = min(held, film.TRAY_LINES)
            self.assertEqual((len(kept.tray), kept.tray.lines), (lines, [kept.line(i) for i in range(lines)]))
            if held <= film.TRAY_LINES and count <= held:
                self.assertEqual(kept.tray.count(), count)
            else:
                for operation, given in (("count", ()), ("add", (b"",)), ("replace", (255, 255, 255)), ("drop_last", ())):
                    self.refuses(17, kept, operation, *given)

    def test_refusals(self):
        """The order of refusals, and numbers that are too large, also for a byte."""
        for held in (1, 63, 64):
            kept = self.by_hand(held, 0)
            for length in WRONG_LENGTHS:
                self.refuses(1, kept, "add", [64] * length)
            for a, over in zip(range(63), itertools.cycle(BYTES_OVER)):
                line = bytearray(self.characters())
                line[a] = over
                self.refuses(2, kept, "add", line)
            for i in (held, held + 1, *NUMBERS_OVER):
                self.refuses(18, kept, "replace", i, 63, 64)
            for address in (63, 64, *NUMBERS_OVER):
                self.refuses(19, kept, "replace", held - 1, address, 64)
            for character in (*BYTES_OVER, *NUMBERS_OVER):
                self.refuses(2, kept, "replace", held - 1, 62, character)
            self.refuses(17, kept, "replace", held - 1, 62, 63)
            self.refuses(17, kept, "drop_last")

    def test_bytes_by_hand(self):
        """A byte over 63 in any place of a line: it is neither changed nor dropped; other lines are."""
        for place, over in zip(range(ROOM), itertools.cycle(BYTES_OVER)):
            data = self.by_hand(2, 2).data
            data[ROOM + place] = over
            kept = Kept(data)
            self.refuses(17, kept, "replace", 1, place % 63, 0)
            self.refuses(17, kept, "drop_last")
            kept.replace(0, 62, 0)
            self.is_due(kept)
            data[HELD:] = 1, 1
            kept = Kept(data)
            kept.add(self.any_line())
            self.is_due(kept)

    def test_sums_by_hand(self):
        """Replacing adds the share of the change to the sums that are held, whatever they are, and the count goes by these."""
        for address, change in zip(range(63), range(1, 64)):
            kept = self.by_hand(2, 1)
            character = kept.line(1)[address]
            kept.replace(1, address, character ^ change)
            self.is_due(kept)
            # the share itself: the change back makes every sum 0
            kept.write_sums(1, share(change, address))
            kept.replace(1, address, character)
            self.is_due(kept)
            self.assertEqual((kept.tray.sums(1), kept.tray.count()), (bytes(film.SUMS), 0))
            # one sum that is not 0 while the count is
            kept.write_sums(1, bytes(change * (k == address % film.SUMS) for k in range(film.SUMS)))
            self.refuses(17, kept, "replace", 1, address, character)
            self.refuses(17, kept, "drop_last")

    def test_count_above(self):
        """A line of zero sums in a tray that counts all of its lines: a change brings the count above them, which the next call refuses."""
        for held in (1, 2, 64):
            kept = self.by_hand(held, held)
            kept.write_sums(0, bytes(film.SUMS))
            kept.replace(0, 20, kept.line(0)[20] ^ 1)
            self.assertEqual((kept.data[COUNT], bytes(kept.tray)), (held + 1, kept.data))
            for operation, given in (("count", ()), ("add", (b"",)), ("replace", (0, 20, 0)), ("drop_last", ())):
                self.refuses(17, kept, operation, *given)

    def test_making(self):
        """Trays from lines, from a tray's own lines and from bytes; copies are trays of their own."""
        lines = [self.any_line() for _ in range(5)]
        tray = film.OpenTray(iter(lines))
        tray.add(tray.lines[0])
        tray.add(list(lines[1]))
        self.assertEqual(tray.lines, lines + lines[:2])
        self.assertEqual((bytes(film.OpenTray()), film.TRAY, film.TRAY_LINES, film.SUMS), (bytes(4738), 4738, 64, 11))
        self.refused(17, film.OpenTray, [lines[0]] * 65)
        self.refused(2, film.OpenTray, [lines[0], [64] * 63])
        for other in (copy.copy(tray), copy.deepcopy(tray), pickle.loads(pickle.dumps(tray)), film.OpenTray.from_bytes(bytes(tray))):
            self.assertEqual((type(other), other), (film.OpenTray, tray))
            other.drop_last()
            self.assertEqual((len(other), len(tray)), (6, 7))
        odd = self.by_hand(3, 2).tray
        for other in (copy.copy(odd), copy.deepcopy(odd), pickle.loads(pickle.dumps(odd))):
            self.assertEqual(other, odd)
        for length in (0, 63, film.TRAY - 1, film.TRAY + 1):
            self.assertRaises(ValueError, film.OpenTray.from_bytes, bytes(length))
        self.assertRaises(TypeError, film.OpenTray.from_bytes, film.TRAY)
        self.assertRaises(TypeError, film.OpenTray().add, 63)
        for numbers in ((-1, 0, 0), (0, -1, 0), (0, 0, -1)):
            self.assertRaises(ValueError, tray.replace, *numbers)
        for i in (-1, 7, 64, 255):
            self.assertRaises(IndexError, tray.sums, i)

    def test_equality(self):
        """Trays are equal where every byte is, and none is equal to its bytes."""
        tray = film.OpenTray([self.any_line()])
        self.assertEqual(repr(film.OpenTray.from_bytes(bytes(HELD) + bytes([200, 7]))), "<OpenTray: 200 lines, count 7>")
        self.assertFalse(tray == bytes(tray))
        for place in range(film.TRAY):
            data = bytearray(bytes(tray))
            data[place] ^= 1
            self.assertNotEqual(film.OpenTray.from_bytes(data), tray)


if __name__ == "__main__":
    unittest.main()
