"""Tests of how clear scans are: ratios and means are those of exact fractions, rounded once, bit for bit, at the extremes, at every threshold and on scans of
several kinds; a spool counts what its scans give one by one; and the refusals come in their order."""

import collections
import ctypes
import itertools
import random
import struct
import unittest
from fractions import Fraction

from words import TestCase, film

# Every brightness, and every threshold.
BYTES = range(256)

# How many scans of each kind are tried.
TRIES = 800


def of_runs(*runs):
    """A scan that has so many cells of each brightness, one after the other."""
    return b"".join(bytes([brightness] * count) for brightness, count in runs)


# Scans with what they have to give: a threshold, a scan, the ratio, or None where there is no spread, and the two means.
KNOWN = [
    # by hand: means 20 and 210, variances 100 and 100
    (128, of_runs((10, 100), (30, 100), (200, 89), (220, 89)), "0x1.69p+7", "0x1.4p+4", "0x1.a4p+7"),
    # ratios that come out as another double where they are rounded to 64 digits first: to one less, and to one more
    (128, of_runs((42, 115), (87, 5), (144, 128), (240, 130)), "0x1.27e6fc3812c51p+3", "0x1.5fp+5", "0x1.80be82fa0be83p+7"),
    (128, of_runs((16, 178), (110, 79), (176, 25), (177, 96)), "0x1.27e8240b7c979p+3", "0x1.6728d728d728dp+5", "0x1.619637021d9ebp+7"),
    # the greatest distance of the means, without spread and with the least
    (128, of_runs((0, 189), (255, 189)), None, "0x0p+0", "0x1.fep+7"),
    (128, of_runs((0, 189), (254, 1), (255, 188)), "0x1.79082e572620bp+23", "0x0p+0", "0x1.fdfd4a7f529fdp+7"),
    # the greatest spread
    (1, of_runs((0, 189), (1, 94), (255, 95)), "0x1.06caceba6d071p+0", "0x0p+0", "0x1.01580ad602b58p+7"),
    (255, of_runs((0, 94), (254, 95), (255, 189)), "0x1.0154d780768cfp+0", "0x1.feb015ac056bp+6", "0x1.fep+7"),
    # one dark cell, and one bright
    (1, of_runs((0, 1), (254, 1), (255, 376)), "0x1.770c2795c9883p+24", "0x0p+0", "0x1.fdfea454339b8p+7"),
    (90, of_runs((89, 1), (90, 100), (91, 100), (255, 177)), "0x1.d6e1f402c90c9p-1", "0x1.64p+6", "0x1.4f76d5385c59ap+7"),
    (255, of_runs((0, 376), (1, 1), (255, 1)), "0x1.770c2795c9883p+24", "0x1.5babcc647fa91p-9", "0x1.fep+7"),
    # all equal but one cell, and a step of 1
    (7, of_runs((6, 1), (7, 377)), None, "0x1.8p+2", "0x1.cp+2"),
    (7, of_runs((6, 377), (7, 1)), None, "0x1.8p+2", "0x1.cp+2"),
    (1, of_runs((0, 200), (1, 178)), None, "0x0p+0", "0x1p+0"),
    (255, of_runs((254, 9), (255, 369)), None, "0x1.fcp+7", "0x1.fep+7"),
    # cells at the threshold are bright
    (100, of_runs((99, 200), (100, 177), (101, 1)), "0x1.6a0b92143fa37p+7", "0x1.8cp+6", "0x1.9005c0b81702ep+6"),
]

# A scan that shows whether its ratio is rounded once: 11616.2. By means and variances that are doubles themselves it is another.
ROUNDED_ONCE = "0x1.6b0199999999ap+13"
ROUNDED_TWICE = "0x1.6b01999999998p+13"
TWO_ROUNDINGS = of_runs((40, 126), (41, 63), (200, 126), (203, 63))


def sides(cells, threshold):
    """The dark cells, and the bright ones."""
    return [c for c in cells if c < threshold], [c for c in cells if c >= threshold]


def moments(side):
    """The mean and the variance of cells, as exact fractions."""
    mean = Fraction(sum(side), len(side))
    return mean, Fraction(sum(c * c for c in side), len(side)) - mean**2


def exact(cells, threshold):
    """The ratio, None where there is no spread, and both means: exact fractions. None, where a side has no cells."""
    dark, bright = sides(cells, threshold)
    if not dark or not bright:
        return None
    (low, below), (high, above) = moments(dark), moments(bright)
    spread = below + above
    return (high - low) ** 2 / spread if spread else None, low, high


def whole_numbers(cells, threshold):
    """The numerator and the denominator, as the change request has them."""
    (n1, s1, q1), (n2, s2, q2) = ((len(side), sum(side), sum(c * c for c in side)) for side in sides(cells, threshold))
    return (s2 * n1 - s1 * n2) ** 2, n2**2 * (n1 * q1 - s1**2) + n1**2 * (n2 * q2 - s2**2)


def bits(numbers):
    """The 64 bits of each double; None stays."""
    return [number if number is None else struct.pack(">d", number).hex() for number in numbers]


def bell(chance, middle, width):
    return min(max(round(chance.gauss(middle, width)), 0), 255)


def two_bells(chance):
    """Dark cells around one brightness and bright ones around another, with a threshold between them."""
    low, high, width, darks = chance.randrange(20, 110), chance.randrange(120, 240), chance.choice((1, 5, 20)), chance.randrange(1, film.CELLS)
    cells = [bell(chance, low if i < darks else high, width) for i in range(film.CELLS)]
    chance.shuffle(cells)
    return cells, (low + high) // 2


def uniform(chance):
    return chance.choices(BYTES, k=film.CELLS), chance.choice(BYTES)


def nearly_flat(chance):
    """All cells of one brightness, but for a few that are one more or one less; a threshold near it."""
    brightness = chance.randrange(1, 255)
    cells = [brightness] * film.CELLS
    for i in chance.sample(range(film.CELLS), chance.randrange(5)):
        cells[i] += chance.choice((-1, 1))
    return cells, brightness + chance.randrange(2)


def few_brightnesses(chance):
    """One to four brightnesses, with a threshold that is often one of them."""
    some = chance.sample(BYTES, chance.randrange(1, 5))
    return chance.choices(some, k=film.CELLS), chance.choice(some + [128])


KINDS = (two_bells, uniform, nearly_flat, few_brightnesses)

# A scan of each answer, with this threshold.
MIDDLE = 128
RATIO, NO_SPREAD, REFUSED = TWO_ROUNDINGS, of_runs((3, 100), (200, 278)), of_runs((127, 378))


class Tests(TestCase):
    def setUp(self):
        self.chance = random.Random(1)

    def gives(self, scan, due):
        self.assertIs(type(scan), film.Scan)
        self.assertEqual(bits(scan), bits(due))
        self.assertEqual([type(mean) for mean in scan[1:]], [float, float])

    def is_due(self, cells, threshold):
        """The scan gives what exact fractions give, each rounded once. Tells which answer it was."""
        due = exact(cells, threshold)
        if due is None:
            self.refused(20, film.scan_clarity, cells, threshold)
            return "refused"
        self.gives(film.scan_clarity(cells, threshold), [number if number is None else float(number) for number in due])
        return "no spread" if due[0] is None else "ratio"

    def test_known(self):
        for threshold, cells, *due in KNOWN:
            given = [number if number is None else float.fromhex(number) for number in due]
            for scan in (cells, cells[::-1], bytes(self.chance.sample(cells, film.CELLS))):
                self.gives(film.scan_clarity(scan, threshold), given)
            self.is_due(cells, threshold)

    def test_rounded_once(self):
        (low, below), (high, above) = map(moments, sides(TWO_ROUNDINGS, MIDDLE))
        twice = (float(high) - float(low)) ** 2 / (float(below) + float(above))
        self.assertEqual(bits([twice]), bits([float.fromhex(ROUNDED_TWICE)]))
        self.assertEqual(exact(TWO_ROUNDINGS, MIDDLE)[0], Fraction(58081, 5))
        self.gives(film.scan_clarity(TWO_ROUNDINGS, MIDDLE), [float.fromhex(ROUNDED_ONCE), float(low), float(high)])

    def test_whole_numbers(self):
        """The ratio is the quotient of two whole numbers, each of them exact as a double, and both reach the most that is told of them."""
        most = [0, 0]
        for threshold, cells, *_ in KNOWN:
            both = whole_numbers(cells, threshold)
            self.assertEqual([int(float(number)) for number in both], list(both))
            most = [max(pair) for pair in zip(most, both)]
            if both[1]:
                self.assertEqual(bits(film.scan_clarity(cells, threshold)[:1]), bits([float(both[0]) / float(both[1])]))
        self.assertEqual(most, [82_971_239_411_025, 20_579_864_001_480])

    def test_every_threshold(self):
        every = bytes(BYTES) + bytes(range(0, 244, 2))
        for cells, threshold in itertools.product((every, uniform(self.chance)[0], two_bells(self.chance)[0]), BYTES):
            self.is_due(cells, threshold)

    def test_kinds(self):
        answers = collections.Counter()
        for kind, _ in itertools.product(KINDS, range(TRIES)):
            answers[self.is_due(*kind(self.chance))] += 1
        self.assertTrue(all(answers[answer] > 100 for answer in ("ratio", "no spread", "refused")), answers)

    def test_one_sided(self):
        """Flat scans at every threshold, threshold 0, and a brightest cell that no threshold makes dark."""
        for brightness, threshold in itertools.product((0, 1, 127, 254, 255), BYTES):
            self.refused(20, film.scan_clarity, of_runs((brightness, film.CELLS)), threshold)
        for kind in KINDS:
            self.refused(20, film.scan_clarity, kind(self.chance)[0], 0)
        self.refused(20, film.scan_clarity, of_runs((0, 200), (254, 178)), 255)

    def test_lengths(self):
        """The length comes before the cells."""
        for length in (0, 1, 63, 188, 377, 379, 2 * film.CELLS, film.SCANS):
            for cells, threshold in itertools.product((RATIO, NO_SPREAD, REFUSED), (0, MIDDLE, 255)):
                self.refused(1, film.scan_clarity, (cells * film.PLACES)[:length], threshold)

    def counted(self, scans, threshold=MIDDLE):
        """A spool of these scans gives the counts of what they give one by one."""
        answers = collections.Counter(self.is_due(scan, threshold) for scan in scans)
        counts = film.spool_clarity(b"".join(map(bytes, scans)), threshold)
        self.assertIs(type(counts), film.Clarities)
        self.assertEqual(counts, (answers["ratio"], answers["no spread"], answers["refused"]))
        return counts

    def test_spools(self):
        for count in (0, 1, 2, 3, 20, 254, film.PLACES):
            scans = [self.chance.choice(KINDS)(self.chance)[0] for _ in range(count)]
            for threshold in (0, 1, 60, MIDDLE, 255):
                self.counted(scans, threshold)

    def test_counts(self):
        """Each answer alone, as many times as there is room for, and all three in every order."""
        for place, scan in enumerate((RATIO, NO_SPREAD, REFUSED)):
            for count in (1, film.PLACES):
                self.assertEqual(self.counted([scan] * count), tuple(count * (i == place) for i in range(3)))
        for scans in itertools.product((RATIO, NO_SPREAD, REFUSED), repeat=4):
            self.counted(scans)
        self.assertEqual(self.counted([RATIO] * 100 + [NO_SPREAD] * 90 + [REFUSED] * 65), (100, 90, 65))

    def test_spool_lengths(self):
        self.assertEqual((film.CELLS, film.SCANS, film.spool_clarity(b"", 0), film.spool_clarity([], MIDDLE)), (378, 96390, (0, 0, 0), (0, 0, 0)))
        for length in (1, 63, 377, 379, 755, 757, film.SCANS - 1, film.SCANS + 1, film.SCANS + film.CELLS, 2 * film.SCANS):
            for cells, threshold in itertools.product((RATIO, NO_SPREAD, REFUSED), (0, MIDDLE)):
                self.refused(1, film.spool_clarity, (cells * 2 * film.PLACES)[:length], threshold)

    def test_types(self):
        """What both calls take and do not take; a threshold that no byte holds is taken for no other."""
        for kind, (call, due) in itertools.product(
            (bytes, bytearray, memoryview, list, tuple, iter), ((film.scan_clarity, film.Scan), (film.spool_clarity, film.Clarities))
        ):
            self.assertIs(type(call(kind(RATIO), MIDDLE)), due)
        for call in (film.scan_clarity, film.spool_clarity):
            for given in (film.CELLS, None, "a" * film.CELLS, [1.5] * film.CELLS):
                self.assertRaises(TypeError, call, given, MIDDLE)
            for given in ([256] * film.CELLS, [-1] * film.CELLS):
                self.assertRaises(ValueError, call, given, MIDDLE)
            for threshold, cells in itertools.product((-1, 256, 256 + MIDDLE, 10**6), (RATIO, REFUSED, b"", b"1")):
                self.assertRaises(ValueError, call, cells, threshold)
            for threshold in (None, "1"):
                self.assertRaises(TypeError, call, RATIO, threshold)

    def test_layout(self):
        self.assertEqual((ctypes.sizeof(film._structs.Scan), ctypes.sizeof(film._structs.Clarities)), (32, 4))


if __name__ == "__main__":
    unittest.main()
