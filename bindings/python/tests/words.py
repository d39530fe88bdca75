"""What the tests of the package film share: the package of this checkout, lines by chance, what reading a word has to give, and calls that are refused."""

import pathlib
import sys
import unittest

BINDING = pathlib.Path(__file__).resolve().parents[1]
sys.path.insert(0, str(BINDING))
import film


def random_line(chance):
    return film.encode_line(bytes(chance.randrange(64) for _ in range(50)), chance.randrange(4096))


def number_of(word):
    return 64 * word[50] + word[51]


def read_as(line, word):
    """What reading a word has to give where it is read as this line."""
    changed = [a for a in range(63) if line[a] != word[a]]
    return line, number_of(line), len(changed), min(changed, default=film.NOWHERE), max(changed, default=film.NOWHERE)


class TestCase(unittest.TestCase):
    def refused(self, number, call, *given, room=None):
        """The call is refused with this number, and an output of that length, if there is one, is left alone."""
        named = {} if room is None else {"out": bytearray([170] * room)}
        with self.assertRaises(film.Refused) as caught:
            call(*given, **named)
        self.assertEqual(caught.exception.number, number)
        self.assertTrue(str(caught.exception).startswith(f"refused ({number}): "))
        if room is not None:
            self.assertEqual(named["out"], bytes([170] * room))
