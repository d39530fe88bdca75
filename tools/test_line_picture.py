"""Tests of the handbook's pictures of a line and of start numbers: what is drawn is a line, and each address is drawn, and worked out, at its place.

It takes no words."""

import math
import re
import sys
import unittest
import xml.etree.ElementTree

sys.dont_write_bytecode = True
import line_picture
import starts_picture
from clean_words import CHARACTERS, CHECKS, Code, added
from drawing import BLUE, ORANGE
from shared import words
from tray import MARKS, product

SVG = "{http://www.w3.org/2000/svg}"


def texts(picture):
    """The texts of a picture: where each stands, its words, and how they are written."""
    for element in xml.etree.ElementTree.fromstring(picture).iter(f"{SVG}text"):
        yield float(element.get("x")), float(element.get("y")), element.text, element.attrib


class Line(unittest.TestCase):
    def row(self, name):
        """What stands at each address in the row of that name."""
        drawn = list(texts(line_picture.picture()))
        y = next(y for x, y, said, _ in drawn if said == name and x < line_picture.LEFT)
        cells = {round((x - line_picture.LEFT) / line_picture.CELL - 0.5, 6): said for x, at, said, _ in drawn if abs(at - y) < 5 and x > line_picture.LEFT}
        self.assertTrue(all(address == int(address) for address in cells), name)
        return {int(address): said for address, said in cells.items()}

    def test_rows(self):
        characters = [int(said) for _, said in sorted(self.row("character v").items())]
        self.assertEqual(self.row("address"), {a: str(a) for a in range(CHARACTERS)})
        self.assertEqual(self.row("letter"), dict(enumerate(line_picture.NOTE, 1)))
        self.assertEqual({a: int(said) for a, said in self.row("marks").items()}, MARKS)
        self.assertEqual(characters[0], 0)
        self.assertEqual("".join(chr(32 + v) for v in characters[1:50]), line_picture.NOTE.ljust(49))
        self.assertEqual(64 * characters[50] + characters[51], line_picture.NUMBER)
        self.assertEqual(Code(product).sums(added(characters, MARKS)), [0] * CHECKS)

    def test_parts(self):
        """The parts have every address once, in order."""
        parts = list(line_picture.parts(line_picture.characters()))
        self.assertEqual([a for first, after, *_ in parts for a in range(first, after)], list(range(CHARACTERS)))


class Starts(unittest.TestCase):
    def test_places(self):
        """Beside each place that has a number there stands its address, bold, and across the ring its place, small."""
        x, y = starts_picture.CENTRE
        drawn = {"bold": {}, "small": {}}
        for u, v, said, how in texts(starts_picture.picture()):
            if said.isdigit():
                # a text is drawn below where it is put
                turn = math.atan2(u - x, y - (v - 5)) % (2 * math.pi)
                side = math.hypot(u - x, v - 5 - y) > starts_picture.RING
                drawn["bold" if how.get("font-weight") else "small"][round(turn * CHARACTERS / (2 * math.pi)) % CHARACTERS] = int(said), side, how["fill"]
        forward = {(10 + a) % 63: (a, True, BLUE) for a in range(starts_picture.DRAWN)}
        backward = {(40 - a) % 63: (a, False, ORANGE) for a in range(starts_picture.DRAWN)}
        self.assertEqual(drawn["bold"], {**forward, **backward})
        across = {place: (place, not side) for place, (_, side, _) in drawn["bold"].items()}
        self.assertEqual({place: (said, side) for place, (said, side, _) in drawn["small"].items()}, across)

    def test_sums(self):
        """Every sum that is written is right, and gives the place of its address."""
        for start in range(2 * CHARACTERS):
            *_, formula, worked_out = starts_picture.told(start)
            address = starts_picture.FURTHER
            place = (start + address) % 63 if start < 63 else (start - 63 - address) % 63
            first, sign = map(str, re.fullmatch(r"address a is at place \((\d+) ([+-]) a\) mod 63", formula).groups())
            self.assertEqual((int(first) + (address if sign == "+" else -address)) % 63, place)
            for left, sign, right, is_ in re.findall(r"(-?\d+) ([+-]) (\d+) = (-?\d+)", worked_out):
                self.assertEqual(int(left) + (int(right) if sign == "+" else -int(right)), int(is_), worked_out)
            self.assertEqual(re.findall(r"-?\d+", worked_out.replace(", so it is at place", " = "))[-2:], [str(place)] * 2, worked_out)


if __name__ == "__main__":
    words(__doc__)
    unittest.main()
