"""Tests of the subcommand explain: its rows are what listing and reading give, the true start is told where it can be and nowhere else; so are its pictures."""

import contextlib
import io
import json
import math
import pathlib
import random
import re
import tempfile
import unittest
import xml.etree.ElementTree

from words import BINDING, film, random_line

import film_command
from film_command import explain, ring_drawing
from film_command.ring_starts import listed

ROOT = BINDING.parents[1]
SAMPLE = ROOT / "samples" / "rings" / "ring.tray"
RADII = range(6)
STARTS = range(126)
SVG = "{http://www.w3.org/2000/svg}"
HOSTILE = "&<>\"' </TEXT><SCRIPT> &AMP; -->"


def places(start):
    """The place of each address."""
    return [(start + a) % 63 for a in range(63)] if start < 63 else [(start - 63 - a) % 63 for a in range(63)]


def recorded(line, start, wrong=()):
    """A line on a ring, with other characters at some addresses."""
    ring = bytearray(63)
    for address, place in enumerate(places(start)):
        ring[place] = line[address] ^ (address in wrong)
    return bytes(ring)


def rows_of(ring, radius):
    """What the starts of a ring have to be told to hold: start, direction, distance, number, kind and text."""
    for start in film.list_ring(ring, radius):
        read = film.read_line(bytes(ring[place] for place in places(start)), radius)
        yield (start, "forward" if start < 63 else "backward", read.distance, read.number, *film.text_of(read.line))


def between(line, start, wrong, apart=4):
    """A ring on the way from a line at its start to the line at a false one that is so far away: so many characters are already those of the other."""
    ring = recorded(line, start)
    false = next(fit for fit in listed(0, ring, apart).fits if fit.distance == apart)
    other = recorded(false.line, false.start)
    differ = [place for place in range(63) if ring[place] != other[place]]
    return bytes(other[place] if place in differ[:wrong] else ring[place] for place in range(63))


def rings(chance):
    """Rings of all kinds, each with the true start and how many characters are wrong, where it is a recorded line."""
    for wrong in (0, 0, 1, 1, 2, 2, 3, 4, 5, 6):
        start = chance.choice(STARTS)
        yield recorded(random_line(chance), start, chance.sample(range(63), wrong)), start, wrong
    for apart in (4, 5):
        for wrong in range(apart + 1):
            start = chance.choice(STARTS)
            yield between(random_line(chance), start, wrong, apart), start, wrong
    yield bytes(63), None, None
    yield bytes(chance.randrange(64) for _ in range(63)), None, None


def told_rows(said):
    """The rows of the table: start, direction, distance, number and what is said of the text."""
    for row in said.splitlines():
        found = re.fullmatch(r" *(\d+)  (forward|backward) +(\d) +(\d+)  (.*?)(  <- the true start, where at most (\d) characters are wrong)?", row)
        if found:
            yield (int(found[1]), found[2], int(found[3]), int(found[4]), found[5]), int(found[7]) if found[6] else None


def shown(kind, text):
    """The text of a row, with its kind."""
    if kind == 0:
        return text or "blank"
    word = "template" if kind == 1 else f"kind {kind}"
    return f"{word}: {text}" if text else word


class Drawn:
    """What a parser of XML finds in a picture."""

    def __init__(self, picture):
        self.comment = picture.splitlines()[0]
        self.tree = xml.etree.ElementTree.fromstring(picture)
        self.texts = [element for element in self.tree if element.tag == f"{SVG}text"]
        self.words = [element.text or "" for element in self.texts]
        numbers = [element for element in self.texts if element.get("font-weight") == "bold" and element.text.isdigit()]
        self.numbers = {int(element.text): element for element in numbers}
        self.is_unique = len(self.numbers) == len(numbers)
        cells = [int(element.text) for element in self.texts if element.get("text-anchor") == "end" and element.text.isdigit()]
        self.rows = list(zip(*[iter(cells)] * 3))
        self.arrows = [element for element in self.tree if element.tag == f"{SVG}path"]

    def middle(self, start):
        element = self.numbers[start]
        return float(element.get("x")), float(element.get("y"))


class Rows(unittest.TestCase):
    def test_rows(self):
        chance = random.Random(30)
        for ring, _, _ in (ring for _ in range(3) for ring in rings(chance)):
            for radius in RADII:
                due = list(rows_of(ring, radius))
                found = listed(7, ring, radius)
                told = [row for row, _ in told_rows(explain.as_text(found))]
                by_distance = sorted(due, key=lambda row: (row[2], row[0]))
                self.assertEqual(told, [(*row[:4], shown(*row[4:]).rstrip()) for row in by_distance])
                said = json.loads(explain.as_json(found))
                self.assertEqual([tuple(row.values())[:-1] for row in said["starts"]], due)
                self.assertEqual(list(said["starts"][0] if due else []), ["start", "direction", "distance", "number", "kind", "text", "true"] if due else [])
                self.assertEqual((said["ring"], said["radius"], said["answer"]), (7, radius, {0: 6, 1: 0}.get(len(due), 10)))

    def test_kinds(self):
        for kind, word in ((0, ""), (1, "template: "), (2, "kind 2: "), (63, "kind 63: ")):
            line = film.encode_line(film.characters_of(HOSTILE, kind), 9)
            found = listed(0, recorded(line, 70), 1)
            self.assertEqual([row[4] for row, _ in told_rows(explain.as_text(found))], [word + HOSTILE])
            self.assertEqual([(row["kind"], row["text"]) for row in json.loads(explain.as_json(found))["starts"]], [(kind, HOSTILE)])


class Truth(unittest.TestCase):
    def check(self, ring, radius, start, wrong):
        """What is said of the true start of a ring; the start at which it was recorded and how many characters are wrong, where it was, is compared."""
        found = listed(0, ring, radius)
        distances = sorted(fit.distance for fit in found.fits)
        self.assertEqual(found.nearest is not None, len(distances) == 1 or len(distances) > 1 and distances[0] < distances[1])
        self.assertEqual(found.truth, found.nearest if distances and distances[0] < 2 else None)
        said, text = json.loads(explain.as_json(found)), " ".join(explain.as_text(found).split())
        remarks = {row[0]: most for row, most in told_rows(explain.as_text(found)) if most is not None}
        if found.nearest:
            told, _, most = found.nearest
            # what is given as the reason: that list has this start alone, and the next, where it is within the radius, does not
            self.assertEqual(film.list_ring(ring, most), [told])
            self.assertTrue(most + 1 > radius or len(film.list_ring(ring, most + 1)) > 1)
            self.assertIn(f"Start {told} is the true one if the ring is a recorded line with at most {most} wrong characters" if found.truth else
                          f"Start {told} is nearer than all others, and so the true one where at most {most} are wrong", text)
            self.assertTrue(wrong is None or wrong > most or told == start)
        self.assertEqual("which is the true one cannot be told" in text, bool(found.fits) and not found.nearest)
        if found.truth:
            self.assertEqual((said["true_start"], said["true_where_wrong_at_most"], remarks), (told, most, {told: most}))
            self.assertEqual({row["start"]: row["true"] for row in said["starts"]}, {fit.start: fit.start == told for fit in found.fits})
        else:
            self.assertEqual((said["true_start"], said["true_where_wrong_at_most"], remarks), (None, None, {}))
            self.assertLessEqual({row["true"] for row in said["starts"]}, {None})
            self.assertNotIn("is the true one if", text)
        self.assertTrue(found.truth or wrong is None or wrong > 1 or wrong > radius)
        return found

    def test_truth(self):
        chance, told = random.Random(68), set()
        for ring, start, wrong in (ring for _ in range(6) for ring in rings(chance)):
            for radius in RADII:
                found = self.check(ring, radius, start, wrong)
                told.add((found.truth is not None, found.nearest is not None, bool(found.nearest and found.nearest.start == start)))
        # all were met: a true start that is the recorded one or, with more wrong than is said, another; a nearest one likewise; and none
        self.assertEqual(told, {(True, True, True), (True, True, False), (False, True, True), (False, True, False), (False, False, False)})

    def test_clean_rings_at_every_start(self):
        chance = random.Random(5)
        for start in STARTS:
            ring = recorded(random_line(chance), start)
            for radius in RADII:
                self.assertEqual(self.check(ring, radius, start, 0).truth, (start, 0, 3))

    def test_one_wrong_character_at_each_address(self):
        chance = random.Random(6)
        for address in range(63):
            start = chance.choice(STARTS)
            ring = recorded(random_line(chance), start, [address])
            self.assertIsNone(self.check(ring, 0, start, 1).nearest)
            for radius in RADII[1:]:
                truth = self.check(ring, radius, start, 1).truth
                self.assertEqual((truth.start, truth.distance), (start, 1))
                self.assertGreaterEqual(truth.most_wrong, 2)

    def test_halfway_to_a_false_start(self):
        """Two of the four characters in which they differ are wrong: both starts are at 2, and nothing tells them apart."""
        ring = between(random_line(random.Random(7)), 20, 2)
        found = listed(0, ring, 2)
        self.assertEqual([fit.distance for fit in found.fits], [2, 2])
        self.assertIn(20, [fit.start for fit in found.fits])
        self.assertIsNone(self.check(ring, 2, 20, 2).nearest)
        text = " ".join(explain.as_text(found).split())
        self.assertIn("2 or more of its characters are wrong", text)
        self.assertIn("2 starts are equally near: which is the true one cannot be told from the ring.", text)

    def test_what_to_do(self):
        """The radius that is advised lists the true start alone; and nothing is advised where the ring is read."""
        chance = random.Random(8)
        advised = set()
        for ring, _, _ in (ring for _ in range(4) for ring in rings(chance)):
            for radius in RADII:
                found = listed(0, ring, radius)
                text = " ".join(explain.as_text(found).split())
                self.assertEqual("What to do" in text, found.answer != 0)
                for said in re.findall(r"radius of (\d)(?: or (\d))?(?:, which)? lists start (\d+) alone", text):
                    for asked in filter(None, said[:2]):
                        advised.add((bool(found.truth), int(asked)))
                        self.assertEqual(film.list_ring(ring, int(asked)), [int(said[2])])
        self.assertLessEqual({(True, 1), (True, 2), (False, 2), (False, 3)}, advised)


class Pictures(unittest.TestCase):
    def drawn(self, ring, radius):
        found = listed(0, ring, radius)
        return found, Drawn(ring_drawing.picture(found))

    def test_what_is_drawn(self):
        chance = random.Random(9)
        for ring, _, _ in rings(chance):
            for radius in RADII:
                found, drawn = self.drawn(ring, radius)
                self.assertTrue(drawn.comment.startswith("<!-- ") and drawn.comment.endswith(" -->"))
                self.assertTrue(drawn.is_unique)
                self.assertEqual(sorted(drawn.numbers), film.list_ring(ring, radius))
                nearest = sorted(rows_of(ring, radius), key=lambda row: (row[2], row[0]))[:13]
                self.assertEqual(drawn.rows, [(row[0], row[2], row[3]) for row in nearest])
                distances = {fit.distance for fit in found.fits}
                self.assertEqual(len(drawn.arrows), len(found.fits) + len(distances) + len(nearest))
                self.assertEqual("and" in " ".join(drawn.words).split() and "more" in drawn.words[-1], len(found.fits) > 13)
                self.assertEqual(any("the true start" in words for words in drawn.words), found.truth is not None)
                self.assertEqual(any("is the nearest" in words for words in drawn.words), found.nearest is not None and found.truth is None)
                self.assertEqual(any("cannot be told" in words for words in drawn.words), bool(found.fits) and found.nearest is None)
                self.assertEqual(any("false start" in words for words in drawn.words), found.truth is not None and len(found.fits) > 1)
                for way, words in ((True, "outside"), (False, "inside")):
                    self.assertEqual(any(words in said for said in drawn.words), any(fit.is_forward == way for fit in found.fits))

    def test_arrows(self):
        """An arrow lies outside the ring and points clockwise for a forward start, and the other way inside for a backward one."""
        x, y = ring_drawing.CENTRE
        for start in STARTS:
            found, drawn = self.drawn(recorded(random_line(random.Random(start)), start), 3)
            points = [tuple(map(float, point)) for point in re.findall(r"([\d.]+) ([\d.]+)", drawn.arrows[0].get("d"))]
            turns = [(math.atan2(px - x, y - py) - 2 * math.pi * start / 63 + math.pi) % (2 * math.pi) - math.pi for px, py in points]
            self.assertEqual(turns[0], (max if start < 63 else min)(turns))
            self.assertLess(abs(sum(turns)), 0.5)
            for px, py in points:
                self.assertEqual(math.hypot(px - x, py - y) > ring_drawing.RING, start < 63)

    def test_shapes_differ(self):
        """The true start and the false ones of each distance differ in colour, and in shape or filling."""
        shapes = [ring_drawing.TRUE, *(ring_drawing.OTHERS[distance] for distance in (3, 4, 5))]
        self.assertEqual(len({colour for _, colour, _ in shapes}), len(shapes))
        self.assertEqual(len({(str(points), is_filled) for points, _, is_filled in [*shapes, ring_drawing.OTHERS[2]]}), len(shapes) + 1)

    def test_numbers_do_not_meet(self):
        chance = random.Random(10)
        clean = [(recorded(random_line(chance), start), 5) for start in STARTS]
        # a tray that is taken for rings: neighbours on both sides of the ring
        shifted = (ROOT / "samples" / "paper.tray").read_bytes()[63:126]
        for ring, radius in [*clean, (bytes(63), 3), (shifted, 5)]:
            found, drawn = self.drawn(ring, radius)
            for start in drawn.numbers:
                for other in drawn.numbers:
                    if start < other:
                        (x, y), (u, v) = drawn.middle(start), drawn.middle(other)
                        turned = drawn.numbers[start].get("transform"), drawn.numbers[other].get("transform")
                        # upright ones are up to 29 wide and 11 high; those along the radius have neighbours along it too
                        is_apart = math.hypot(x - u, y - v) > (10 if all(turned) else 25) or not any(turned) and abs(y - v) > 11
                        self.assertTrue(is_apart, (start, other))

    def test_dark(self):
        for radius in RADII:
            found, drawn = self.drawn(bytes(63), radius)
            self.assertEqual(sorted(drawn.numbers), list(STARTS) if radius > 2 else [])
            self.assertEqual("and 113 more" in drawn.words, radius > 2)
            self.assertEqual("Dark film fits at every start." in " ".join(explain.as_text(found).split()), radius > 2)
        # two wrong characters can hide the marks, so that a note fits at every start too
        found = listed(0, between(random_line(random.Random(13)), 10, 2, 5), 5)
        self.assertEqual(len(found.fits), len(STARTS))
        self.assertNotIn("Dark film", explain.as_text(found))

    def test_hostile_text(self):
        """A parser reads the text back as it is, and finds no element that is not the picture's own."""
        for note in (HOSTILE, *"&<>\"'", "  A  B", "_" * 49, "]]>", "<!--"):
            line = film.encode_line(film.characters_of(note), 12)
            for radius in (1, 5):
                found, drawn = self.drawn(recorded(line, 100), radius)
                self.assertIn(note, drawn.words)
                self.assertLessEqual({element.tag for element in drawn.tree.iter()}, {f"{SVG}{tag}" for tag in "svg title desc rect circle path text".split()})
                self.assertFalse([name for element in drawn.tree.iter() for name in element.attrib if name.lower().startswith("on")])

    def test_no_text_of_other_kinds(self):
        for kind, word in ((1, "template"), (9, "kind 9")):
            _, drawn = self.drawn(recorded(film.encode_line(film.characters_of("SECRET", kind), 12), 3), 1)
            self.assertIn(word, drawn.words)
            self.assertNotIn("SECRET", "".join(drawn.words))

    def test_kept(self):
        """The handbook's pictures are what the command draws."""
        for radius, count in ((3, 1), (4, 7), (5, 13)):
            kept = ROOT / "docs" / f"ring-radius-{radius}.svg"
            with tempfile.TemporaryDirectory() as folder:
                picture = pathlib.Path(folder) / "picture.svg"
                with contextlib.redirect_stdout(io.StringIO()):
                    film_command.main(["explain", str(SAMPLE), "--radius", str(radius), "--svg", str(picture)])
                command = f"tools/film explain samples/rings/ring.tray --radius {radius} --svg {kept.relative_to(ROOT)}"
                self.assertTrue(kept.exists() and kept.read_bytes() == picture.read_bytes(), f"another picture is drawn now: {command}")
            self.assertEqual(len(Drawn(kept.read_text()).numbers), count)


class Command(unittest.TestCase):
    def setUp(self):
        folder = tempfile.TemporaryDirectory()
        self.addCleanup(folder.cleanup)
        self.folder = pathlib.Path(folder.name)

    def run_on(self, held, *words):
        """The exit status, and what is said on standard output and on standard error, of explaining a file that holds these bytes."""
        file = self.folder / "file"
        file.write_bytes(held)
        with contextlib.redirect_stdout(io.StringIO()) as out, contextlib.redirect_stderr(io.StringIO()) as err:
            status = film_command.main(["explain", str(file), *words])
        return status, out.getvalue(), err.getvalue()

    def bad_use(self, held, *words):
        status, out, err = self.run_on(held, *words)
        self.assertEqual((status, out), (2, ""))
        self.assertTrue(err.startswith("film: ") and err.count("\n") == 1, err)
        return err

    def test_statuses(self):
        for radius, status, answer in ((0, 0, 0), (3, 0, 0), (4, 1, 10), (5, 1, 10), (None, 1, 10)):
            ended, out, err = self.run_on(SAMPLE.read_bytes(), *([] if radius is None else ["--radius", str(radius)]))
            self.assertEqual((ended, err), (status, ""))
            self.assertIn(f"reading it answers {answer}.\n", out)
        noise = bytes(random.Random(11).randrange(64) for _ in range(63))
        status, out, err = self.run_on(noise)
        self.assertEqual((status, err), (1, ""))
        self.assertTrue(out.startswith("ring 0 at radius 5: 0 starts; reading it answers 6.\nAt no start a line lies within 5 characters"))

    def test_json_is_one_object_on_a_row(self):
        status, out, err = self.run_on(SAMPLE.read_bytes(), "--json")
        self.assertEqual((status, err, out.count("\n")), (1, "", 1))
        self.assertEqual((json.loads(out)["true_start"], json.loads(out)["true_where_wrong_at_most"], len(json.loads(out)["starts"])), (10, 3, 13))

    def test_refused_rings(self):
        picture = self.folder / "picture.svg"
        over = bytes([0] * 20 + [64] + [0] * 42)
        tray = bytes([9, 0, 1]) + bytes(63) + bytes([0])
        for held, number, words in ((over, 2, "place 20 holds 64"), (tray, 3, "it is 9")):
            status, out, err = self.run_on(held, "--svg", str(picture))
            self.assertEqual((status, err, picture.exists()), (1, "", False))
            self.assertRegex(out, rf"^ring 0: refused \({number}\): .*{words}")
            said = json.loads(self.run_on(held, "--json")[1])
            self.assertEqual((said["answer"], said["starts"], said["true_start"]), (number, [], None))
            self.assertIn(words, said["refused"])
        self.assertEqual(self.run_on(tray, "--radius", "2")[0], 1)

    def test_which_ring(self):
        chance = random.Random(12)
        lines = [random_line(chance) for _ in range(2000)]
        held = b"".join(recorded(line, i % 126) for i, line in enumerate(lines))
        for item in (0, 1, 1999):
            status, out, _ = self.run_on(held, "--as", "rings", "--item", str(item), "--radius", "1", "--json")
            said = json.loads(out)
            self.assertEqual((status, said["ring"], said["true_start"]), (0, item, item % 126))
        self.assertIn("there is no ring 2000: the file has 2,000 rings", self.bad_use(held, "--as", "rings", "--item", "2000"))
        self.assertIn("there is no ring 999999999: the file has 2,000 rings", self.bad_use(held + b"1", "--as", "rings", "--item", "999999999"))
        self.assertIn("there is no ring 1: the file has 1 ring", self.bad_use(SAMPLE.read_bytes(), "--item", "1"))
        self.assertIn("the file has 0 rings", self.bad_use(b"", "--as", "rings"))
        self.assertIn("the file stops in ring 1", self.bad_use(bytes([5, 0, 2]) + bytes(100), "--as", "tray", "--item", "1"))

    def test_what_a_file_is(self):
        # a whole tray of 63 bytes is one ring, unless it is said to be a tray
        blocks = bytes([5, 0, 0, 1, 58]) + bytes(58)
        self.assertEqual(self.run_on(blocks)[0], 1)
        self.assertIn("the file has 0 rings", self.bad_use(blocks, "--as", "tray"))
        self.assertIn("say --as tray or --as rings", self.bad_use(bytes([5, 0, 0, 1, 121]) + bytes(121)))
        self.assertIn("the file stops before the count of lines", self.bad_use(bytes(1)))
        self.assertIn("1 byte is left over after the tray", self.bad_use(bytes(5)))
        self.assertIn("the file is empty", self.bad_use(b""))

    def test_unwritable_picture(self):
        self.bad_use(SAMPLE.read_bytes(), "--svg", str(self.folder / "none" / "picture.svg"))


if __name__ == "__main__":
    unittest.main()
