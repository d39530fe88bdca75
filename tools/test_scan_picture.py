"""Tests of the picture of a scan: what is drawn is what the scan has and is answered with, its texts are apart and inside, and bad use ends with 2.

--library  runs other tests, where the library is built: it answers what is worked out here, bit for bit, and so gives the same picture"""

import contextlib
import io
import pathlib
import random
import re
import subprocess
import sys
import tempfile
import unittest
import xml.etree.ElementTree as tree
from collections import Counter
from typing import NamedTuple

sys.dont_write_bytecode = True
import scan_picture
from drawing import BLUE, INK
from scan_picture import AMBER, BAR, BOTTOM, CELLS, LARGE, LEFT, ONE_SIDED, RIGHT, ROOT, SCAN, TALL, WRONG_LENGTH, Scan, drawn, sample, worked_out
from shared import words

# as much of its size as a character of these texts is wide, taken together, and as far as it goes above its foot and below it
WIDE, ABOVE, BELOW = 0.6, 0.8, 0.25
LOW, HIGH = bytes([10] * 94 + [20] * 94), bytes([200] * 95 + [220] * 95)
# ratios of the samples by threshold, as the handbook has them
HANDBOOK = {
    "clear": {64: "3.37", 80: "35.35", 96: "93.72", 112: "93.72", 128: "93.72", 144: "93.72", 160: "93.72", 176: "21.85", 192: "2.44"},
    "dim": {64: "4.05", 80: "3.84", 96: "3.98", 112: "5.72", 128: "7.89", 144: "6.19", 160: "3.93", 176: "3.42", 192: "3.77"},
}


class Text(NamedTuple):
    """A text of a picture: where it stands, its foot, its size and what it says."""

    left: float
    right: float
    foot: float
    size: float
    said: str


def elements(node, down=0):
    """Each shape and text of a picture, with its fill and how far it is moved down."""
    for child in node:
        moved = re.fullmatch(r"translate\(0 (\d+)\)", child.get("transform", ""))
        inside = down + int(moved[1]) if moved else down
        child.attrib.setdefault("fill", node.get("fill"))
        yield child, inside
        yield from elements(child, inside)


class Picture:
    """A picture taken apart."""

    def __init__(self, said):
        self.root = tree.fromstring(said)
        self.width, self.height = float(self.root.get("width")), float(self.root.get("height"))
        self.all = [(child.tag.rpartition("}")[2], child, down) for child, down in elements(self.root)]
        self.description = next(child.text for tag, child, _ in self.all if tag == "desc")

    def texts(self):
        for tag, child, down in self.all:
            if tag == "text":
                size, x = float(child.get("font-size", 14)), float(child.get("x"))
                width = WIDE * size * len(child.text or "")
                left = x - {"start": 0, "middle": width / 2, "end": width}[child.get("text-anchor", "start")]
                yield Text(left, left + width, float(child.get("y")) + down, size, child.text or "")

    def large(self):
        return [text.said for text in self.texts() if text.size == LARGE]

    def bars(self, k):
        """Of one scan: the fill, the left edge, the foot and the height of each bar."""
        for tag, child, down in self.all:
            if tag == "rect" and child.get("width") == str(BAR) and down == k * SCAN:
                y, height = float(child.get("y")), float(child.get("height"))
                yield child.get("fill"), float(child.get("x")), y + height, height

    def marks(self, k):
        """Of one scan: the fill and the tip of each mark below the plot."""
        for tag, child, down in self.all:
            tip = re.match(r"M (\S+) (\S+) L ", child.get("d", ""))
            if tip and down == k * SCAN and float(tip[2]) < SCAN:
                yield child.get("fill"), float(tip[1])

    def thresholds(self, k):
        """Of one scan: where the dashed lines stand."""
        for tag, child, down in self.all:
            line = re.match(r"M(\S+) (\S+)V", child.get("d", ""))
            if line and child.get("stroke") == BLUE and down == k * SCAN and float(line[2]) < SCAN:
                yield float(line[1])


def by_sums(cells, threshold):
    """The answer by the whole numbers of the request: counts, sums and sums of squares."""
    dark, bright = [c for c in cells if c < threshold], [c for c in cells if not c < threshold]
    if len(cells) != CELLS or not dark or not bright:
        return ONE_SIDED if len(cells) == CELLS else WRONG_LENGTH
    (n1, s1, q1), (n2, s2, q2) = ((len(side), sum(side), sum(c * c for c in side)) for side in (dark, bright))
    above, below = (s2 * n1 - s1 * n2) ** 2, n2 * n2 * (n1 * q1 - s1 * s1) + n1 * n1 * (n2 * q2 - s2 * s2)
    return Scan(above / below if below else None, s1 / n1, s2 / n2)


def bits(answer):
    """An answer with every bit of its numbers."""
    return answer if isinstance(answer, int) else tuple(number if number is None else number.hex() for number in answer)


def any_scans(count):
    """Scans and thresholds by chance: of any brightness, in two heaps, of two brightnesses and of two that touch; every third has a cell of any brightness
    besides, and every second a threshold that one of its cells has."""
    chance = random.Random(1968).random

    def below(bound):
        return int(chance() * bound)

    for k in range(count):
        low, high, away = below(200), below(200), 1 + below(56)
        kinds = [
            lambda: below(256),
            lambda: (low if chance() < 0.5 else high) + below(away),
            lambda: low if chance() < 0.5 else high,
            lambda: low + below(2),
        ]
        cells = bytearray(kinds[k % len(kinds)]() for _ in range(CELLS))
        if k % 3 == 0:
            cells[below(CELLS)] = below(256)
        yield bytes(cells), cells[below(CELLS)] if k % 2 else below(256)


EDGES = [
    (LOW + HIGH, 100),
    (LOW + HIGH, 20),
    (bytes(189) + bytes([255] * 189), 128),
    (bytes([127] * 377 + [128]), 128),
    (bytes([254] * 376 + [0, 255]), 255),
    (bytes([0, 1] * 188 + [255, 255]), 255),
    (bytes(377) + b"\1", 1),
    (bytes(range(189)) * 2, 94),
    # rounded to 64 bits and then to a double, these two are other ratios
    (bytes([0] + [45] * 188 + [128] * 100 + [255] * 89), 128),
    (bytes([0] * 72 + [27] * 117 + [128] * 100 + [255] * 89), 128),
]
REFUSED = [(bytes(CELLS), 0), (bytes(CELLS), 1), (bytes(CELLS), 255), (bytes([255] * CELLS), 255), (LOW + HIGH, 10), (LOW + HIGH, 221)]
WRONG_LENGTHS = [(bytes(length), 128) for length in (0, 1, 377, 379, 756)] + [(LOW + HIGH[1:], 100), (LOW + HIGH + HIGH[:1], 100)]


class Drawn(unittest.TestCase):
    def test_worked_out(self):
        """By means and variances it is what it is by counts, sums and sums of squares, and some are known."""
        for cells, threshold in [*EDGES, *REFUSED, *WRONG_LENGTHS, *any_scans(200)]:
            self.assertEqual(bits(worked_out(cells, threshold)), bits(by_sums(cells, threshold)))
        self.assertEqual(worked_out(LOW + HIGH, 100), (304.2, 15.0, 210.0))
        self.assertEqual(worked_out(LOW + HIGH, 20)[1:], (10.0, (94 * 20 + 95 * 420) / 284))
        self.assertEqual(worked_out(bytes(189) + bytes([255] * 189), 128), (None, 0.0, 255.0))
        self.assertEqual({worked_out(*scan) for scan in REFUSED}, {ONE_SIDED})
        self.assertEqual({worked_out(*scan) for scan in WRONG_LENGTHS}, {WRONG_LENGTH})

    def test_samples(self):
        """The files are those of the rule, and their ratios those that the handbook has."""
        for name, ratios in HANDBOOK.items():
            self.assertEqual((ROOT / f"samples/{name}.scan").read_bytes(), sample(name))
            self.assertEqual({t: scan_picture.shown(worked_out(sample(name), t).ratio) for t in ratios}, ratios)
            self.assertEqual([worked_out(sample(name), t) for t in (32, 224)], [ONE_SIDED, ONE_SIDED])

    def test_thresholds(self):
        """What the handbook says of thresholds, and of brighter and darker scans."""

        def ratios(cells):
            answers = {t: worked_out(cells, t) for t in range(256)}
            return {t: answer.ratio for t, answer in answers.items() if isinstance(answer, Scan) and answer.ratio is not None}

        def shifted(cells, more):
            return bytes(c + more for c in cells)

        clear, dim, one_heap = sample("clear"), sample("dim"), scan_picture.made(128, 128, 15)
        of_clear, of_dim, of_heap = map(ratios, (clear, dim, one_heap))
        self.assertEqual([t for t in of_clear if of_clear[t] == of_clear[128]], list(range(83, 166)))
        self.assertEqual((len(scan_picture.sides(clear, 128)[0]), len(scan_picture.sides(clear, 80)[0])), (184, 179))
        self.assertEqual([(min(of, key=of.get), f"{min(of.values()):.2f}") for of in (of_clear, of_dim)], [(209, "1.70"), (171, "3.27")])
        self.assertEqual(f"{worked_out(bytes(range(189)) * 2, 94).ratio:.2f}", "6.00")
        highest = max(of_heap.values())
        self.assertEqual((f"{of_heap[128]:.2f}", f"{highest:.2f}", [t for t in of_heap if of_heap[t] == highest]), ("4.01", "7.13", [89, 90, 91, 92, 93]))
        self.assertEqual(len(scan_picture.sides(one_heap, 93)[0]), 1)
        self.assertEqual([more for more in range(-38, 43) if worked_out(shifted(clear, more), 128).ratio == of_clear[128]], list(range(-37, 43)))
        self.assertEqual([f"{worked_out(shifted(dim, more), 128).ratio:.2f}" for more in (20, -20)], ["5.15", "5.35"])
        self.assertEqual(sum((one < 128) != (other < 128) for one, other in zip(clear, dim)), 9)

    def check_scan(self, picture, k, cells, threshold, answer):
        """Bars, threshold and marks of one scan of a picture."""
        most = max(Counter(cells).values())
        line = LEFT + BAR * threshold
        counts = Counter()
        for fill, x, foot, height in picture.bars(k):
            self.assertAlmostEqual(foot, BOTTOM, delta=0.02)
            self.assertEqual(fill, INK if x + BAR <= line else AMBER)
            self.assertEqual(fill, AMBER if x >= line else INK)
            counts[int(x - LEFT) // BAR] += round(height * most / TALL, 1)
            self.assertLessEqual(height, TALL)
        self.assertEqual(counts, Counter(cells))
        self.assertEqual(sum(counts.values()), CELLS)
        self.assertEqual(list(picture.thresholds(k)), [line])
        wanted = [] if isinstance(answer, int) else [(INK, answer.dark), (AMBER, answer.bright)]
        marks = list(picture.marks(k))
        self.assertEqual([fill for fill, _ in marks], [fill for fill, _ in wanted])
        for (_, x), (_, mean) in zip(marks, wanted):
            self.assertAlmostEqual(x, LEFT + BAR * (mean + 0.5), delta=0.051)

    def check_texts(self, picture):
        """No text goes beyond the picture, and no two lie over one another."""
        texts = list(picture.texts())
        for i, one in enumerate(texts):
            self.assertTrue(0 <= one.left and one.right <= picture.width, one)
            self.assertTrue(0 <= one.foot - ABOVE * one.size and one.foot + BELOW * one.size <= picture.height, one)
            for other in texts[:i]:
                beside = one.right <= other.left or other.right <= one.left
                apart = one.foot + BELOW * one.size <= other.foot - ABOVE * other.size or other.foot + BELOW * other.size <= one.foot - ABOVE * one.size
                self.assertTrue(beside or apart, (one, other))

    def check_counts(self, picture, most):
        """The numbers of cells beside the plot stand as high as a bar of so many."""
        beside = [(int(text.said), text.foot - 5) for text in picture.texts() if text.right == LEFT - 8 and text.said.isdigit()]
        self.assertTrue(1 <= len(beside) <= 4)
        for count, y in beside:
            self.assertAlmostEqual(BOTTOM - y, TALL * count / most, delta=0.051)

    def test_drawn(self):
        """Every part of a picture, with no spread and refused too."""
        for cells, threshold in [*EDGES, *REFUSED, *any_scans(60), *((sample("dim"), t) for t in range(0, 256, 5))]:
            answer = worked_out(cells, threshold)
            picture = Picture(drawn(cells, threshold, answer))
            self.check_scan(picture, 0, cells, threshold, answer)
            self.check_texts(picture)
            self.check_counts(picture, max(Counter(cells).values()))
            said = [text.said for text in picture.texts()]
            self.assertIn(f"threshold {threshold}", said)
            self.assertEqual(picture.large(), [scan_picture.result(answer)])
            if not isinstance(answer, int):
                self.assertIn(f"{answer.dark:.2f}", said)
                self.assertIn(f"{answer.bright:.2f}", said)
                self.assertIn(f"means {answer.dark!r} and {answer.bright!r}; ", picture.description)
                self.assertTrue(picture.description.endswith("no spread." if answer.ratio is None else f"ratio {answer.ratio!r}."))

    def test_said(self):
        """What stands in large type, and below it."""
        for cells, threshold, large, below in [
            (LOW + HIGH, 100, "ratio 304.20", "dark: 188 cells, mean 15.00; bright: 190 cells, mean 210.00"),
            (bytes([254] * 376 + [0, 255]), 255, "ratio 0.0164", "dark: 377 cells, mean 253.33; bright: 1 cell, mean 255.00"),
            (bytes([0, 1] + [0] * 375 + [255]), 128, "ratio 24,579,111.59", "dark: 377 cells, mean 0.00; bright: 1 cell, mean 255.00"),
            (bytes(189) + bytes([255] * 189), 128, "no spread", "dark: 189 cells, mean 0.00; bright: 189 cells, mean 255.00"),
            (bytes(CELLS), 128, "refused (20)", "a scan of brightnesses in which no cell is dark, or none is bright"),
        ]:
            picture = Picture(drawn(cells, threshold, worked_out(cells, threshold), "<&>"))
            said = [text.said for text in picture.texts()]
            self.assertEqual(picture.large(), [large])
            self.assertIn(below, said)
            self.assertIn("<&>", said)

    def test_handbook(self):
        """Two scans under one threshold, the clear one first."""
        picture = Picture(scan_picture.picture())
        for k, name in enumerate(["clear", "dim"]):
            self.check_scan(picture, k, sample(name), 128, worked_out(sample(name), 128))
        self.check_texts(picture)
        self.assertEqual(picture.large(), ["ratio 93.72", "ratio 7.89"])
        self.assertEqual(scan_picture.picture(), scan_picture.picture())

    def test_colours(self):
        """The colours of the sides differ from one another and from white in lightness: 3 to 1 or more, as pages are asked for."""

        def lightness(colour):
            parts = [int(colour[i : i + 2], 16) / 255 for i in (1, 3, 5)]
            return sum(weight * (part / 12.92 if part <= 0.04045 else ((part + 0.055) / 1.055) ** 2.4) for weight, part in zip((0.2126, 0.7152, 0.0722), parts))

        steps = [lightness(colour) + 0.05 for colour in (INK, AMBER, "#ffffff")]
        self.assertTrue(steps[1] / steps[0] >= 3 and steps[2] / steps[1] >= 3)


class Used(unittest.TestCase):
    """The command, with what is asked worked out here."""

    ask = staticmethod(worked_out)

    def setUp(self):
        self.room = tempfile.TemporaryDirectory()
        self.addCleanup(self.room.cleanup)
        self.picture = pathlib.Path(self.room.name, "x.svg")

    def file(self, cells, name="a.scan"):
        path = pathlib.Path(self.room.name, name)
        path.write_bytes(cells)
        return str(path)

    def run_with(self, *arguments):
        """What the command ends with, and what it says."""
        with contextlib.redirect_stderr(io.StringIO()) as said, contextlib.redirect_stdout(io.StringIO()) as printed:
            ended = scan_picture.main(list(arguments), self.ask)
        self.assertEqual(printed.getvalue(), "")
        return ended, said.getvalue()

    def test_drawn(self):
        for cells, threshold in (sample("dim"), 128), (bytes(CELLS), 128), (bytes(189) + bytes([255] * 189), 128), (LOW + HIGH, 0), (LOW + HIGH, 255):
            self.assertEqual(self.run_with(self.file(cells), str(threshold), str(self.picture)), (0, ""))
            self.assertEqual(self.picture.read_text(encoding="utf-8"), drawn(cells, threshold, worked_out(cells, threshold), "a.scan"))

    def test_names(self):
        """A name of a file that no picture can hold as it is."""
        for name, shown in ("a&b<c>.scan", "a&b<c>.scan"), ("a\x01\nb", "a??b"), ("long" * 20, "longlonglonglonglonglonglo.."):
            self.assertEqual(self.run_with(self.file(LOW + HIGH, name), "100", str(self.picture)), (0, ""))
            self.assertIn(shown, [text.said for text in Picture(self.picture.read_text(encoding="utf-8")).texts()])

    def test_bad_use(self):
        """Nothing is drawn, and a sentence says why."""
        cells, picture = self.file(LOW + HIGH), str(self.picture)
        for arguments, why in [
            ([], "usage: "),
            ([cells, "128"], "usage: "),
            ([cells, "128", picture, picture], "usage: "),
            ([cells + "x", "128", picture], "No such file"),
            ([self.room.name, "128", picture], "Is a directory"),
            ([cells, "128", self.room.name + "/none/x.svg"], "No such file"),
            ([cells, "128", cells], "ends with .svg"),
            *(([cells, threshold, picture], f"'{threshold}' is no threshold: ") for threshold in ("256", "-1", "1.5", "x", "", "0x80", "\u0661", "1000", " 1")),
        ]:
            ended, said = self.run_with(*arguments)
            self.assertEqual(ended, 2)
            self.assertIn(why, said)
            self.assertEqual(said.count("\n"), 1)
            self.assertFalse(self.picture.exists())
        self.assertEqual(pathlib.Path(cells).read_bytes(), LOW + HIGH)

    def test_wrong_length(self):
        for wrong, threshold in WRONG_LENGTHS:
            ended, said = self.run_with(self.file(wrong), str(threshold), str(self.picture))
            self.assertEqual(ended, 2)
            self.assertIn("refused (1): ", said)
            self.assertIn("a scan of brightnesses is not 378 long", said)
            self.assertFalse(self.picture.exists())


class Asked(Used):
    """The command, with the library asked."""

    ask = staticmethod(scan_picture.asked)

    def test_same_answers(self):
        """The library answers what is worked out here, bit for bit, and the pictures are the same."""
        for cells, threshold in [*EDGES, *REFUSED, *WRONG_LENGTHS, *any_scans(400), *((sample(name), t) for name in HANDBOOK for t in range(256))]:
            answer = self.ask(cells, threshold)
            self.assertEqual(bits(answer), bits(worked_out(cells, threshold)))
            if answer != WRONG_LENGTH:
                self.assertEqual(drawn(cells, threshold, answer), drawn(cells, threshold, worked_out(cells, threshold)))

    def test_run(self):
        """The command as it is typed."""
        for arguments, ended in ([ROOT / "samples/dim.scan", "128", self.picture], 0), ([ROOT / "samples/dim.scan", "256", self.picture], 2):
            run = subprocess.run([sys.executable, ROOT / "tools/scan_picture.py", *arguments], capture_output=True, text=True)
            self.assertEqual((run.returncode, run.stdout, run.stderr == ""), (ended, "", ended == 0))
        self.assertEqual(self.picture.read_text(encoding="utf-8"), drawn(sample("dim"), 128, worked_out(sample("dim"), 128), "dim.scan"))


if __name__ == "__main__":
    with_library = "--library" in words(__doc__, "--library")
    unittest.main(argv=sys.argv[:1], defaultTest=["Asked"] if with_library else ["Drawn", "Used"])
