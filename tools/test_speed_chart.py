"""Tests of the chart of speed: bars, marks and values are those that were printed, on one scale; what is missing is named, and bad use ends with 2."""

import math
import pathlib
import random
import re
import subprocess
import sys
import tempfile
import unittest

sys.dont_write_bytecode = True
import test_scan_picture
from drawing import BLUE, INK, ORANGE
from shared import words

ROOT = pathlib.Path(__file__).resolve().parents[1]
sys.path.append(str(ROOT / "bench"))
import chart
from chart import BAR, LEFT, PLOT, ROW, SHOWN, TOP, Fault

PLACE = "# What bench/run printed; version 1.2.3; processor Some Processor @ 2.5 GHz; 2026-11-18 03:05 UTC"
SEED = 63
ALL = list(SHOWN)


def printed(rows, place=PLACE):
    """What bench/run prints where rows have these times of ours, of libfec and of the limit, with another row that is not drawn."""
    rows = {**rows, "block_9_rows": (13.9, 17.8, 1.0)}
    return "\n".join([
        place,
        "the same answers on all words",
        "nanoseconds a call, of a spool a line or scan, of a tray a step, minimum of 400 rounds (second: of 20)",
        f"{'':24} {'film':>12} {'libfec':>12} {'second':>12}",
        *(f"{name:24} {ours:12.1f} {libfec:12.1f} {4168.25:12.1f}" for name, (ours, libfec, _) in rows.items()),
        *(f"ratio {name} {libfec / ours:.3f}" for name, (ours, libfec, _) in rows.items()),
        *(f"ratio_second {name} 71.500" for name in rows),
        *(f"limit {name} {limit:.1f}" for name, (_, _, limit) in rows.items()),
        *(f"ratio_limit {name} {ours / limit:.3f}" for name, (ours, _, limit) in rows.items()),
    ]) + "\n"


def any_rows(count):
    """Times by chance, as printed: a limit, ours above it, and libfec's, all within four powers of ten."""
    chance = random.Random(SEED).random
    for _ in range(count):
        limits = [round(10 ** (1 + chance()), 1) for _ in ALL]
        yield {name: (round(limit * 10 ** chance(), 1), round(limit * 10 ** (1 + 2 * chance()), 1), limit) for name, limit in zip(ALL, limits)}


PLAIN = {name: (40.0 + k, 1000.0 * (k + 1), 18.5) for k, name in enumerate(ALL)}


class Picture(test_scan_picture.Picture):
    """A chart taken apart."""

    def bars(self, fill):
        """The row, the left edge and the width of each bar of a colour; the legend's box is none."""
        for tag, child, _ in self.all:
            if tag == "rect" and child.get("fill") == fill and child.get("height") == str(BAR):
                yield (float(child.get("y")) - TOP) // ROW, float(child.get("x")), float(child.get("width"))

    def marks(self):
        """The row of each mark across bars, and where it stands."""
        for _, child, _ in self.all:
            line = re.match(r"M(\S+) (\S+)v", child.get("d", ""))
            if line and child.get("stroke") == INK and float(line[2]) > TOP:
                yield (float(line[2]) - TOP) // ROW, float(line[1])

    def labels(self):
        """Where the words below the axis stand."""
        bottom = TOP + ROW * len(ALL)
        return {text.said: (text.left + text.right) / 2 for text in self.texts() if bottom < text.foot < bottom + 25}

    def of_row(self, k):
        """The texts of a row, from its top on."""
        return [text.said for text in self.texts() if k == (text.foot - TOP) // ROW]


class Drawn(unittest.TestCase):
    check_texts = test_scan_picture.Drawn.check_texts

    def check(self, rows):
        """Every bar and mark stands on the scale that the axis has, and the texts are apart and inside."""
        picture = Picture(chart.picture(printed(rows)))
        tens = sorted(picture.labels().values())
        self.assertEqual([f"{x:.1f}" for x in tens], [f"{LEFT + PLOT * k / (len(tens) - 1):.1f}" for k in range(len(tens))])
        lowest, decade = self.lowest(picture), PLOT / (len(tens) - 1)
        self.assertLessEqual(lowest, min(map(min, rows.values())))
        self.assertGreaterEqual(lowest * 10 ** (len(tens) - 1), max(map(max, rows.values())))
        for fill, part in (BLUE, 0), (ORANGE, 1):
            bars = list(picture.bars(fill))
            self.assertEqual([k for k, _, _ in bars], list(range(len(ALL))))
            for (_, x, width), times in zip(bars, rows.values()):
                self.assertEqual(x, LEFT)
                self.assertAlmostEqual(width, decade * math.log10(times[part] / lowest), delta=0.011)
        marks = list(picture.marks())
        self.assertEqual([k for k, _ in marks], list(range(len(ALL))))
        for (_, x), (_, _, limit) in zip(marks, rows.values()):
            self.assertAlmostEqual(x, LEFT + decade * math.log10(limit / lowest), delta=0.011)
        self.check_texts(picture)
        return picture

    def lowest(self, picture):
        """The time at which the axis begins."""
        number, unit = min(picture.labels().items(), key=lambda label: label[1])[0].split()
        return float(number) * {"ns": 1, "µs": 1e3, "ms": 1e6}[unit]

    def test_bars(self):
        for rows in any_rows(200):
            self.check(rows)

    def test_scale(self):
        """A time that the axis names ends its bar there; the axis has the powers of ten around all times, and two at least."""
        picture = self.check({name: (10.0 ** (k % 3 + 1), 10.0**5, 10.0) for k, name in enumerate(ALL)})
        labels = picture.labels()
        self.assertEqual(list(labels), ["10 ns", "100 ns", "1 µs", "10 µs", "100 µs"])
        for k, x, width in picture.bars(BLUE):
            self.assertAlmostEqual(x + width, labels[["10 ns", "100 ns", "1 µs"][int(k) % 3]], delta=0.1)
        for times, axis in [
            ((10.0, 10.0, 10.0), ["10 ns", "100 ns"]),
            ((0.5, 99.0, 0.2), ["0.1 ns", "1 ns", "10 ns", "100 ns"]),
            ((20.5, 2e6, 11.0), ["10 ns", "100 ns", "1 µs", "10 µs", "100 µs", "1 ms", "10 ms"]),
        ]:
            self.assertEqual(list(self.check(dict.fromkeys(ALL, times)).labels()), axis)

    def test_row(self):
        """What is written of a row: its words, ours, libfec's, the limit, and the ratio."""
        rows = {**PLAIN, "read_0": (34.5, 1169.2, 18.7), "list_noise_radius_5": (3057.0, 272554.4, 18.2)}
        picture = self.check(rows)
        self.assertEqual(picture.of_row(ALL.index("read_0")), ["read a line, no error", "34.5 ns", "1.17 µs", "18.7 ns", "33.9 ×"])
        self.assertEqual(picture.of_row(ALL.index("list_noise_radius_5")), ["list a ring of noise, radius 5", "3.06 µs", "273 µs", "18.2 ns", "89.2 ×"])
        self.assertEqual([picture.of_row(k)[0] for k in range(len(ALL))], list(SHOWN.values()))
        self.assertIn("read a line, no error: this library 34.5, libfec 1169.2, the limit 18.7;", picture.description)

    def test_times(self):
        """Three digits, in the unit that is at hand."""
        for nanoseconds, said in [
            *((0.5, "0.500 ns"), (2.7, "2.70 ns"), (9.996, "10.0 ns"), (18.7, "18.7 ns"), (99.94, "99.9 ns"), (99.96, "100 ns"), (999.4, "999 ns")),
            *((999.5, "1.00 µs"), (1169.2, "1.17 µs"), (10000, "10.0 µs"), (272554, "273 µs"), (999499, "999 µs")),
            *((999500, "1.00 ms"), (2e6, "2.00 ms"), (5e9, "5,000 ms")),
        ]:
            self.assertEqual(chart.said(nanoseconds), said)

    def test_measured(self):
        """What was measured, where and when, whatever the processor is called."""
        for processor in ("AMD EPYC", "Intel(R) Xeon(R) Processor @ 2.60GHz", "a; b <&> \"'-->", "x" * 48):
            picture = Picture(chart.picture(printed(PLAIN, PLACE.replace("Some Processor @ 2.5 GHz", processor))))
            said = [text.said for text in picture.texts()]
            self.assertIn(f"version 1.2.3, {processor}, 2026-11-18 03:05 UTC, the least of 400 rounds", said)
            self.assertIn(f"version 1.2.3, {processor}, 2026-11-18 03:05 UTC. ", picture.description)
            self.check_texts(picture)

    def test_rows(self):
        """Each row that is drawn is one of bench/bench.c that has a limit, and libfec in its own column."""
        source = (ROOT / "bench/bench.c").read_text()
        for name in SHOWN:
            self.assertRegex(source, rf'\{{"{name}", .*\bours_\w+, fec_\w+, second_\w+, limit_\w+\}}')

    def test_refused(self):
        """A line that is missing, that stands twice or that has no time is named."""
        lines = printed(PLAIN).splitlines()
        chart.picture("\n".join(lines))
        for name in SHOWN:
            for form, what in (f"{name} ", "times"), (f"limit {name} ", "limit"), (f"ratio {name} ", "ratio"):
                (k,) = [k for k, line in enumerate(lines) if line.startswith(form)]
                for changed, count in ([], 0), ([lines[k]] * 2, 2), ([lines[k].replace(".", ",")], 0), ([lines[k] + " x"], 0):
                    with self.assertRaisesRegex(Fault, f"^there are {count} lines with the {what} of {name}, and one is wanted"):
                        chart.picture("\n".join([*lines[:k], *changed, *lines[k + 1 :]]))
                with self.assertRaisesRegex(Fault, f"^a number of {name} is 0"):
                    chart.picture("\n".join([*lines[:k], re.sub(r"(?<= )[\d.]+", "0.0", lines[k], count=1), *lines[k + 1 :]]))
        for k, what in (0, "the version, the processor and the date"), (2, "the number of rounds"):
            with self.assertRaisesRegex(Fault, f"^there are 0 lines with {what}, and one is wanted"):
                chart.picture("\n".join(lines[:k] + lines[k + 1 :]))
            with self.assertRaisesRegex(Fault, f"^there are 2 lines with {what}, and one is wanted"):
                chart.picture("\n".join([lines[k], *lines]))


class Used(unittest.TestCase):
    """The command as it is typed."""

    def setUp(self):
        self.room = tempfile.TemporaryDirectory()
        self.addCleanup(self.room.cleanup)
        self.printed = pathlib.Path(self.room.name, "printed.txt")
        self.drawn = pathlib.Path(self.room.name, "drawn.svg")
        self.printed.write_text(printed(PLAIN), encoding="utf-8")

    def run_with(self, *arguments, given=b""):
        run = subprocess.run([sys.executable, ROOT / "bench/chart.py", *arguments], input=given, capture_output=True, cwd=self.room.name)
        return run.returncode, run.stdout.decode("utf-8"), run.stderr.decode("utf-8")

    def test_ways(self):
        """From a file or from standard input, to a file or to standard output, the same chart."""
        drawn = chart.picture(printed(PLAIN))
        self.assertEqual(self.run_with(self.printed), (0, drawn, ""))
        self.assertEqual(self.run_with(given=self.printed.read_bytes()), (0, drawn, ""))
        self.assertEqual(self.run_with(self.printed, self.drawn), (0, "", ""))
        self.assertEqual(self.drawn.read_text(encoding="utf-8"), drawn)

    def test_bad_use(self):
        """Nothing is drawn, a sentence says why, and it ends with 2."""
        for arguments, given, why in [
            ((), b"", "there are 0 lines with the version"),
            ((), b"\xff", "can't decode"),
            (("none.txt",), b"", "No such file"),
            ((".",), b"", "Is a directory"),
            ((self.printed, "drawn.png"), b"", "ends with .svg"),
            ((self.printed, "none/drawn.svg"), b"", "No such file"),
            ((self.printed, self.drawn, self.drawn), b"", "--help says more"),
            (("-x",), b"", "--help says more"),
        ]:
            ended, drawn, said = self.run_with(*arguments, given=given)
            self.assertEqual((ended, drawn, said.count("\n")), (2, "", 1))
            self.assertIn(why, said)
            self.assertFalse(self.drawn.exists())


if __name__ == "__main__":
    words(__doc__)
    unittest.main(argv=sys.argv[:1])
