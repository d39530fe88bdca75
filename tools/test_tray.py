"""Tests of tray.py: run them by `python3 tools/test_tray.py`, which takes no words.

What a line, a start and a proper block are is written here once more, from the rules and in other ways than in the tool: power sums by
logarithms, not a division; what a start reads, not where a character goes; ones that are counted, not summed.
"""

import os
import random
import subprocess
import sys
import tempfile
import unittest

sys.dont_write_bytecode = True
from shared import words
from tray import Fault, make, show

HERE = os.path.dirname(os.path.abspath(__file__))
TOOL = os.path.join(HERE, "tray.py")
SAMPLES = os.path.join(HERE, "..", "samples")

Z = bytes(52) + bytes([32, 0, 0, 8, 0, 0, 0, 0, 0, 0, 1])
Z_WITH_5_AT_60 = bytes(52) + bytes([32, 0, 0, 8, 0, 0, 0, 0, 5, 0, 1])
PAPER = bytes([5, 1]) + Z_WITH_5_AT_60 + bytes([1]) + Z + bytes([1, 2, 3, 253])

EXPONENT = {}
power = 1
for exponent in range(63):
    EXPONENT[power] = exponent
    power = power * 2 if power < 32 else power * 2 - 64 ^ 3
POWER = {exponent: power for power, exponent in EXPONENT.items()}


def is_line(word):
    """All eleven power sums are 0 once the marks are off."""
    clean = [c ^ {52: 32, 55: 8, 62: 1}.get(a, 0) for a, c in enumerate(word)]
    for j in range(-5, 6):
        total = 0
        for a, c in enumerate(clean):
            if c:
                total ^= POWER[(EXPONENT[c] + j * (62 - a)) % 63]
        if total:
            return False
    return len(word) == 63


def at_start(ring, start):
    """The 63 characters that a start reads."""
    if start < 63:
        return bytes(ring[(start + a) % 63] for a in range(63))
    return bytes(ring[(start - 63 - a) % 63] for a in range(63))


def parities(rows):
    """Those of the rows that occur, and those of the columns."""
    ones = [[row >> column & 1 for column in range(8)] for row in rows]
    return {sum(bits) % 2 for bits in ones}, {sum(bits) % 2 for bits in zip(*ones)}


def is_proper(rows):
    return parities(rows) == ({0}, {1})


def word(description):
    """The 63 bytes of the one line or ring that a row describes, held to be all that is in the tray."""
    tray = make("radius 0\n" + description)
    kind = description.split()[0]
    before, after = {"line": (b"\0\1", b"\0\0"), "ring": (b"\0\0\1", b"\0")}[kind]
    assert tray.startswith(before) and tray.endswith(after) and len(tray) == len(before) + 63 + len(after)
    return tray[len(before):-len(after)]


def block(description):
    """The row count and rows of the one block that a row describes."""
    tray = make("radius 0\n" + description)
    assert tray[:4] == b"\0\0\0\1"
    return list(tray[4:])


class Lines(unittest.TestCase):
    def test_zero_and_dark(self):
        self.assertEqual(word("line zero"), Z)
        self.assertEqual(word("line zero wrong 60:5"), Z_WITH_5_AT_60)
        self.assertEqual(word('line text "" number 0'), Z)
        self.assertEqual(word("line dark"), bytes(63))

    def test_the_papers_line_with_number_65(self):
        marked = (5, 6, 14, 15, 23, 24, 32, 33, 41, 42)
        text = "".join("!" if a in marked else " " for a in range(50))
        characters = [1 if a in marked else 0 for a in range(50)]
        self.assertEqual(list(word(f'line text "{text}" number 65')), characters + [1, 1] + [32, 0, 0, 8, 0, 0, 0, 1, 1, 0, 1])

    def test_every_line_is_a_line_with_its_text_and_number(self):
        self.assertTrue(is_line(Z))
        self.assertFalse(is_line(Z_WITH_5_AT_60))
        chance = random.Random(1)
        for number in [0, 63, 64, 4095] + [chance.randrange(4096) for _ in range(60)]:
            characters = [chance.randrange(64) for _ in range(50)]
            text = "".join(chr(32 + c) for c in characters).replace('"', '""')
            made = word(f'line text "{text}" number {number}')
            self.assertEqual(list(made[:50]), characters)
            self.assertEqual((made[50], made[51]), divmod(number, 64))
            self.assertTrue(is_line(made))

    def test_text_is_ascii_less_32_and_filled_up(self):
        made = word(r'line text "AZ 09 ""#\_" number 1 # a comment')
        self.assertEqual(list(made[:10]), [33, 58, 0, 16, 25, 0, 2, 3, 60, 63])
        self.assertEqual(made[10:52], bytes(41) + b"\1")

    def test_wrong_is_exclusive_or(self):
        self.assertEqual(word("line hex " + "01" * 63 + " wrong 0:3 62:255 wrong 62:1"), b"\2" + b"\1" * 61 + b"\xff")

    def test_hexadecimal_in_parts(self):
        self.assertEqual(word("line hex 0a 0B" + " 0c" * 61), b"\x0a\x0b" + b"\x0c" * 61)


class Rings(unittest.TestCase):
    def test_every_start_reads_the_line(self):
        line = word('line text "TURN ME OR REVERSE ME" number 1234')
        for k in range(63):
            turned = word(f'ring text "TURN ME OR REVERSE ME" number 1234 turned {k}')
            back = word(f'ring text "TURN ME OR REVERSE ME" number 1234 reversed {k}')
            self.assertEqual([start for start in range(126) if at_start(turned, start) == line], [k])
            self.assertEqual([start for start in range(126) if at_start(back, start) == line], [63 + k])

    def test_changes_are_done_from_left_to_right(self):
        for changes, place in [("wrong 5:1 turned 7", 12), ("turned 7 wrong 5:1", 5), ("wrong 5:1 turned 62", 4),
                               ("wrong 5:1 reversed 7", 2), ("wrong 5:1 reversed 3", 61), ("wrong 5:1 reversed 7 turned 10", 12)]:
            self.assertEqual([p for p, c in enumerate(word("ring dark " + changes)) if c], [place], changes)


class Blocks(unittest.TestCase):
    def test_rows(self):
        self.assertEqual(block("block 3 253"), [2, 3, 253])
        self.assertEqual(block("block"), [0])
        self.assertEqual(block("block 9 7*3 255"), [5, 9, 7, 7, 7, 255])
        self.assertEqual(block("block 1*255"), [255] + [1] * 255)
        self.assertEqual(block("block 3 253 wrong 1:1 0:4 wrong 0:8"), [2, 15, 252])

    def test_data_rows_give_a_proper_block(self):
        self.assertEqual(block("block data 3"), [2, 3, 252])
        self.assertEqual(block("block data 1 wrong 1:3"), [2, 129, 125])
        chance = random.Random(2)
        for count in range(1, 64):
            data = [chance.randrange(128) for _ in range(count)]
            made = block("block data " + " ".join(map(str, data)))
            self.assertEqual(made[0], count + 1)
            self.assertEqual([row % 128 for row in made[1:-1]], data)
            self.assertTrue(is_proper(made[1:]))


class Trays(unittest.TestCase):
    def test_the_papers_case(self):
        self.assertEqual(len(PAPER), 133)
        self.assertEqual(make("radius 5\nline zero wrong 60:5\nring zero\nblock 3 253\n"), PAPER)

    def test_counts_are_worked_out(self):
        self.assertEqual(make("radius 255"), bytes([255, 0, 0, 0]))
        self.assertEqual(make("radius 1\n\n  # nothing\nring dark\r\nring dark\r\n"), bytes([1, 0, 2]) + bytes(126) + bytes([0]))
        self.assertEqual(make("radius 1\nlines 1\nline dark\nblocks 0"), bytes([1, 1]) + bytes(63) + bytes([0, 0]))
        self.assertEqual(make("radius 1\n" + "line dark\n" * 255)[1], 255)

    def test_cut_and_more(self):
        self.assertEqual(make("cut"), b"")
        self.assertEqual(make("cut 05 01"), bytes([5, 1]))
        self.assertEqual(make("radius 5\ncut"), bytes([5]))
        self.assertEqual(make("radius 5\nlines 3\nline dark\ncut 01 0203\ncut 04"), bytes([5, 3]) + bytes(63) + bytes([1, 2, 3, 4]))
        self.assertEqual(make("radius 5\nrings 2\ncut"), bytes([5, 0, 2]))
        self.assertEqual(make("radius 5\nmore ff 0a\nmore 0b"), bytes([5, 0, 0, 0, 255, 10, 11]))


class Shown(unittest.TestCase):
    def test_the_papers_case(self):
        self.assertEqual(show(PAPER).split("\n"), [
            "# A tray file. Its length in bytes: 133.",
            "radius 5",
            "",
            "lines 1",
            '# line 0: text "" number 0; no line as it stands',
            "line hex " + "00" * 50 + " 0000 2000000800000000050001",
            "",
            "rings 1",
            '# ring 0: "' + " " * 52 + '@  (      !"',
            "ring hex " + "00" * 52 + "2000000800000000000001",
            "",
            "blocks 1",
            "# block 0: hex 03 fd; not proper as it stands",
            "block 3 253",
            "",
            "# The file is whole, and nothing is left over.",
            ""])

    def test_plain_forms(self):
        shown = show(make('radius 0\nline text "SAY ""HI"" #1" number 4095\nline text "AB" number 9 wrong 1:64\nline zero wrong 50:128\nline zero wrong 0:63 1:64\n'
                          "block data 5 6\nblock 3 253\nblock\nblock 7\nblock 0*63 255\nblock 0*64 255"))
        for comment in ('line 0: text "SAY ""HI"" #1" number 4095; a line', 'line 1: text "A~" number 9; no line as it stands',
                        'line 2: text "" no number; no line as it stands', 'line 3: text "_~" number 0; no line as it stands',
                        "block 0: hex 05 06 fc; proper", "block 1: hex 03 fd; not proper as it stands", "block 2: not 2 to 64 rows",
                        "block 3: hex 07; not 2 to 64 rows", "block 4: hex" + " 00" * 63 + " ff; proper", "block 5: hex" + " 00" * 64 + " ff; not 2 to 64 rows"):
            self.assertIn("# " + comment, shown.split("\n"))

    def test_what_is_said_of_a_block(self):
        said = {(True, True): "proper", (True, False): "not proper: every column is even"}
        chance = random.Random(3)
        for count in range(2, 65):
            made = block("block data " + " ".join(str(chance.randrange(128)) for _ in range(count - 1)))[1:]
            inverted = made[:-1] + [255 - made[-1]]
            wrong = made[:-1] + [made[-1] ^ 1 << chance.randrange(8)]
            for rows in (made, inverted, wrong, [0] * count, [255] * count):
                of_rows, of_columns = parities(rows)
                due = said.get((of_rows == {0} and len(of_columns) == 1, of_columns == {1}), "not proper as it stands")
                self.assertIn(f"; {due}\n", show(make("radius 0\nblock " + " ".join(map(str, rows)))))

    def test_the_papers_case_cut_at_every_length(self):
        stops = {0: "before the radius", 1: "before the count of lines", 2: "before line 0", 65: "before the count of rings", 66: "before ring 0",
                 129: "before the count of blocks", 130: "before the row count of block 0", 131: "before the rows of block 0",
                 132: "in the rows of block 0, after 1 of 2 bytes"}
        stops.update({n: f"in line 0, after {n - 2} of 63 bytes" for n in range(3, 65)})
        stops.update({n: f"in ring 0, after {n - 66} of 63 bytes" for n in range(67, 129)})
        for length in range(len(PAPER)):
            shown = show(PAPER[:length])
            self.assertIn(f"# The file stops {stops[length]}.\ncut", shown)
            self.assertEqual(make(shown), PAPER[:length])
            self.assertNotIn("more", shown)

    def test_left_over(self):
        shown = show(PAPER + bytes(range(40)))
        self.assertTrue(shown.endswith("\n# Bytes left over: 40.\nmore " + bytes(range(32)).hex(" ") + "\nmore 20 21 22 23 24 25 26 27\n"))
        self.assertEqual(make(shown), PAPER + bytes(range(40)))


class RoundTrips(unittest.TestCase):
    def check(self, tray):
        shown = show(tray)
        self.assertEqual(make(shown), tray)
        return shown

    def test_any_bytes(self):
        chance = random.Random(3)
        for length in [*range(300), *range(300, 30000, 997)]:
            self.check(chance.randbytes(length))
            self.check(bytes(chance.randrange(3) for _ in range(length)))

    def test_trays(self):
        """Trays with few items, whole, cut and with bytes left over; the number of items shown is the number put in."""
        chance = random.Random(4)
        for _ in range(200):
            lines, rings, blocks = (chance.randrange(4) for _ in range(3))
            tray = bytes([chance.randrange(8), lines]) + chance.randbytes(63 * lines) + bytes([rings]) + chance.randbytes(63 * rings) + bytes([blocks])
            for _ in range(blocks):
                rows = chance.choice([0, 1, 2, 64, 65, 255])
                tray += bytes([rows]) + chance.randbytes(rows)
            heads = [row.split()[0] for row in self.check(tray).split("\n") if row and row[0] != "#"]
            self.assertEqual(heads, ["radius", "lines"] + ["line"] * lines + ["rings"] + ["ring"] * rings + ["blocks"] + ["block"] * blocks)
            self.assertIn("\ncut", self.check(tray[:chance.randrange(len(tray))]))
            self.assertIn("\nmore", self.check(tray + chance.randbytes(chance.randrange(1, 100))))

    def test_the_longest(self):
        chance = random.Random(5)
        section = bytes([255]) + chance.randbytes(255 * 63)
        tray = bytes([5]) + section + section + bytes([255]) + b"".join(bytes([255]) + chance.randbytes(255) for _ in range(255))
        self.assertEqual(len(tray), 97414)
        self.assertIn("nothing is left over", self.check(tray))
        self.assertIn("Bytes left over: 1.", self.check(tray + b"\0"))
        self.assertIn("in the rows of block 254, after 254 of 255 bytes", self.check(tray[:-1]))


class Refused(unittest.TestCase):
    def test_faults_are_named_with_their_line(self):
        most = "\n".join(["line dark"] * 255)
        for description, where, why in [
                ("", 1, "the radius comes first"),
                ("# only this\n\n", 3, "the radius comes first"),
                ("line zero\nradius 5", 1, "the radius comes first"),
                ("radius 5\nradius 5", 2, "one radius"),
                ("radius", 1, "the radius is missing"),
                ("radius 256", 1, "0 to 255, not 256"),
                ("radius -1", 1, "0 to 255, not -1"),
                ("radius 5 6", 1, "6 is one word too many"),
                ("radius 5\nfoo 1", 2, "not foo"),
                ("radius 5\ns", 2, "not s"),
                ("radius 5\nring zero\nline zero", 3, "the order is lines, rings, blocks"),
                ("radius 5\nblocks 0\nrings 0", 3, "the order is lines, rings, blocks"),
                ("radius 5\nline", 2, "text, zero, dark or hex is missing"),
                ("radius 5\n\nline bright", 3, "not bright"),
                ("radius 5\nline text HELLO number 1", 2, "in quotes, not as HELLO"),
                ('radius 5\nline text "HELLO number 1', 2, "a quote is not closed"),
                ('radius 5\nline text "A"" number 1', 2, "a quote is not closed"),
                ('radius 5\nline text "Hello" number 1', 2, "e is no character of a line"),
                ('radius 5\nline text "A`" number 1', 2, "` is no character of a line"),
                ('radius 5\nline text "A\tB" number 1', 2, "is no character of a line"),
                ('radius 5\nline text "' + "A" * 51 + '" number 1', 2, "up to 50 characters, not 51"),
                ('radius 5\nline text "A"', 2, "the number is missing"),
                ('radius 5\nline text "A" 65', 2, "after the text stands its number"),
                ('radius 5\nline text "A" number 4096', 2, "0 to 4095, not 4096"),
                ("radius 5\nline hex " + "00" * 62, 2, "63 bytes, not 62"),
                ("radius 5\nline hex " + "00" * 64, 2, "63 bytes, not 64"),
                ("radius 5\nline hex " + "0" * 125, 2, "an odd number of hexadecimal digits: 125"),
                ("radius 5\nline zero wrong", 2, "what is wrong is missing"),
                ("radius 5\nline zero wrong 60", 2, "PLACE:VALUE, not 60"),
                ("radius 5\nline zero wrong 63:1", 2, "0 to 62, not 63"),
                ("radius 5\nline zero wrong 1:0", 2, "1 to 255, not 0"),
                ("radius 5\nline zero wrong 1:256", 2, "1 to 255, not 256"),
                ("radius 5\nring zero turned 63", 2, "0 to 62, not 63"),
                ("radius 5\nring zero reversed", 2, "the start is missing"),
                ("radius 5\nring zero upside", 2, "not upside"),
                ("radius 5\nblock 256", 2, "0 to 255, not 256"),
                ("radius 5\nblock 1*256", 2, "1 to 255, not 256"),
                ("radius 5\nblock 1*255 1", 2, "up to 255 rows, not 256"),
                ("radius 5\nblock data", 2, "1 to 63 data rows, not 0"),
                ("radius 5\nblock data 1*64", 2, "1 to 63 data rows, not 64"),
                ("radius 5\nblock data 128", 2, "0 to 127, not 128"),
                ("radius 5\nblock 1 2 wrong 2:1", 2, "0 to 1, not 2"),
                ("radius 5\nblock wrong 0:1", 2, "a block of 0 rows"),
                ("radius 5\nblock 1 2 wrong 0:1 3", 2, "3 is one word too many"),
                ("radius 5\nlines 2\nline zero\nrings 0", 4, "1 of 2 lines"),
                ("radius 5\nblocks 2\nblock 1\nmore 00", 4, "1 of 2 blocks"),
                ("radius 5\nlines 2\nline zero", 3, "ends in cut"),
                ("radius 5\nlines 1\nline zero\nline zero", 4, "one line too many"),
                ("radius 5\nlines 1\nlines 1", 3, "a count stands once"),
                ("radius 5\nline zero\nlines 1", 3, "a count stands once"),
                ("radius 5\nlines 256", 2, "0 to 255, not 256"),
                (f"radius 5\n{most}\nline dark", 257, "one line too many"),
                ("radius 5\ncut 0", 2, "an odd number of hexadecimal digits: 1"),
                ("radius 5\ncut 0g", 2, "0g is one word too many"),
                ("radius 5\ncut\nline zero", 3, "line stands after cut"),
                ("cut\nradius 5", 2, "radius stands after cut"),
                ("radius 5\nmore 00\ncut", 3, "cut stands after more")]:
            with self.subTest(description[-60:]), self.assertRaises(Fault) as refused:
                make(description)
            self.assertTrue(str(refused.exception).startswith(f"line {where} of the description: "), (description[-60:], refused.exception))
            self.assertIn(why, str(refused.exception))


class CommandLine(unittest.TestCase):
    def run_tool(self, *arguments, stdin=b""):
        done = subprocess.run([sys.executable, TOOL, *arguments], input=stdin, capture_output=True)
        return done.returncode, done.stdout, done.stderr.decode()

    def test_make_and_show(self):
        with tempfile.TemporaryDirectory() as folder:
            tray = os.path.join(folder, "a.tray")
            self.assertEqual(self.run_tool("make", os.path.join(SAMPLES, "paper.txt"), tray), (0, b"", ""))
            with open(tray, "rb") as file:
                self.assertEqual(file.read(), PAPER)
            shown = self.run_tool("show", tray)
            self.assertEqual(shown, (0, show(PAPER).encode(), ""))
            self.assertEqual(self.run_tool("make", "-", "-", stdin=shown[1]), (0, PAPER, ""))
            self.assertEqual(self.run_tool("show", "-", stdin=PAPER), shown)

    def test_a_refused_description_leaves_no_file(self):
        with tempfile.TemporaryDirectory() as folder:
            tray = os.path.join(folder, "a.tray")
            self.assertEqual(self.run_tool("make", "-", tray, stdin=b"radius 5\nline \xff"),
                             (1, b"", "tray.py: line 2 of the description: a line or ring is text, zero, dark or hex, not \ufffd\n"))
            self.assertFalse(os.path.exists(tray))
            code, _, message = self.run_tool("show", tray)
            self.assertEqual((code, message[:9], "a.tray" in message), (1, "tray.py: ", True))

    def test_help_and_usage(self):
        code, text, _ = self.run_tool("--help")
        self.assertEqual(code, 0)
        for word in (b"make DESCRIPTION TRAY", b"show TRAY", b"radius 5", b"wrong 60:5", b"turned 7", b"reversed 3", b"cut", b"more"):
            self.assertIn(word, text)
        for arguments in ((), ("make",), ("show",), ("make", "a"), ("show", "a", "b"), ("eat", "a")):
            self.assertEqual(self.run_tool(*arguments)[0], 2)


class Samples(unittest.TestCase):
    def test_each_is_made_from_its_description(self):
        names = sorted(name for name in os.listdir(SAMPLES) if name.endswith(".tray"))
        self.assertEqual(names, ["full.tray", "hostile.tray", "notes.tray", "old-harm.tray", "paper.tray"])
        for name in names:
            with open(os.path.join(SAMPLES, name), "rb") as tray, open(os.path.join(SAMPLES, name[:-5] + ".txt"), encoding="utf-8") as description:
                self.assertEqual(make(description.read()), tray.read(), name)

    def test_that_of_a_ring_is_made_from_its_description(self):
        ring = os.path.join(SAMPLES, "rings", "ring")
        with open(f"{ring}.tray", "rb") as tray, open(f"{ring}.txt", encoding="utf-8") as description:
            self.assertEqual(make(description.read()), tray.read())

    def test_full_has_blocks_of_every_size(self):
        with open(os.path.join(SAMPLES, "full.tray"), "rb") as file:
            statements = [row.split() for row in show(file.read()).split("\n")]
        self.assertLessEqual({0, 1, 2, 64, 65, 255}, {len(words) - 1 for words in statements if words[:1] == ["block"]})

    def test_paper(self):
        with open(os.path.join(SAMPLES, "paper.tray"), "rb") as file:
            self.assertEqual(file.read(), PAPER)


if __name__ == "__main__":
    words(__doc__)
    unittest.main()
