"""Tests of what a refusal tells: its words, the length, address or number that came, and that every exception can be copied and pickled."""

import copy
import itertools
import pickle
import unittest

from words import film

LINE = film.encode_line(bytes(50), 65)
TEXT = LINE[:50]
SHEET = film.encode_sheet(bytes(film.TEXTS), range(film.NUMBERS))


def over(given, at, value):
    """Bytes with this value at a place."""
    changed = bytearray(given)
    changed[at] = value
    return bytes(changed)


class Tests(unittest.TestCase):
    def tells(self, number, detail, call, *given, **named):
        with self.assertRaises(film.Refused) as caught:
            call(*given, **named)
        refused = caught.exception
        self.assertEqual((refused.number, refused.detail), (number, detail))
        self.assertEqual(str(refused), f"refused ({number}): {film.REFUSALS[number]}" + (f": {detail}" if detail else ""))

    def test_lengths(self):
        for length in (0, 1, 62, 64, 16066):
            came = f"{length} bytes came" if length != 1 else "1 byte came"
            given = bytes(length)
            for call, others in (
                (film.read_line, (5,)), (film.read_line, (5, 65)), (film.read_line_paper, (9,)), (film.read_line_paper, (5, 9999)), (film.read_ring, (1,)),
                (film.list_ring, (1,)), (film.panel_ring, (1,)), (film.encode_line, (0,)), (film.panel_text, ()), (film.text_of, ()), (film.read_sheet, ()),
                (film.scan_clarity, (128,)), (film.OpenTray().add, ()), (film.read_blotted, (b"",)), (film.better_scan, (b"", 5)),
            ):
                self.tells(1, came, call, given, *others)
            self.tells(1, came.replace(" came", " of a map came"), film.read_blotted, LINE, given)
            self.tells(1, came.replace(" came", " of texts came"), film.encode_sheet, given, [0] * 3)
            self.tells(1, came.replace("byte", "number"), film.encode_sheet, bytes(film.TEXTS), [0] * length)
            if length:
                self.tells(1, came, film.read_spool, given, 5)
                self.tells(1, came, film.spool_clarity, given, 5)

    def test_rows(self):
        for rows in (0, 1, 65):
            came = f"{rows} rows came" if rows != 1 else "1 row came"
            self.tells(8, came, film.read_block, bytes(rows))
            self.tells(8, came, film.read_smudge, bytes(rows))
            self.tells(8, came, film.encode_smudge, bytes(rows))
        self.tells(8, "64 rows came", film.encode_block, bytes(64))

    def test_values_at_addresses(self):
        for at, value in itertools.product((0, 4, 49), (64, 200, 255)):
            came = f"address {at} holds {value}"
            for given, call, others in (
                (LINE, film.read_line, (5,)), (LINE, film.read_line, (9, 9999)), (LINE, film.read_line_paper, (5,)), (LINE, film.read_line_paper, (5, 65)),
                (LINE, film.read_ring, (1,)), (LINE, film.list_ring, (1,)), (LINE, film.panel_ring, (1,)), (TEXT, film.encode_line, (0,)),
                (TEXT, film.panel_text, ()), (TEXT, film.text_of, ()), (LINE, film.text_of, ()), (LINE, film.OpenTray().add, ()),
                (LINE, film.read_blotted, (bytes([2] * 63),)), (LINE, film.better_scan, (b"", 5)),
            ):
                # the first of them is told
                self.tells(2, came, call, over(over(given, 49, 70), at, value) if at < 49 else over(given, at, value), *others)
        for at, value in itertools.product((0, 17, 62), (2, 255)):
            self.tells(2, f"address {at} of the map holds {value}", film.read_blotted, LINE, over(bytes(63), at, value))

    def test_values_of_sheets(self):
        for i, a in itertools.product((0, 7, 51), (0, 30, 49)):
            self.tells(2, f"address {a} of line {i} holds 64", film.read_sheet, over(SHEET, 63 * i + a, 64))
            self.tells(2, f"address {a} of text {i} holds 255", film.encode_sheet, over(bytes(film.TEXTS), 50 * i + a, 255), [9999] * film.NUMBERS)
            numbers = [0] * film.NUMBERS
            for number in (4096, 65535, 65536, 10**6):
                numbers[i] = number
                self.tells(4, f"place {i} of the numbers holds {number}", film.encode_sheet, bytes(film.TEXTS), numbers)

    def test_values_alone(self):
        for value in (64, 255, 256, 256 + 5, 10**6):
            for call in (film.sum, film.product, film.quotient):
                self.tells(2, f"operand {value} came", call, value, 0)
                self.tells(2, f"operand {value} came", call, 63, value)
            self.tells(2, f"character {value} came", film.Register().step, value)
            self.tells(2, f"character {value} came", film.OpenTray([LINE]).replace, 0, 62, value)
            self.tells(2, f"kind {value} came", film.characters_of, "A", value)
        for at, value in itertools.product((0, 10), (64, 255)):
            register = film.Register(over(bytes(11), at, value), 52)
            self.tells(2, f"place {at} of the register holds {value}", register.checks)
            register.count = 51
            self.tells(2, f"place {at} of the register holds {value}", register.step, 63)
        for at, value in itertools.product((0, 6), (128, 255)):
            self.tells(2, f"row {at} holds {value}", film.encode_block, over(bytes(7), at, value))
            self.tells(2, f"row {at} holds {value}", film.encode_smudge, over(bytes(7), at, value))

    def test_numbers(self):
        """A number is told as it was handed over, one that is too large for its C type too."""
        for radius in (6, 255, 256, 256 + 5, 10**6):
            came = f"radius {radius} came"
            for call in (film.read_line, film.read_line_paper, film.read_ring, film.list_ring, film.panel_ring):
                self.tells(3, came, call, LINE, radius)
            self.tells(3, came, film.read_line, LINE, radius, 9999)
            self.tells(3, came, film.better_scan, LINE, LINE, radius)
        for number in (4096, 65535, 65536, 65536 + 65, 10**6):
            self.tells(4, f"number {number} came", film.encode_line, TEXT, number)
            self.tells(4, f"number {number} came", film.read_line, LINE, 5, number)
            self.tells(4, f"number {number} came", film.read_line_paper, LINE, 5, number)
        for call, wanted in itertools.product((film.read_line, film.read_line_paper), (0, 66, 4095)):
            self.tells(7, f"number {wanted} is wanted", call, LINE, 5, wanted)

    def test_outputs(self):
        for room in (0, 1, 62, 125, 293):
            came = f"an output of {room} bytes came" if room != 1 else "an output of 1 byte came"
            for wanted, call, given in (
                (63, film.encode_line, (TEXT, 65)), (63, film.read_line, (LINE, 5)), (63, film.read_line_paper, (LINE, 5, 65)), (63, film.read_ring, (LINE, 1)),
                (63, film.read_blotted, (LINE, bytes(63))), (126, film.list_ring, (LINE, 1)), ("294 or more", film.panel_text, (TEXT,)),
                ("294 or more", film.panel_ring, (LINE, 1)), (3969, film.read_sheet, (SHEET,)), (3969, film.encode_sheet, (bytes(film.TEXTS), range(52))),
                (189, film.read_spool, (LINE * 3, 5)), (3, film.encode_block, ([1, 2],)), (2, film.read_block, ([1, 2],)), (8, film.encode_smudge, ([0] * 7,)),
                (8, film.read_smudge, ([0] * 8,)),
            ):
                self.tells(5, f"{came}, {wanted} are wanted", call, *given, out=bytearray(room))

    def test_registers_and_trays(self):
        for count in (0, 51):
            self.tells(12, f"a count of {count} came", film.Register(count=count).checks)
        for count in (53, 255, 256 + 52):
            self.tells(11, f"a count of {count} came", film.Register(count=count).checks)
        for count in (52, 256):
            self.tells(11, f"a count of {count} came", film.Register(count=count).step, 0)
        for i in (1, 255, 256, 10**6):
            self.tells(18, f"line {i} came", film.OpenTray([LINE]).replace, i, 0, 0)
        for address in (63, 255, 256, 10**6):
            self.tells(19, f"address {address} came", film.OpenTray([LINE]).replace, 0, address, 0)

    def test_nothing_to_tell(self):
        self.tells(6, "", film.read_line, bytes([1] * 63), 0)
        self.tells(6, "", film.read_ring, bytes([1] * 63), 0)
        self.tells(9, "", film.read_block, [3, 3])
        self.tells(10, "", film.read_ring, LINE, 4)
        self.tells(13, "", film.quotient, 1, 0)
        self.tells(14, "", film.panel_text, [1] * 50)
        self.tells(15, "", film.panel_text, [2] * 50)
        self.tells(16, "", film.read_sheet, bytes([7] * 6 * 63) + SHEET[6 * 63 :])
        self.tells(17, "", film.OpenTray([LINE] * 64).add, LINE)
        self.tells(18, "", film.OpenTray().drop_last)
        self.tells(20, "", film.scan_clarity, bytes(film.CELLS), 0)

    def test_spools(self):
        """The Refused of a line tells what read_line tells of that line alone."""
        lines = [LINE, over(LINE, 4, 200), over(LINE, 20, 1), over(LINE, 62, 64)]
        for radius, told in (
            (0, [None, "address 4 holds 200", "", "address 62 holds 64"]),
            (256, ["radius 256 came", "address 4 holds 200", "radius 256 came", "address 62 holds 64"]),
        ):
            read = film.read_spool(b"".join(lines), radius)
            self.assertEqual([one.detail if isinstance(one, film.Refused) else None for one in read], told)
            for line, one in zip(lines, read):
                if isinstance(one, film.Refused):
                    self.tells(one.number, one.detail, film.read_line, line, radius)

    def test_kinds_of_bytes(self):
        """What came is told of whatever bytes() takes, of what is gone after one look too."""
        for kind in (bytes, bytearray, memoryview, list, iter):
            self.tells(1, "62 bytes came", film.read_line, kind(LINE[1:]), 5)
            self.tells(2, "address 4 holds 200", film.read_line, kind(over(LINE, 4, 200)), 5)
            self.assertEqual(film.read_spool(kind(over(LINE, 4, 200)), 5)[0].detail, "address 4 holds 200")
        self.tells(4, "place 51 of the numbers holds 65536", film.encode_sheet, bytes(film.TEXTS), iter([0] * 51 + [65536]))

    def test_made_by_hand(self):
        for number in range(1, 256):
            self.assertEqual((film.Refused(number).number, film.Refused(number).detail), (number, ""))
        self.assertEqual(str(film.Refused(6)), "refused (6): no line within the radius; for ring reading, an empty list; with blots, no such line")
        self.assertEqual(str(film.Refused(3, "radius 6 came")), "refused (3): radius over 5: radius 6 came")
        self.assertEqual(str(film.Refused(255)), "refused (255): a reason that this binding does not know")
        self.assertEqual(repr(film.Refused(3, "radius 6 came")), "Refused(3, 'radius 6 came')")

    def test_copies(self):
        """Copied and unpickled, an exception is as it was."""
        for raised, fields in (
            (film.Refused(6), ("number", "detail")),
            (film.Refused(number=2, detail="address 4 holds 200"), ("number", "detail")),
            (film.Refused(255), ("number", "detail")),
            (film.ImproperSheet(SHEET, 2), ("number", "detail", "sheet", "rounds")),
            (film.ImproperSheet(sheet=b"\7", rounds=8), ("number", "detail", "sheet", "rounds")),
            (film.NoCharacter(3, "é"), ("place", "character")),
            (film.NoCharacter(place=0, character="a"), ("place", "character")),
            (film.TooLong(50), ("length",)),
            (film.TooLong(length=51), ("length",)),
        ):
            due = [type(raised), str(raised), repr(raised), *(getattr(raised, field) for field in fields)]
            pickled = [pickle.loads(pickle.dumps(raised, protocol)) for protocol in range(pickle.HIGHEST_PROTOCOL + 1)]
            for other in (*pickled, copy.copy(raised), copy.deepcopy(raised)):
                self.assertEqual([type(other), str(other), repr(other), *(getattr(other, field) for field in fields)], due)


if __name__ == "__main__":
    unittest.main()
