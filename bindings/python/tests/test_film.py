"""Tests of the field, lines, spools, two scans, rings, panel text, blocks and the register: what each function gives, every refusal by its number, and outputs
that stay as they were."""

import doctest
import itertools
import os
import pathlib
import subprocess
import tempfile
import unittest

from words import TestCase, film

from film import _loading

Z = film.encode_line(bytes(50), 0)


class Tests(TestCase):
    def test_field(self):
        self.assertEqual((film.sum(5, 3), film.product(32, 2), film.product(33, 2)), (6, 3, 1))
        self.assertEqual((film.quotient(1, 2), film.quotient(0, 5)), (33, 0))
        for dividend in (0, 5, 63):
            self.refused(13, film.quotient, dividend, 0)
        self.refused(2, film.quotient, 70, 0)
        for call in (film.sum, film.product, film.quotient):
            for bad in (64, 255, 256, 320, 10**6):
                self.refused(2, call, bad, 1)
                self.refused(2, call, 1, bad)
            self.assertRaises(ValueError, call, -1, 0)

    def test_every_product(self):
        """Each product is that of polynomials over bits, reduced by x^6 + x + 1, and a quotient undoes it."""
        for u in range(64):
            multiples = [u]
            while len(multiples) < 6:
                twice = 2 * multiples[-1]
                multiples.append(twice ^ 0b1000011 if twice > 63 else twice)
            for v in range(64):
                due = 0
                for bit, multiple in enumerate(multiples):
                    due ^= (v >> bit & 1) * multiple
                self.assertEqual(film.product(u, v), due)
                if v:
                    self.assertEqual(film.quotient(due, v), u)

    def test_encoding(self):
        text = bytes(a in (5, 6, 14, 15, 23, 24, 32, 33, 41, 42) for a in range(50))
        line = film.encode_line(text, 65)
        self.assertEqual(line, text + bytes([1, 1, 32, 0, 0, 8, 0, 0, 0, 1, 1, 0, 1]))
        self.assertEqual(film.encode_line(list(text), 65), line)
        out = bytearray(63)
        film.encode_line(text, 65, out)
        self.assertEqual(out, line)
        for length in (0, 49, 51, 63):
            self.refused(1, film.encode_line, bytes(length), 9999, room=length)
        for room in (0, 50, 62, 64):
            self.refused(5, film.encode_line, bytes([64] * 50), 9999, room=room)
        for a in range(50):
            self.refused(2, film.encode_line, bytes(64 * (b == a) for b in range(50)), 9999, room=63)
        for number in (4096, 65535, 65536, 65536 + 65):
            self.refused(4, film.encode_line, text, number, room=63)
        self.assertRaises(TypeError, film.encode_line, 50, 0)

    def test_reading(self):
        word = bytearray(film.encode_line(bytes(range(50)), 65))
        line = bytes(word)
        for a in (0, 20, 40, 51, 62):
            word[a] ^= 9
        for wanted in (None, 65):
            self.assertEqual(film.read_line(word, 5, wanted), (line, 65, 5, 0, 62))
        self.refused(6, film.read_line, word, 4, room=63)
        self.refused(7, film.read_line, word, 5, 66, room=63)
        self.refused(4, film.read_line, word, 5, 4096, room=63)
        self.refused(4, film.read_line, word, 5, 65536 + 65, room=63)
        for radius in (6, 255, 256, 261):
            self.refused(3, film.read_line, word, radius, 4096, room=63)
        for length in (0, 1, 62, 64, 1000):
            self.refused(1, film.read_line, bytes(length), 9, 9999, room=length)
            self.refused(5, film.read_line, word, 9, 9999, room=length)
        for a in range(63):
            self.refused(2, film.read_line, Z[:a] + b"\x40" + Z[a + 1 :], 9, 9999, room=63)

    def test_changed_addresses(self):
        self.assertEqual(film.read_line(Z, 5)[2:], (0, film.NOWHERE, film.NOWHERE))
        for a in range(63):
            word = bytearray(Z)
            word[a] ^= 33
            self.assertEqual(film.read_line(word, 5)[2:], (1, a, a))
            for b in range(a):
                both = bytearray(word)
                both[b] ^= b + 1
                self.assertEqual(film.read_line(both, 5)[2:], (2, b, a))

    def spool(self, count):
        """So many lines, each with a number and a text of its own and 0 to 6 wrong characters; a few have a byte that is no character."""
        for i in range(count):
            line = bytearray(film.encode_line(bytes(a * i % 64 for a in range(50)), 16 * i + 5))
            for wrong in range(i % 7):
                line[(9 * wrong + i) % 63] ^= 1 + i % 63
            line[i % 63] += 64 * (i % 20 == 19)
            yield bytes(line)

    def one_by_one(self, lines, radius, out):
        """What read_line gives and raises for each line; the output is written as it writes it."""
        for i, line in enumerate(lines):
            own = out[63 * i : 63 * i + 63]
            try:
                yield film.read_line(line, radius, out=own)
            except film.Refused as refused:
                yield refused.number
            out[63 * i : 63 * i + 63] = own

    def test_spools(self):
        for count, radius in itertools.product((0, 1, 2, 8, 60, film.PLACES), (0, 3, 5, 6, 9, 256)):
            lines = list(self.spool(count))
            out, due_out = (bytearray(i % 251 for i in range(63 * count)) for _ in range(2))
            due = list(self.one_by_one(lines, radius, due_out))
            for given in (None, out):
                read = film.read_spool(b"".join(lines), radius, given)
                self.assertIs(type(read), list)
                self.assertEqual([one.number if isinstance(one, film.Refused) else one for one in read], due)
            self.assertEqual(out, due_out)

    def test_spool_with_one_refused(self):
        for refused, (wrong, number) in itertools.product(range(3), ((1, 6), (64, 2))):
            lines = [film.encode_line(bytes([9] * 50), number) for number in (7, 4095, 0)]
            spool, out = bytearray(b"".join(lines)), bytearray(range(3 * 63))
            spool[63 * refused + 40] ^= wrong
            read = film.read_spool(list(spool), 0, out)
            self.assertEqual((type(read[refused]), read[refused].number), (film.Refused, number))
            for i, line in enumerate(lines):
                if i != refused:
                    self.assertEqual(read[i], (line, (7, 4095, 0)[i], 0, film.NOWHERE, film.NOWHERE))
                self.assertEqual(out[63 * i : 63 * i + 63], bytes(range(63 * i, 63 * i + 63)) if i == refused else line)

    def test_spool_refused(self):
        self.assertEqual((film.SPOOL, film.read_spool(b"", 9), film.read_spool([], 5, bytearray())), (16065, [], []))
        for length in (1, 62, 64, 125, 127, film.SPOOL - 1, film.SPOOL + 1, film.SPOOL + 63):
            self.refused(1, film.read_spool, bytes(length), 5)
            for room in (0, length):
                self.refused(1, film.read_spool, bytes(length), 9, room=room)
            for given in (0, 63):
                self.refused(5, film.read_spool, bytes(given), 9, room=length)
        self.refused(5, film.read_spool, bytes(63), 5, room=0)
        self.refused(5, film.read_spool, bytes(film.SPOOL), 5, room=film.SPOOL - 63)
        self.assertRaises(TypeError, film.read_spool, 63, 5)
        self.assertRaises(ValueError, film.read_spool, Z, -1)

    def test_two_scans(self):
        def scan(wrong):
            return bytes(c ^ 7 * (a % 9 == 2 and a // 9 < wrong) for a, c in enumerate(Z))

        for wrong, more, radius in itertools.product(range(7), range(7), range(6)):
            first, second = scan(wrong), bytearray(scan(more))
            if wrong > radius and more > radius:
                self.refused(6, film.better_scan, first, second, radius)
            else:
                self.assertIs(film.better_scan(first, second, radius), first if wrong <= min(more, radius) else second)
        high = b"\x40" + Z[1:]
        self.refused(1, film.better_scan, Z[1:], high, 9)
        self.refused(2, film.better_scan, high, Z[1:], 9)
        self.refused(3, film.better_scan, Z, high, 256)
        self.refused(1, film.better_scan, b"", b"", 0)
        for length in (0, 62, 64):
            self.assertIs(film.better_scan(bytes(length), Z, 0), Z)
            self.assertIs(film.better_scan(Z, bytes(length), 0), Z)
        numbers = list(Z)
        self.assertIs(film.better_scan(numbers, Z, 5), numbers)
        self.assertRaises(TypeError, film.better_scan, 63, Z, 5)

    def test_rings(self):
        out = bytearray([170] * 126)
        self.assertEqual(film.list_ring(Z, 4, out), [0, 104, 107, 110, 114, 117, 124])
        self.assertEqual(out[7:], bytes([170] * 119))
        self.assertEqual(film.list_ring(bytes([1] * 63), 0), [])
        self.assertEqual(film.list_ring(bytes(63), 3), list(range(126)))
        line = film.encode_line(bytes(range(50)), 4095)
        for start in range(63):
            ring = bytearray(line[63 - start :] + line[: 63 - start])
            ring[start] ^= 1
            self.assertEqual(film.read_ring(ring, 1), (line, start, 4095, 1, 0, 0))
            ring[start] ^= 1
            ring[1] ^= 1
            self.assertEqual(film.read_ring(ring, 1)[3:], (1, (1 - start) % 63, (1 - start) % 63))
            self.assertEqual(film.list_ring(ring, 1), [start])
        self.assertEqual(film.read_ring(line[::-1], 0), (line, 125, 4095, 0, film.NOWHERE, film.NOWHERE))
        self.refused(6, film.read_ring, bytes([1] * 63), 0, room=63)
        self.refused(10, film.read_ring, Z, 4, room=63)
        for call, room in ((film.list_ring, 126), (film.read_ring, 63)):
            for radius in (6, 256):
                self.refused(3, call, Z, radius, room=room)
            for length in (0, 1, 62, 64, 125, 127):
                self.refused(1, call, bytes(length), 9, room=length)
                self.refused(5, call, Z, 9, room=length)
            self.refused(5, call, Z, 9, room=189 - room)
            self.refused(2, call, Z[:62] + b"\xff", 9, room=room)

    def test_panel_text(self):
        names = {"&": "&amp;", "<": "&lt;", ">": "&gt;", '"': "&quot;", "'": "&#39;"}
        for place, v in itertools.product(range(1, 50), range(64)):
            text = [0] + [place * i % 64 for i in range(1, 50)]
            text[place] = v
            due = "".join(names.get(chr(32 + c), chr(32 + c)) for c in text[1:])
            self.assertEqual(film.panel_text(text), due)
        out = bytearray([170] * 300)
        self.assertEqual(film.panel_text(bytes([0] + [2] * 49), out), "&quot;" * 49)
        self.assertEqual(out, b"&quot;" * 49 + bytes([170] * 6))
        for kind in range(1, 256):
            number = 2 if kind > 63 else 14 if kind == 1 else 15
            self.refused(number, film.panel_text, [kind] * 50, room=294)
            self.refused(5, film.panel_text, [kind] * 50, room=293)
            self.refused(1, film.panel_text, [kind] * 49, room=0)
        for kind, place in itertools.product(range(3), range(1, 50)):
            text = bytearray([kind] * 50)
            text[place] = 64
            self.refused(2, film.panel_text, text, room=294)

    def test_panel_ring(self):
        for kind, start in itertools.product(range(3), range(0, 63, 7)):
            text = bytes([kind] + [i * 37 % 64 for i in range(1, 50)])
            line = film.encode_line(text, 4095)
            ring = bytearray(line[63 - start :] + line[: 63 - start])
            ring[start] ^= 5
            for recorded in (ring, ring[::-1]):
                if kind == 0:
                    self.assertEqual(film.panel_ring(recorded, 1), film.panel_text(text))
                else:
                    self.refused(13 + kind, film.panel_ring, recorded, 1, room=294)
                self.refused(6, film.panel_ring, recorded, 0, room=294)
            ring[start] = 64
            for radius in (1, 6, 300):
                self.refused(2, film.panel_ring, ring, radius, room=294)
                self.refused(5, film.panel_ring, ring, radius, room=293)
                self.refused(1, film.panel_ring, ring[1:], radius, room=0)
        self.refused(10, film.panel_ring, Z, 4, room=294)
        self.refused(3, film.panel_ring, Z, 6, room=294)

    def test_blocks(self):
        self.assertEqual(film.encode_block([3]), bytes([3, 252]))
        self.assertEqual(film.read_block([3, 253]), (bytes([3, 252]), 1))
        self.assertEqual(film.read_block([3, 252]), (bytes([3, 252]), 0))
        self.refused(9, film.read_block, [3, 3], room=2)
        self.refused(9, film.read_block, [3, 0], room=2)
        for rows in range(256):
            dark, bright, no_data = bytes(rows), b"\xff" * rows, (bytes(rows) + b"\xff")[1:]
            if 2 <= rows <= 64:
                self.assertEqual(film.read_block(no_data), (no_data, 0))
                self.refused(5, film.read_block, no_data, room=rows + 1)
                self.refused(9, film.read_block, dark, room=rows)
                if rows % 2 == 1:
                    self.assertEqual(film.read_block(bright), (bright, 0))
                else:
                    self.refused(9, film.read_block, bright, room=rows)
            else:
                for given in (dark, bright, no_data):
                    self.refused(8, film.read_block, given, room=rows)
            if 1 <= rows <= 63:
                self.assertEqual(film.encode_block(dark), dark + b"\xff")
                self.refused(5, film.encode_block, bytes([255] * rows), room=rows)
                self.refused(2, film.encode_block, bytes([128] * rows), room=rows + 1)
            else:
                self.refused(8, film.encode_block, bytes(rows), room=rows + 1)

    def test_register(self):
        line = film.encode_line(bytes(range(50)), 4094)
        register = film.Register()
        for c in line[:52]:
            self.refused(12, register.checks)
            register.step(c)
        self.assertEqual((register.checks(), register.checks()), (line[52:], line[52:]))
        held = register.held
        self.refused(11, register.step, 0)
        self.assertEqual((register.held, register.count), (held, 52))
        for count, step, checks in ((0, 2, 12), (51, 2, 12), (52, 11, 2), (53, 11, 11), (255, 11, 11), (256 + 52, 11, 11)):
            odd = film.Register([64] + [0] * 10, count)
            self.refused(step, odd.step, 0)
            self.refused(checks, odd.checks)
            self.assertEqual((odd.held, odd.count), (bytes([64] + [0] * 10), count))
        for c in (64, 255, 256):
            self.refused(2, film.Register().step, c)
        odd = film.Register(range(1, 12), 51)
        odd.step(1)
        self.assertEqual((odd.held, odd.count), (bytes([2, 3, 4, 5, 6, 7, 8, 9, 10, 11, 0]), 52))
        self.assertRaises(ValueError, film.Register, bytes(10))

    def test_unknown_refusal(self):
        for number in range(1, 256):
            self.assertEqual(film.Refused(number).number, number)
        self.assertEqual(str(film.Refused(6)), "refused (6): no line within the radius; for ring reading, an empty list; with blots, no such line")
        self.assertEqual(str(film.Refused(255)), "refused (255): a reason that this binding does not know")

    def test_version(self):
        major, minor, patch = map(int, film.__version__.split("."))
        self.assertEqual(film.version(), 1000000 * major + 1000 * minor + patch)

    def test_other_libraries(self):
        """A library of another major version is not taken, and neither is one that tells none."""
        other = film.version() + 1000000
        with tempfile.TemporaryDirectory() as folder:
            for says, source in (
                (f"is of major version {other // 1000000};", f"unsigned film_version(void) {{ return {other}; }}"),
                ("tells no version;", "int other;"),
            ):
                library = pathlib.Path(folder) / f"{len(says)}.so"
                subprocess.run([os.environ.get("CC", "gcc"), "-shared", "-fPIC", "-x", "c", "-", "-o", library], input=source.encode(), check=True)
                with self.assertRaisesRegex(ImportError, says):
                    _loading.load(library)

    def test_documentation(self):
        self.assertEqual(doctest.testmod(film, extraglobs={"film": film}).failed, 0)


if __name__ == "__main__":
    unittest.main()
