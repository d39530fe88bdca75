"""Tests of `film read` and `film panel`: every row, as text and as JSON, beside what the package gives for the same item, and every refusal."""

import random
import re
import unittest

from commands import SAMPLES, WORD, CommandCase, block, block_object, blocks_file, film_command, line, line_object, ring, ring_object, text_row, tray_file
from words import film

from film_command import words


class Rows(CommandCase):
    """Each row is what the package gives for the same item."""

    def check(self, dues, *given, input=b""):
        """The rows of the command, as JSON and as text, are these; a refusal's words may go on after those that are due."""
        refusals = sum(due["answer"] > 0 for due in dues)
        as_json, as_text = film_command(*given, "--json", input=input), film_command(*given, input=input)
        for ended, rows, dues in ((as_json, as_json.objects, dues), (as_text, as_text.rows, list(map(text_row, dues)))):
            self.assertEqual(ended.status, 1 if refusals else 0)
            self.assertEqual(ended.said, f"film: {len(dues)} items, {refusals} refused\n" if refusals else "")
            self.assertEqual(len(rows), len(dues))
            self.assertEqual([self.cut(row, due) for row, due in zip(rows, dues)], dues)

    @staticmethod
    def cut(row, due):
        """A row with the words of its refusal cut to those that are due, where they begin with them."""
        if isinstance(row, str):
            return due if "refused (" in due and row.startswith(f"{due}: ") else row
        return {**row, "refused": due["refused"]} if row.get("refused", "").startswith(f"{due.get('refused')}: ") else row

    def test_lines(self):
        """600 lines, so that there are parts of 255, 255 and 90, at each radius."""
        chance = random.Random(3001)
        lines = [line(chance) for _ in range(600)]
        for radius in range(6):
            self.check([line_object(i, word, radius) for i, word in enumerate(lines)], "read", "--as", "lines", "--radius", radius, input=b"".join(lines))
        self.check([line_object(i, word, 5) for i, word in enumerate(lines)], "read", "--as", "lines", input=b"".join(lines))

    def test_every_kind_and_every_letter(self):
        """A line of each kind, and each letter at a line's begin and end, those that JSON and % make something of too."""
        lines = [film.encode_line(bytes([kind]) + bytes([kind] * 49), kind) for kind in range(64)] + [film.encode_line(bytes(50), 0)]
        self.check([line_object(i, word, 5) for i, word in enumerate(lines)], "read", "--as", "lines", input=b"".join(lines))
        self.check([line_object(i, word, 5, panel=True) for i, word in enumerate(lines)], "panel", "--as", "lines", input=b"".join(lines))
        plain = [film.encode_line(film.characters_of(text), 9) for text in ('"', "\\", "\\\"", "%D%S%%", "  A  ", "&<>\"'\\", "_" * 49)]
        self.check([line_object(i, word, 5) for i, word in enumerate(plain)], "read", "--as", "lines", input=b"".join(plain))
        self.check([line_object(i, word, 5, panel=True) for i, word in enumerate(plain)], "panel", "--as", "lines", input=b"".join(plain))

    def test_the_wanted_number(self):
        """One number for every line, or one after the other, 0 after 4095; a line that is refused otherwise is refused for that."""
        chance = random.Random(3002)
        lines = [film.encode_line(film.characters_of(f"LINE {i}"), (4000 + i) % 4096) for i in range(300)]
        for i in (0, 7, 254, 255, 256, 299):
            lines[i] = film.encode_line(bytes(50), chance.randrange(2000))
        lines[9], lines[260] = bytes([64] * WORD), bytes(range(WORD))
        for given, number, step in (("4000+", 4000, 1), ("4001+", 4001, 1), ("4000", 4000, 0), ("0+", 0, 1), ("0", 0, 0)):
            dues = [line_object(i, word, 5, (number + step * i) % 4096) for i, word in enumerate(lines)]
            self.check(dues, "read", "--as", "lines", "--wanted", given, input=b"".join(lines))

    def test_the_wanted_number_is_told(self):
        word = film.encode_line(bytes(50), 65)
        ended = film_command("read", "--as", "lines", "--wanted", "66", input=word)
        self.assertEqual(ended.rows, [f"line 0: refused (7): {words.REFUSED[7]}: 65, and 66 is wanted"])

    def test_rings(self):
        chance = random.Random(3003)
        rings = [ring(chance) for _ in range(300)]
        for radius in range(6):
            self.check([ring_object(i, word, radius) for i, word in enumerate(rings)], "read", "--as", "rings", "--ring-radius", radius, input=b"".join(rings))
        self.check([ring_object(i, word, 1) for i, word in enumerate(rings)], "read", "--as", "rings", input=b"".join(rings))

    def test_blocks(self):
        chance = random.Random(3004)
        blocks = [block(chance) for _ in range(400)]
        self.check([block_object(i, rows) for i, rows in enumerate(blocks)], "read", "--as", "blocks", input=blocks_file(blocks))

    def test_panel_text(self):
        """Panel text of lines and rings, and blocks as they are; 14 and 15 are met too."""
        chance = random.Random(3005)
        lines, rings, blocks = [line(chance) for _ in range(600)], [ring(chance) for _ in range(100)], [block(chance) for _ in range(20)]
        dues = [line_object(i, word, 5, panel=True) for i, word in enumerate(lines)]
        self.assertTrue({0, 14, 15} < {due["answer"] for due in dues})
        self.check(dues, "panel", "--as", "lines", input=b"".join(lines))
        for radius in (1, 4):
            dues = [ring_object(i, word, radius, panel=True) for i, word in enumerate(rings)]
            self.check(dues, "panel", "--as", "rings", "--ring-radius", radius, input=b"".join(rings))
        self.check([block_object(i, rows) for i, rows in enumerate(blocks)], "panel", "--as", "blocks", input=blocks_file(blocks))

    def test_a_tray(self):
        """Each section is counted from 0. The tray's own radius is that of lines and of rings, unless others are given."""
        chance = random.Random(3006)
        lines, rings, blocks = [line(chance) for _ in range(255)], [ring(chance) for _ in range(40)], [block(chance) for _ in range(255)]
        for own in (2, 6, 255):
            for given, of_lines, of_rings in (([], own, own), (["--radius", 1], 1, own), (["--ring-radius", 4], own, 4),
                                              (["--radius", 5, "--ring-radius", 0], 5, 0)):
                dues = [*(line_object(i, word, of_lines) for i, word in enumerate(lines)), *(ring_object(i, word, of_rings) for i, word in enumerate(rings)),
                        *(block_object(i, rows) for i, rows in enumerate(blocks))]
                self.check(dues, "read", *given, input=tray_file(own, lines, rings, blocks))
        wanted = [line_object(i, word, 5, i) for i, word in enumerate(lines)]
        self.check(wanted, "read", "--wanted", "0+", input=tray_file(5, lines, [], []))

    def test_an_empty_tray(self):
        self.check([], "read", input=tray_file(5, [], [], []))
        self.check([], "panel", input=tray_file(5, [], [], []))

    def test_every_refusal_in_words(self):
        """Each refusal of the table is met, and says what is known of it."""
        read = film.encode_line(film.characters_of("A"), 1)
        template, unknown = film.encode_line(film.characters_of("A", 1), 1), film.encode_line(film.characters_of("A", 2), 1)
        over = read[:40] + b"\xc8\xc9" + read[42:]
        asked = {
            2: ("read", "line", over, f"{words.REFUSED[2]}: address 40 holds 200"),
            3: ("read", "line", read, f"{words.REFUSED[3]}: it is 9"),
            6: ("read", "line", bytes(range(WORD)), words.REFUSED[6]),
            7: ("read", "line", read, f"{words.REFUSED[7]}: 1, and 2 is wanted"),
            8: ("read", "block", b"\1", f"{words.REFUSED[8]}: this one has 1"),
            9: ("read", "block", b"\0\0", words.REFUSED[9]),
            10: ("read", "ring", bytes(WORD), "the ring fits at 126 starts, and none is picked; film explain shows them"),
            14: ("panel", "line", template, words.REFUSED[14]),
            15: ("panel", "line", unknown, words.REFUSED[15]),
        }
        self.assertEqual(set(asked), set(words.REFUSED))
        for number, (command, item, word, due) in asked.items():
            tray = tray_file(9 if number == 3 else 3, *([word] if item == kind else [] for kind in ("line", "ring", "block")))
            ended = film_command(command, *(["--wanted", 2] if number == 7 else []), input=tray)
            self.assertEqual(ended, (1, f"{item} 0: refused ({number}): {due}\n".encode(), "film: 1 item, 1 refused\n"))
        self.assertEqual(film_command("read", input=tray_file(3, [], [over], [])).rows, [f"ring 0: refused (2): {words.REFUSED[2]}: place 40 holds 200"])

    def test_what_the_handbook_shows(self):
        """The rows of a sample, as a reader sees them."""
        rows = film_command("read", SAMPLES / "notes.tray").rows
        self.assertEqual(rows[2], "line 2: number 3, distance 1: ITEM 4712: PRINT, 18 X 24, TORN AT THE LEFT")
        self.assertEqual(rows[3], "line 3: refused (6): no line lies within the radius")
        self.assertEqual(rows[4], "line 4: number 5, distance 0, template: DEAR @, YOUR ITEM # IS READY")
        self.assertEqual(rows[7], "ring 0: start 7, number 8, distance 0: ITEM 4714: PLATE, CRACKED")

    def test_no_panel_text_does_harm(self):
        """No row of a panel's text has a byte that could end an attribute or begin a tag."""
        ended = film_command("panel", SAMPLES / "hostile.tray")
        self.assertEqual(set(re.findall("[<>\"']", ended.out.decode())), set())
        self.assertGreater(len(ended.rows), 60)


if __name__ == "__main__":
    unittest.main()
