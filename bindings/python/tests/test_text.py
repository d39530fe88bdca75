"""Tests of text: every character at every place both ways, every other character named with its place, lengths, kinds, and what is no text."""

import itertools
import string
import unittest

from words import TestCase, film

# The alphabet, written out: the character v is the letter with the index v.
ALPHABET = " !\"#$%&'()*+,-./0123456789:;<=>?@ABCDEFGHIJKLMNOPQRSTUVWXYZ[\\]^_"

# Where a character stands that is no character of film: at both ends of a text, and between.
PLACES = (0, 1, 24, 47, 48)
CODE_POINTS = (*range(0x250), 0x2028, 0xD800, 0xFB06, 0xFF21, 0x1F600, 0x10FFFF)


class Tests(TestCase):
    def test_constants(self):
        self.assertEqual((film.PLAIN, film.TEMPLATE, film.LETTERS, len(ALPHABET)), (0, 1, 49, 64))

    def test_every_character_at_every_place(self):
        """There, back, by a line, and as the library itself shows it on a panel."""
        for place, (v, letter) in itertools.product(range(film.LETTERS), enumerate(ALPHABET)):
            text = "-" * place + letter
            characters = film.characters_of(text)
            self.assertEqual(characters, bytes([film.PLAIN] + [13] * place + [v] + [0] * (film.LETTERS - 1 - place)))
            self.assertEqual(film.text_of(characters), (film.PLAIN, text.rstrip(" ")))
            self.assertEqual(film.text_of(film.encode_line(characters, 4095)), (film.PLAIN, text.rstrip(" ")))
            if letter not in "&<>\"'":
                self.assertEqual(film.panel_text(characters), text.ljust(film.LETTERS))

    def test_other_characters(self):
        """Every code point below 0x250 and a few above: it fits, or is named with its place, and a small letter with its capital."""
        for point, place in itertools.product(CODE_POINTS, PLACES):
            text = "A" * place + chr(point) + "B" * (film.LETTERS - 1 - place)
            if chr(point) in ALPHABET:
                self.assertEqual(film.text_of(film.characters_of(text)).text, text.rstrip(" "))
                continue
            with self.assertRaises(film.NoCharacter) as caught:
                film.characters_of(text)
            said, raised = str(caught.exception), caught.exception
            self.assertIsInstance(raised, ValueError)
            self.assertEqual((raised.place, raised.character), (place, chr(point)))
            self.assertTrue(said.startswith(f"{chr(point)!r} at place {place} is no character of film: these are the ASCII characters from space to _"))
            self.assertEqual("; " in said, chr(point) in string.ascii_lowercase)
            if chr(point) in string.ascii_lowercase:
                self.assertTrue(said.endswith(f"; {chr(point).upper()!r} is one"))

    def test_message(self):
        with self.assertRaises(film.NoCharacter) as caught:
            film.characters_of("CAFé, é")
        said = "'é' at place 3 is no character of film: these are the ASCII characters from space to _, capitals, digits and signs"
        self.assertEqual(str(caught.exception), said)

    def test_lengths(self):
        for length in range(61):
            text = ALPHABET[1:][:length]
            if length <= film.LETTERS:
                self.assertEqual(film.characters_of(text), bytes([0, *range(1, length + 1)]).ljust(50, b"\0"))
                self.assertEqual(film.text_of(film.characters_of(text)).text, text)
            else:
                with self.assertRaises(film.TooLong) as caught:
                    film.characters_of(text)
                self.assertIsInstance(caught.exception, ValueError)
                self.assertEqual(caught.exception.length, length)
                self.assertEqual(str(caught.exception), f"a text of {length} characters came, and a line has room for 49")
        # a character among the first 49 that is none comes before the length, and one behind them does not
        self.assertRaises(film.NoCharacter, film.characters_of, "A" * 48 + "a" + "A")
        self.assertRaises(film.TooLong, film.characters_of, "A" * 49 + "a")

    def test_blanks(self):
        """Blanks at the end are left out, and no others."""
        for front, back in itertools.product(range(4), range(44)):
            for text in (" " * front + "A B" + " " * back, " " * (front + back)):
                self.assertEqual(film.text_of(film.characters_of(text)), film.Note(film.PLAIN, text.rstrip(" ")))

    def test_kinds(self):
        for kind in range(64):
            characters = film.characters_of("A", kind)
            self.assertEqual((characters[0], film.text_of(characters)), (kind, (kind, "A")))
        for kind in (64, 255, 256, 256 + film.PLAIN, 10**6):
            self.refused(2, film.characters_of, "A", kind)
            self.refused(2, film.characters_of, "a" * 50, kind)
        self.assertRaises(ValueError, film.characters_of, "A", -1)

    def test_reading_refused(self):
        for length in range(130):
            if length not in (50, 63):
                self.refused(1, film.text_of, bytes([64] * length))
        for length, over in itertools.product((50, 63), (64, 128, 255)):
            for at in range(length):
                self.refused(2, film.text_of, bytes(over * (a == at) for a in range(length)))

    def test_types(self):
        for given in (b"A", bytearray(b"A"), ["A"], 65, None):
            self.assertRaises(TypeError, film.characters_of, given)
        for given in (50, None):
            self.assertRaises(TypeError, film.text_of, given)
        for call, others in ((film.text_of, ()), (film.encode_line, (65,)), (film.panel_text, ())):
            with self.assertRaisesRegex(TypeError, "characters_of"):
                call("A" * 50, *others)
        for kind in (bytes, bytearray, memoryview, list, tuple, iter):
            self.assertEqual(film.text_of(kind(film.characters_of("AN ITEM"))), (0, "AN ITEM"))


if __name__ == "__main__":
    unittest.main()
