"""Encodes a text, makes a character wrong, records the line on a ring from place 10 on, reads both back and prints their text for a page."""

import film

word = bytearray(film.encode_line(film.characters_of("GLASS NEGATIVE, <HARBOUR>, 1931"), 65))
word[60] ^= 5
read = film.read_line(word, 5)
print(f"line: number {read.number}, distance {read.distance}: {film.panel_text(read.line[:50]).rstrip()}")

ring = word[-10:] + word[:-10]
found = film.read_ring(ring, 1)
print(f"ring: start {found.start}, number {found.number}, distance {found.distance}: {film.panel_text(found.line[:50]).rstrip()}")
