"""Encodes a line, makes a character wrong, records it on a ring from place 10 on, and reads both back."""

import film

word = bytearray(film.encode_line(bytes(50), 65))
word[60] ^= 5
ring = word[-10:] + word[:-10]

read = film.read_line(word, 5)
print(f"line: number {read.number}, distance {read.distance}")
found = film.read_ring(ring, 1)
print(f"ring: start {found.start}, number {found.number}, distance {found.distance}")
