"""How the panel that was withdrawn showed a ring: from the first start that fits, its text put into the page as it is."""

import places
from reading import TEXT, film


def word_at(ring, start):
    """The 63 characters that a start reads."""
    length = len(ring)
    return bytes(ring[(start + a if start < length else start - a) % length] for a in range(length))


def text_of(line):
    """A line's text as ASCII, its kind among it: character v is 32 + v."""
    return "".join(chr(32 + character) for character in line[:TEXT])


def first_fit(ring, radius):
    """The line at the first start that fits."""
    return film.read_line(word_at(ring, film.list_ring(ring, radius)[0]), radius).line


def page(ring, radius):
    """A template as the old panel showed it: what follows the kind, as markup."""
    return f"<!DOCTYPE html>\n<title>The old way</title>\n<p>{text_of(first_fit(ring, radius))[1:]}</p>\n"
