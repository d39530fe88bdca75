"""What a tray's page has to show, worked out without panel text, and the tray of the same shape with blank notes."""

import re

import places
import old_way
from reading import film
from tray_file import tray_of


def note_of(line):
    """The 49 characters of a plain line as a reader sees them, or nothing where the line is not plain."""
    text = old_way.text_of(line)
    return text[1:] if text[0] == " " else None


def read_or_none(read, word, radius):
    try:
        return read(word, radius).line
    except film.Refused:
        return None


def notes(file, radius=None):
    """The notes that a tray's page shows, from the top: those of its plain lines, then those of the rings with one start."""
    tray = tray_of(file)
    radius = tray.radius if radius is None else radius
    read = [read_or_none(film.read_line, word, radius) for word in tray.lines] + [read_or_none(film.read_ring, ring, radius) for ring in tray.rings]
    return [note for note in (note_of(line) for line in read if line) if note]


def blank(description):
    """The description of a tray with the same items, the same of them wrong and turned, and every note blank."""
    return re.sub(r'text "(?:[^"]|"")*"', 'text " "', description)
