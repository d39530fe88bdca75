"""The proved film reader: text, lines, with blots too, spools, sheets, open trays, the clarity of scans, rings, text for a panel and parity blocks, and the
field and the register below them.

Every function takes whatever bytes it is handed, and any number from 0 on. It gives back what it found, or raises Refused, which says by number why not, and
what came. A negative number, or a threshold over 255, is a ValueError. A character is a byte from 0 to 63, and a line is 63 of them.

    >>> line = film.encode_line(film.characters_of("HELLO, FILM"), 65)
    >>> read = film.read_line(b"?" + line[1:], 5)
    >>> film.text_of(read.line).text, read.number, read.distance
    ('HELLO, FILM', 65, 1)
    >>> film.read_ring(line[4:] + line[:4], 1).start
    59
    >>> line = film.encode_line(bytes(50), 65)
    >>> film.read_line(line, 5).number
    65
    >>> film.read_ring(line[4:] + line[:4], 1).start
    59
    >>> film.read_line(line, 6)
    Traceback (most recent call last):
    film.Refused: refused (3): radius over 5: radius 6 came

Where an output `out` is handed in (a bytearray), it is written in place of a new one; in a refusal it is as it was, but for an ImproperSheet. So is an
OpenTray. The shared library is the one that FILM_LIBRARY names, or the one in the folder that it names; where it names none, the one inside the package, or
else that of this checkout, target/film, which tools/build-library makes. Where there is none, or one of another major version, importing raises an ImportError.
"""

from ._blocks import encode_block, encode_smudge, read_block, read_smudge
from ._calls import version
from ._clarity import scan_clarity, spool_clarity
from ._field import Register, product, quotient, sum
from ._kinds import BytesLike
from ._lines import better_scan, encode_line, read_blotted, read_line, read_line_paper, read_spool
from ._panels import panel_ring, panel_text
from ._readings import BlockRead, Clarities, LineRead, RingRead, Scan, SheetRead
from ._refusals import REFUSALS, ImproperSheet, Refused
from ._rings import list_ring, read_ring
from ._sheets import encode_sheet, read_sheet
from ._structs import CELLS, NOWHERE, NUMBERS, PANEL, PLACES, ROUNDS, SCANS, SHEET, SMUDGE, SPOOL, SUMS, TEXTS, TRAY, TRAY_LINES
from ._text import LETTERS, PLAIN, TEMPLATE, NoCharacter, Note, TooLong, characters_of, text_of
from ._tray import OpenTray
from ._version import __version__

__all__ = [
    "BlockRead",
    "BytesLike",
    "CELLS",
    "Clarities",
    "ImproperSheet",
    "LETTERS",
    "LineRead",
    "NOWHERE",
    "NUMBERS",
    "NoCharacter",
    "Note",
    "OpenTray",
    "PANEL",
    "PLACES",
    "PLAIN",
    "REFUSALS",
    "ROUNDS",
    "Refused",
    "Register",
    "RingRead",
    "SCANS",
    "SHEET",
    "SMUDGE",
    "SPOOL",
    "SUMS",
    "Scan",
    "SheetRead",
    "TEMPLATE",
    "TEXTS",
    "TRAY",
    "TRAY_LINES",
    "TooLong",
    "better_scan",
    "characters_of",
    "encode_block",
    "encode_line",
    "encode_sheet",
    "encode_smudge",
    "list_ring",
    "panel_ring",
    "panel_text",
    "product",
    "quotient",
    "read_block",
    "read_blotted",
    "read_line",
    "read_line_paper",
    "read_ring",
    "read_sheet",
    "read_smudge",
    "read_spool",
    "scan_clarity",
    "spool_clarity",
    "sum",
    "text_of",
    "version",
    "__version__",
]

# Each is said to be of the module in which programs find it: in help, in tracebacks and in what is pickled.
for _name in __all__:
    if getattr(globals()[_name], "__module__", "").startswith(f"{__name__}."):
        globals()[_name].__module__ = __name__
del _name
