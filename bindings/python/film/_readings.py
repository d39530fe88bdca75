"""What reading gives, each part by its name: a line, a sheet, a line of a ring, a block, or how clear scans are."""

from typing import NamedTuple, Optional


class LineRead(NamedTuple):
    """A line that was read, its number, in how many addresses the word differs from it, and the first and the last of them, or NOWHERE."""

    line: bytes
    number: int
    distance: int
    first: int
    last: int


class SheetRead(NamedTuple):
    """A proper sheet, and how many rounds were run, the last counted."""

    sheet: bytes
    rounds: int


class RingRead(NamedTuple):
    """The one start that is listed (0 to 62 forward, 63 to 125 backward), the line there, its number, in how many addresses the word there differs from
    it, and the first and the last of them, addresses of the line and no places on the ring, or NOWHERE."""

    line: bytes
    start: int
    number: int
    distance: int
    first: int
    last: int


class BlockRead(NamedTuple):
    """The proper block, and its distance from the rows: 0 or 1 bit. Of a block that outlasts a smudge, the staggered one, and 0 to 4 bits."""

    rows: bytes
    distance: int


class Scan(NamedTuple):
    """How clear a scan is: the ratio, or None where there is no spread, and the means of the dark and of the bright cells, each rounded once."""

    ratio: Optional[float]
    dark: float
    bright: float


class Clarities(NamedTuple):
    """How many scans of a spool have a ratio, have no spread and are refused with 20; together they are all of its scans."""

    ratios: int
    no_spreads: int
    refusals: int
