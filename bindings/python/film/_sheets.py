"""Sheets: encoding and reading them."""

from typing import Iterable, Optional

from ._calls import write
from ._kinds import BytesLike
from ._readings import SheetRead


def encode_sheet(texts: BytesLike, numbers: Iterable[int], out: Optional[bytearray] = None) -> bytes:
    """The one proper sheet whose first 52 lines have these 52 texts of 50 characters, one after the other, and these 52 numbers. Its last eleven lines, text
    and number field too, are what the columns force."""
    return write("encode_sheet", texts, numbers, out=out)[1]


def read_sheet(sheet: BytesLike, out: Optional[bytearray] = None) -> SheetRead:
    """A sheet, 63 lines of 63 characters, read in rounds: each line with radius 5, then each column, marks off; what cannot be read is left. Rounds go on until
    one ends as it began or ROUNDS are done. Where at most five lines are damaged in any way, and each other in at most five characters, this gives the
    sheet, after 2 rounds (1 where nothing is damaged). Where what the rounds leave is not proper it raises ImproperSheet, which has it and their number; an
    output that is handed in gets it too.

    >>> sheet = film.encode_sheet(bytes(film.TEXTS), range(film.NUMBERS))
    >>> scan = bytes([7] * 5 * 63) + sheet[5 * 63 :]
    >>> read = film.read_sheet(scan)
    >>> read.sheet == sheet, read.rounds
    (True, 2)
    >>> try:
    ...     film.read_sheet(bytes([7] * 6 * 63) + sheet[6 * 63 :])
    ... except film.ImproperSheet as improper:
    ...     print(improper.sheet[6 * 63 :] == sheet[6 * 63 :], improper.rounds)
    True 2
    """
    result, left = write("read_sheet", sheet, out=out)
    return SheetRead(left, result.rounds)
