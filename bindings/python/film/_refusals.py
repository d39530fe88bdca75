"""Refusals: the numbered answers in words, and what is raised."""

from typing import Dict, Tuple, Type

# The numbered answers, as the paper gives them; 0 is a success. tools/tables writes them from refusals.txt.
REFUSALS: Dict[int, str] = {
    1: "a line, ring or map of blots is not 63 long, a text is not 50 long, a sheet is not 3,969 long, its texts are not 2,600 long or its numbers not 52, a spool's length is no multiple of 63 or is over 16,065, a scan of brightnesses is not 378 long, or the length of a spool of them is no multiple of 378 or is over 96,390",
    2: "a character (a register's too) or field operand is over 63, a data row over 127, or a byte of a map over 1",
    3: "radius over 5",
    4: "number over 4095",
    5: "output length differs from the one stated, or is under 294 for panel text",
    6: "no line within the radius; for ring reading, an empty list; with blots, no such line",
    7: "the line found has another number than the wanted one",
    8: "block rows outside 2..64, or data rows outside 1..63; with a smudge, not eight rows, or not seven data rows",
    9: "no proper block within one bit; with a smudge, none that differs inside one window of two by two cells alone",
    10: "ring reading: two or more entries in the list",
    11: "a step is asked of a register that holds 52 characters, or anything of one whose count is above 52",
    12: "register holds fewer than 52",
    13: "quotient by zero",
    14: "panel text: the kind is 1, a template",
    15: "panel text: the kind is over 1",
    16: "sheet reading: what the rounds leave is no proper sheet; it is written all the same, and the rounds are told",
    17: "an open tray claims over 64 lines or a count above them; adding, where 64 are held; replacing and dropping, last, where the line has a character or sum over 63, or a sum not 0 at count 0",
    18: "replacing: the line asked for is not there; dropping: no line is left",
    19: "an address over 62",
    20: "a scan of brightnesses in which no cell is dark, or none is bright",
}


class Refused(Exception):
    """A call was refused: `number` is the paper's number of the reason, and `detail` says what was handed over that is the reason, where that is known."""

    number: int
    detail: str

    def __init__(self, number: int, detail: str = "") -> None:
        super().__init__(number, detail)
        self.number = number
        self.detail = detail

    def __str__(self) -> str:
        words = f"refused ({self.number}): {REFUSALS.get(self.number, 'a reason that this binding does not know')}"
        return f"{words}: {self.detail}" if self.detail else words


class ImproperSheet(Refused):
    """What the rounds of reading a sheet left is no proper sheet: `sheet` is what they left, and `rounds` how many were run, the last counted."""

    NUMBER = 16

    sheet: bytes
    rounds: int

    def __init__(self, sheet: bytes, rounds: int) -> None:
        super().__init__(self.NUMBER)
        self.sheet = sheet
        self.rounds = rounds

    def __reduce__(self) -> Tuple[Type["ImproperSheet"], Tuple[bytes, int]]:
        """What copying and unpickling make it of again."""
        return type(self), (self.sheet, self.rounds)
