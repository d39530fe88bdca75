"""What the library's functions are handed, kind by kind: how each is taken from a program, how it is lent to the library, and what a refusal tells of it."""

import ctypes
from typing import Any, Dict, Iterable, List, Optional, Sequence, Tuple, Union

from ._structs import CELLS, CHARACTERS, CHECKS, NUMBERS, SHEET, TEXT, TEXTS, Register, Tray, u8, u16

# Bytes, or numbers that bytes() makes bytes of.
BytesLike = Union[bytes, bytearray, memoryview, Iterable[int]]

# The refusals of which something can be told.
INPUT_LENGTH, VALUE_OVER, RADIUS_OVER, NUMBER_OVER, OUTPUT_LENGTH, OTHER_NUMBER, ROW_COUNT = 1, 2, 3, 4, 5, 7, 8
REGISTER_FULL, REGISTER_SHORT, LINE_NOT_HELD, ADDRESS_OVER = 11, 12, 18, 19

# The most that a character, a data row, a byte of a map, any byte and the number of a line may be.
CHARACTER, DATA_ROW, MARK, BYTE, LINE_NUMBER = 63, 127, 1, 255, 4095


def as_bytes(given: BytesLike) -> bytes:
    """Bytes of what bytes() takes, but for a number, of which it would make so many zeros."""
    if isinstance(given, int):
        raise TypeError("bytes are needed, not a number")
    if isinstance(given, str):
        raise TypeError("bytes are needed, not a text; characters_of makes the characters of one")
    return bytes(given)


def as_number(given: int) -> int:
    if given < 0:
        raise ValueError(f"a negative number: {given}")
    return given


def counted(count: int, unit: str) -> str:
    return f"{count} {unit}" if count == 1 else f"{count} {unit}s"


class Kind:
    """Something that is handed over. It is lent as it came, and no refusal tells anything of it, where a kind below does not say otherwise."""

    def __init__(self, *c_types: Any) -> None:
        self.c_types = c_types

    def taken(self, given: Any) -> Any:
        return given

    def lent(self, given: Any) -> Tuple[Any, ...]:
        return (given,)

    def detail(self, refusal: int, given: Any) -> str:
        return ""


class Number(Kind):
    """A number, and what each refusal tells of one that is above `most`. One that is too large for its C type is lent as the largest, which is refused for the
    same reason."""

    def __init__(self, told: Dict[int, str], most: int = -1, c_type: Any = u8) -> None:
        super().__init__(c_type)
        self.told, self.most, self.largest = told, most, 256 ** ctypes.sizeof(c_type) - 1

    def taken(self, given: int) -> int:
        return as_number(given)

    def lent(self, given: int) -> Tuple[int]:
        return (given if given < self.largest else self.largest,)

    def detail(self, refusal: int, given: int) -> str:
        return self.told.get(refusal, "").format(given) if given > self.most else ""


class Threshold(Number):
    """A threshold. One that is too large for a byte is not lent as the largest, since that is not refused."""

    def taken(self, given: int) -> int:
        if given > self.largest:
            raise ValueError(f"a threshold over {self.largest}: {given}")
        return as_number(given)


class Slice(Kind):
    """Bytes: how many there have to be, if that is one number, and the most that each may be; what one is called, what they are of, where one stands ({0} of
    all, {2} of row {1}), and the refusal of one that is over the most."""

    pointer: Any = ctypes.c_char_p

    def __init__(
        self, length: Optional[int], most: int, unit: str = "byte", of: str = "", where: str = "address {0}", row: int = CHARACTERS, over: int = VALUE_OVER
    ) -> None:
        super().__init__(self.pointer, ctypes.c_size_t)
        self.length, self.most, self.unit, self.of, self.where, self.row, self.over = length, most, unit, of, where, row, over

    def taken(self, given: BytesLike) -> Sequence[int]:
        return as_bytes(given)

    def lent(self, given: Any) -> Tuple[Any, int]:
        return given, len(given)

    def detail(self, refusal: int, given: Sequence[int]) -> str:
        if refusal == ROW_COUNT or refusal == INPUT_LENGTH and len(given) != self.length:
            return f"{counted(len(given), self.unit)}{self.of} came"
        if refusal == self.over:
            for at, value in enumerate(given):
                if value > self.most:
                    return f"{self.where.format(at, *divmod(at, self.row))} holds {value}"
        return ""


class Numbers(Slice):
    """Numbers, each lent as one alone is."""

    pointer = ctypes.POINTER(u16)

    def taken(self, given: Iterable[int]) -> Sequence[int]:
        return [as_number(number) for number in given]

    def lent(self, given: Sequence[int]) -> Tuple[Any, int]:
        return (u16 * len(given))(*(NUMBER.lent(number)[0] for number in given)), len(given)


class Held(Kind):
    """A register: its characters and its count."""

    characters = Slice(CHECKS, CHARACTER, where="place {0} of the register")
    count = Number(dict.fromkeys((REGISTER_FULL, REGISTER_SHORT), "a count of {} came"))

    def taken(self, given: Tuple[bytes, int]) -> Tuple[bytes, int]:
        held, count = given
        return held, self.count.taken(count)

    def lent(self, given: Tuple[bytes, int]) -> Tuple[Register]:
        held, count = given
        return (Register((u8 * CHECKS)(*held), *self.count.lent(count)),)

    def detail(self, refusal: int, given: Tuple[bytes, int]) -> str:
        held, count = given
        return self.count.detail(refusal, count) or self.characters.detail(refusal, held)


OPERAND = Number({VALUE_OVER: "operand {} came"}, CHARACTER)
ONE_CHARACTER = Number({VALUE_OVER: "character {} came"}, CHARACTER)
RADIUS = Number({RADIUS_OVER: "radius {} came"})
NUMBER = Number({NUMBER_OVER: "number {} came"}, c_type=u16)
WANTED = Number({NUMBER_OVER: "number {} came", OTHER_NUMBER: "number {} is wanted"}, c_type=u16)
LINE_OF_TRAY = Number({LINE_NOT_HELD: "line {} came"})
ADDRESS = Number({ADDRESS_OVER: "address {} came"})
THRESHOLD = Threshold({})

LINE = RING = Slice(CHARACTERS, CHARACTER)
TEXT_OF_LINE = Slice(TEXT, CHARACTER)
MAP = Slice(CHARACTERS, MARK, of=" of a map", where="address {0} of the map")
LINES = Slice(None, CHARACTER)
WHOLE_SHEET = Slice(SHEET, CHARACTER, where="address {2} of line {1}")
SHEET_TEXTS = Slice(TEXTS, CHARACTER, of=" of texts", where="address {2} of text {1}", row=TEXT)
SHEET_NUMBERS = Numbers(NUMBERS, LINE_NUMBER, "number", where="place {0} of the numbers", over=NUMBER_OVER)
CELLS_OF_SCAN = Slice(CELLS, BYTE)
CELLS_OF_SCANS = Slice(None, BYTE)
DATA_ROWS = Slice(None, DATA_ROW, "row", where="row {0}")
ROWS = Slice(None, BYTE, "row", where="row {0}")

TRAY = Kind(ctypes.POINTER(Tray))
REGISTER = Held(Register)
