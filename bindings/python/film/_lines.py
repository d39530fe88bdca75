"""Lines: encoding them, reading one, with blots too, or a spool of them, and the better of two scans."""

from typing import Any, List, Optional, TypeVar, Union

from ._calls import ask, detail, write
from ._kinds import BytesLike, as_bytes
from ._readings import LineRead
from ._refusals import Refused
from ._structs import CHARACTERS

First = TypeVar("First", bound=BytesLike)
Second = TypeVar("Second", bound=BytesLike)


def _line_read(result: Any, line: bytes) -> LineRead:
    return LineRead(line, result.number, result.distance, result.first, result.last)


def encode_line(text: BytesLike, number: int, out: Optional[bytearray] = None) -> bytes:
    """The one line with these 50 characters of text and this number. characters_of makes the 50 of a text."""
    return write("encode_line", text, number, out=out)[1]


def _read_line(name: str, word: BytesLike, radius: int, wanted: Optional[int], out: Optional[bytearray]) -> LineRead:
    """A line read by the function of this name, or, where a number is wanted, by its other form."""
    if wanted is None:
        return _line_read(*write(name, word, radius, out=out))
    return _line_read(*write(f"{name}_wanted", word, radius, wanted, out=out))


def read_line(word: BytesLike, radius: int, wanted: Optional[int] = None, out: Optional[bytearray] = None) -> LineRead:
    """The line within the radius of 63 characters; where a number is wanted, it must carry that number."""
    return _read_line("read_line", word, radius, wanted, out)


def read_line_paper(word: BytesLike, radius: int, wanted: Optional[int] = None, out: Optional[bytearray] = None) -> LineRead:
    """The same by the method of 1968, for a museum: for every input it gives and raises what read_line does, and takes longer."""
    return _read_line("read_line_paper", word, radius, wanted, out)


def read_blotted(word: BytesLike, map: BytesLike, out: Optional[bytearray] = None) -> LineRead:
    """A line with blots, the characters that the scanner could not see: the map, 63 bytes, has 1 for a blot and 0 for none. With f blots it is the line that
    differs from the 63 characters in e of them outside the blots, 2e + f at most 11; there is never a second one. What stands at a blot, a character too, has
    no say in which line that is; the distance and the changed addresses count it as any other. With no blot it is read_line with radius 5.

    >>> line = film.encode_line(bytes(50), 65)
    >>> word, map = bytearray(line), bytearray(63)
    >>> for a in range(20, 29):
    ...     word[a], map[a] = 63, 1
    >>> word[62] ^= 1
    >>> read = film.read_blotted(word, map)
    >>> read.line == line
    True
    >>> read.number, read.distance, read.first, read.last
    (65, 10, 20, 62)
    """
    return _line_read(*write("read_blotted", word, map, out=out))


def read_spool(lines: BytesLike, radius: int, out: Optional[bytearray] = None) -> List[Union[LineRead, Refused]]:
    """Up to PLACES lines of 63 characters, one after the other, read in one call with one radius and no wanted numbers: a list of what read_line gives for
    each. In place of a line that it refuses stands the Refused that it raises; this stops no other line, and leaves its own 63 bytes of an output that is
    handed in as they were. No lines give an empty list. Only a wrong length, of the lines or of the output, makes the call itself raise.

    >>> lines = [film.encode_line(bytes(50), number) for number in (65, 66, 67)]
    >>> lines[1] = bytes(63)
    >>> for i, read in enumerate(film.read_spool(b"".join(lines), 2)):
    ...     if isinstance(read, film.Refused):
    ...         print(f"line {i}: {read}")
    ...     else:
    ...         print(f"line {i}: number {read.number}")
    line 0: number 65
    line 1: refused (6): no line within the radius; for ring reading, an empty list; with blots, no such line
    line 2: number 67
    """
    lines = as_bytes(lines)
    result, written = write("read_spool", lines, radius, out=out)
    reads: List[Union[LineRead, Refused]] = []
    for place, at in zip(result.places, range(0, len(lines), CHARACTERS)):
        if place.answer:
            reads.append(Refused(place.answer, detail("read_line", place.answer, (lines[at : at + CHARACTERS], radius))))
        else:
            reads.append(_line_read(place, written[at : at + CHARACTERS]))
    return reads


def better_scan(first: First, second: Second, radius: int) -> Union[First, Second]:
    """The better of two scans of one line, each read with the radius and no wanted number: the caller's own object of the scan that is read with the smaller
    distance, the first where they tie; the other where one is refused. Where both are, the refusal is the first's.

    >>> line = film.encode_line(bytes(50), 65)
    >>> wrong = b"?" + line[1:]
    >>> film.better_scan(wrong, line, 5) is line
    True
    """
    return first if ask("better_scan", first, second, radius).scan == 1 else second
