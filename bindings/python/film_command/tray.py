"""A tray file taken apart: its radius, lines, rings and blocks, as far as they are whole, and where it stops early or how many bytes are left over."""

from typing import List, NamedTuple, Optional

WORD = 63
ITEMS = ROWS = 255
# a radius, and three counts with as many items as there can be
LONGEST = 1 + 2 * (1 + ITEMS * WORD) + 1 + ITEMS * (1 + ROWS)


class Tray(NamedTuple):
    """What of a file is whole. `radius` is None where the file is empty; `stops` says where it stops early, and is empty where it does not; `taken` is how
    many bytes the tray has."""

    radius: Optional[int]
    lines: List[bytes]
    rings: List[bytes]
    blocks: List[bytes]
    stops: str
    taken: int


class _Stops(Exception):
    """Where a file stops early."""


class _Walk:
    """A walk through the bytes of a file: `taken` is how many were taken."""

    def __init__(self, file: bytes) -> None:
        self.file, self.taken = file, 0

    def take(self, count: int, what: str) -> bytes:
        there = len(self.file) - self.taken
        if there < count:
            raise _Stops(f"the file stops in {what}, after {there} of {count} bytes" if there else f"the file stops before {what}")
        self.taken += count
        return self.file[self.taken - count:self.taken]

    def count(self, what: str) -> int:
        return self.take(1, what)[0]

    def words(self, kind: str, into: List[bytes]) -> None:
        for i in range(self.count(f"the count of {kind}s")):
            into.append(self.take(WORD, f"{kind} {i}"))

    def blocks(self, into: List[bytes]) -> None:
        for i in range(self.count("the count of blocks")):
            into.append(self.take(self.count(f"the row count of block {i}"), f"the rows of block {i}"))


def tray_of(file: bytes) -> Tray:
    """The tray that a file begins with."""
    walk, radius, stops = _Walk(file), None, ""
    lines: List[bytes] = []
    rings: List[bytes] = []
    blocks: List[bytes] = []
    try:
        radius = walk.count("the radius")
        walk.words("line", lines)
        walk.words("ring", rings)
        walk.blocks(blocks)
    except _Stops as where:
        stops = str(where)
    return Tray(radius, lines, rings, blocks, stops, walk.taken)
