"""Blocks, one by one: each is a byte for its row count, and the rows."""

from typing import Iterator, List, Tuple, Union

import film

from . import words
from .items import Items, Reader, Refusal


def blocks(records: bytes) -> Iterator[bytes]:
    """The rows of each block."""
    at = 0
    while at < len(records):
        end = at + 1 + records[at]
        yield records[at + 1:end]
        at = end


class Blocks(Reader):
    """Reads blocks."""

    item, task = "block", 1 << 14

    def whole(self, held: bytes) -> int:
        at = 0
        while at < len(held) and at + held[at] < len(held):
            at += 1 + held[at]
        return at

    def count(self, records: bytes) -> int:
        return sum(1 for _ in blocks(records))

    def parts(self, records: bytes) -> List[bytes]:
        return [records] if records else []

    def read(self, records: bytes, first: int) -> Items:
        read = [self.block(rows) for rows in blocks(records)]
        refusals = {i: block for i, block in enumerate(read) if isinstance(block, Refusal)}
        rows, distances = zip(*((b"", 0) if i in refusals else block for i, block in enumerate(read)))
        return Items(len(read), {"distance": distances, "rows": rows}, refusals)

    @staticmethod
    def block(rows: bytes) -> Union[Tuple[bytes, int], Refusal]:
        """The mended rows of a block and its distance."""
        try:
            return film.read_block(rows)
        except film.Refused as refused:
            return Refusal(refused.number, words.row_count(len(rows)) if refused.number == words.ROW_COUNT else words.REFUSED[refused.number])
