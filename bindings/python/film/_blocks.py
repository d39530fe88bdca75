"""Parity blocks, and those that outlast a smudge: encoding and reading them."""

from typing import Optional

from ._calls import write
from ._kinds import BytesLike
from ._readings import BlockRead


def encode_block(data: BytesLike, out: Optional[bytearray] = None) -> bytes:
    """The one proper block with these 1 to 63 data rows: every row holds an even number of ones, every column an odd number."""
    return write("encode_block", data, out=out)[1]


def read_block(rows: BytesLike, out: Optional[bytearray] = None) -> BlockRead:
    """The proper block within one bit of 2 to 64 rows. Dark film is no block."""
    result, block = write("read_block", rows, out=out)
    return BlockRead(block, result.distance)


def encode_smudge(data: BytesLike, out: Optional[bytearray] = None) -> bytes:
    """The block that encode_block makes of these seven data rows, staggered, so that it outlasts a smudge. Cell j of row i is bit j of byte i. To straighten
    it, every cell of an odd column moves two rows up, and then every cell of an odd row two cells toward bit 0, both around the edge."""
    return write("encode_smudge", data, out=out)[1]


def read_smudge(rows: BytesLike, out: Optional[bytearray] = None) -> BlockRead:
    """The block, staggered, that differs from eight rows inside one window of two by two cells alone, if at all; there is never a second one. A window does
    not go around the edge, and dark film is no block.

    >>> block = film.encode_smudge([1, 2, 3, 4, 5, 6, 7])
    >>> scan = bytearray(block)
    >>> scan[4] ^= 0b11000
    >>> scan[5] ^= 0b11000
    >>> read = film.read_smudge(scan)
    >>> read.rows == block, read.distance
    (True, 4)
    """
    result, block = write("read_smudge", rows, out=out)
    return BlockRead(block, result.distance)
