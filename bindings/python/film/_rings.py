"""Rings: the starts at which a line lies, and the line at the one start."""

from typing import List, Optional

from ._calls import write
from ._kinds import BytesLike
from ._readings import RingRead


def list_ring(ring: BytesLike, radius: int, out: Optional[bytearray] = None) -> List[int]:
    """The starts at which some line lies within the radius, in rising order."""
    result, starts = write("list_ring", ring, radius, out=out)
    return list(starts[: result.count])


def read_ring(ring: BytesLike, radius: int, out: Optional[bytearray] = None) -> RingRead:
    """The line at the one start that is listed."""
    result, line = write("read_ring", ring, radius, out=out)
    return RingRead(line, result.start, result.number, result.distance, result.first, result.last)
