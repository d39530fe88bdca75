"""Rings, one by one: each is read at the one start at which it fits."""

from typing import Any, Tuple, Union

import film

from . import words
from .items import ASCII, WORD, Items, Refusal, WordReader

NAMES = ("start", "number", "distance", "first", "last", "kind", "text", "panel")
NOTHING = (0, 0, 0, 0, 0, 0, b"", b"")


class Rings(WordReader):
    """Reads rings."""

    item, place, task = "ring", "place", film.SPOOL

    def __init__(self, radius: int, panel: bool) -> None:
        self.radius, self.panel = radius, panel

    def read(self, records: bytes, first: int) -> Items:
        read = [self.ring(records[at:at + WORD]) for at in range(0, len(records), WORD)]
        refusals = {i: ring for i, ring in enumerate(read) if isinstance(ring, Refusal)}
        columns = zip(*(NOTHING if i in refusals else ring for i, ring in enumerate(read)))
        return Items(len(read), dict(zip(NAMES, columns)), refusals)

    def ring(self, ring: bytes) -> Union[Tuple[Any, ...], Refusal]:
        """What a ring has for each column."""
        try:
            panel = film.panel_ring(ring, self.radius).rstrip().encode("ascii") if self.panel else b""
            read = film.read_ring(ring, self.radius)
        except film.Refused as refused:
            return self.many(ring) if refused.number == words.MANY_STARTS else self.refusal(refused.number, ring)
        return (*read[1:], read.line[0], read.line[1:1 + film.LETTERS].translate(ASCII).rstrip(), panel)

    def many(self, ring: bytes) -> Refusal:
        starts = film.list_ring(ring, self.radius)
        return Refusal(words.MANY_STARTS, words.many_starts(len(starts)), starts)
