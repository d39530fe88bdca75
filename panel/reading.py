"""From a tray to rows: the one file of the panel that is handed film. Of the film's text it hands on what panel text wrote, and nothing else."""

import pathlib
import sys
from typing import NamedTuple, Sequence

sys.path.insert(0, str(pathlib.Path(__file__).resolve().parents[1] / "bindings" / "python"))
import film

TEXT = 50
MANY_STARTS = 10


class Row(NamedTuple):
    """A line or ring of the tray. Where `refusal` is 0, `shown` is its text as panel text wrote it; else only the number of the refusal says anything, and
    `starts` where the ring fits at several."""

    kind: str
    item: int
    refusal: int = 0
    shown: str = ""
    number: int = 0
    distance: int = 0
    start: int = 0
    starts: Sequence[int] = ()


def line_row(item, word, radius):
    try:
        read = film.read_line(word, radius)
        return Row("Line", item, shown=film.panel_text(read.line[:TEXT]), number=read.number, distance=read.distance)
    except film.Refused as refused:
        return Row("Line", item, refused.number)


def ring_row(item, ring, radius):
    try:
        shown, read = film.panel_ring(ring, radius), film.read_ring(ring, radius)
        return Row("Ring", item, shown=shown, number=read.number, distance=read.distance, start=read.start)
    except film.Refused as refused:
        return Row("Ring", item, refused.number, starts=film.list_ring(ring, radius) if refused.number == MANY_STARTS else ())


def rows(tray, radius):
    """A row for each line and each ring of a tray, read with one radius."""
    return [line_row(i, word, radius) for i, word in enumerate(tray.lines)] + [ring_row(i, ring, radius) for i, ring in enumerate(tray.rings)]
