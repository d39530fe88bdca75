"""Harmless text for a panel, from a line's text or from a ring."""

from typing import Optional

from ._calls import write
from ._kinds import BytesLike


def panel_text(text: BytesLike, out: Optional[bytearray] = None) -> str:
    """Harmless text for a panel, from the 50 text characters of a line. The first is the kind, and only plain text (kind 0) is written: of the others v stands
    for the ASCII byte 32 + v, and & < > " ' are written by name. An output that is handed in has PANEL bytes or more; those after the text stay.

    >>> film.panel_text(film.characters_of("AT&T <B>")).rstrip()
    'AT&amp;T &lt;B&gt;'
    >>> film.panel_text(film.characters_of("AT&T <B>", film.TEMPLATE))
    Traceback (most recent call last):
    film.Refused: refused (14): panel text: the kind is 1, a template
    >>> note = [ord(c) - 32 for c in "AT&T <B>".ljust(49)]
    >>> film.panel_text([0] + note).rstrip()
    'AT&amp;T &lt;B&gt;'
    >>> film.panel_text([1] + note)
    Traceback (most recent call last):
    film.Refused: refused (14): panel text: the kind is 1, a template
    """
    result, shown = write("panel_text", text, out=out)
    return shown[: result.length].decode("ascii")


def panel_ring(ring: BytesLike, radius: int, out: Optional[bytearray] = None) -> str:
    """Harmless text for a panel, from a ring: that of the line at the one start that is listed, as panel_text gives it."""
    result, shown = write("panel_ring", ring, radius, out=out)
    return shown[: result.length].decode("ascii")
