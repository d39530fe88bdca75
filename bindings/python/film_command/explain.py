"""The subcommand explain: every start at which a ring fits, which of them is the true one and why that can be said, and what to do."""

import argparse
import json
import textwrap
from typing import Any, Dict, Iterator, Tuple

import film

from .drawing import PLACES
from .formats import format_of
from .ring_drawing import picture
from .ring_starts import Fit, Listed, Nearest, listed, word_for
from .rings import Rings
from .source import Source
from .status import DONE, REFUSED, BadUse
from .tray import LONGEST, WORD, tray_of
from .words import counted

# what shows most: at a smaller radius fewer starts are listed
WIDEST = 5
# how many bytes are skipped at once, and how wide the sentences are
PIECE = 1 << 16
COLUMNS = 100
# wide enough to list a start within 1, and small enough to list it alone
RING_RADII = "1 or 2"


# ---- the ring that is asked for


def no_ring(item: int, there: int, stops: str = "") -> BadUse:
    return BadUse(f"there is no ring {item}: the file has {counted(there, 'ring')}{', counted from 0' if there else ''}{f'; {stops}' if stops else ''}")


def ring_format(source: Source) -> str:
    """What a file is: a tray or rings. One of 63 bytes is a ring: no tray of that length has one."""
    return "rings" if len(source.look(WORD + 1)) == WORD else format_of(source, "rings")


def ring_of_tray(source: Source, item: int) -> Tuple[bytes, int]:
    """A ring of a tray, and the tray's radius."""
    tray = tray_of(source.look(LONGEST))
    if item >= len(tray.rings) or tray.radius is None:
        raise no_ring(item, len(tray.rings), tray.stops)
    return tray.rings[item], tray.radius


def ring_of_rings(source: Source, item: int) -> bytes:
    """A ring of a file of rings, which may be a long one."""
    before = item * WORD
    while before:
        taken = len(source.read(min(before, PIECE)))
        if not taken:
            raise no_ring(item, (item * WORD - before) // WORD)
        before -= taken
    ring = source.look(WORD)
    if len(ring) < WORD:
        raise no_ring(item, item)
    return ring


def ring_of(options: argparse.Namespace, item: int) -> Tuple[bytes, int]:
    """The ring that is asked for, and the radius for it."""
    source = Source(options.file)
    if (options.format or ring_format(source)) == "tray":
        ring, radius = ring_of_tray(source, item)
    else:
        ring, radius = ring_of_rings(source, item), WIDEST
    return ring, radius if options.radius is None else options.radius


# ---- what is said of it


def table(found: Listed) -> Iterator[str]:
    """The starts, the nearest first."""
    yield "start  direction  distance  number  text"
    for fit in found.nearest_first:
        note = fit.note
        said = ": ".join(filter(None, (word_for(note), note.text)))
        remark = f"  <- the true start, where at most {found.truth.most_wrong} characters are wrong" if found.truth and found.is_true(fit) else ""
        yield f"{fit.start:5}  {fit.direction:9}  {fit.distance:8}  {fit.number:6}  {said}{remark}"


def true_start(found: Listed, truth: Nearest) -> str:
    """Why a start is the true one."""
    others = len(found.fits) - 1
    false = f" The other {others} are false then." if others > 1 else " The other is false then." if others else ""
    return (f"Start {truth.start} is the true one if the ring is a recorded line with at most {truth.most_wrong} wrong characters: it is proved that the list"
            f" at radius {truth.most_wrong} then holds the true start, and that list has start {truth.start} alone.{false}")


def no_true_start(found: Listed) -> str:
    """Why none is told to be the true one."""
    distance = found.nearest_first[0].distance
    far = (f"The nearest line is {distance} characters away: if the ring is a recorded line, {distance} or more of its characters are wrong, and the true start"
           " need not be alone.")
    if found.nearest:
        start, most = found.nearest.start, found.nearest.most_wrong
        return f"{far} Start {start} is nearer than all others, and so the true one where at most {most} are wrong. More cannot be told from the ring."
    count = sum(fit.distance == distance for fit in found.fits)
    is_blank = all(fit.number == 0 and fit.note == (film.PLAIN, "") for fit in found.fits)
    dark = " Dark film fits at every start." if is_blank and len(found.fits) == 2 * PLACES else ""
    return f"{far} {count} starts are equally near: which is the true one cannot be told from the ring.{dark}"


def verdict(found: Listed) -> str:
    """Which start is the true one, and why that can be said, or why it cannot."""
    if not found.fits:
        return f"At no start a line lies within {counted(found.radius, 'character')} of the ring."
    return true_start(found, found.truth) if found.truth else no_true_start(found)


def advice(found: Listed) -> str:
    """What to do where reading the ring is refused."""
    if not found.fits:
        return "scan it again." if found.radius == WIDEST else f"ask for a larger radius, up to {WIDEST}, or scan it again."
    if found.truth:
        return (f"read it with a radius of {RING_RADII}, which lists start {found.truth.start} alone."
                f" Where more than {found.truth.most_wrong} characters may be wrong, scan it again.")
    alone = f" A radius of {found.nearest.distance} lists start {found.nearest.start} alone." if found.nearest else ""
    return (f"scan it again, or find the start mark.{alone} Where the number or the direction of the line is known, every start with another is false."
            " The texts may tell too: at a false start the same note begins elsewhere, or is read from behind.")


def as_text(found: Listed) -> str:
    """All that is said, in words."""
    head = f"{found.summary}."
    said = [verdict(found), *([f"What to do: {advice(found)}"] if found.answer else [])]
    return "\n".join([head, *(table(found) if found.fits else ()), *(textwrap.fill(paragraph, COLUMNS) for paragraph in said)])


def start_object(found: Listed, fit: Fit) -> Dict[str, Any]:
    return {"start": fit.start, "direction": fit.direction, "distance": fit.distance, "number": fit.number, "kind": fit.note.kind, "text": fit.note.text,
            "true": found.is_true(fit) if found.truth else None}


def as_json(found: Listed, **more: Any) -> str:
    """All that is said, as an object; the starts rise, as in a list."""
    start, _, most = found.truth or (None, None, None)
    return json.dumps({"ring": found.item, "radius": found.radius, "answer": found.answer, **more, "starts": [start_object(found, fit) for fit in found.fits],
                       "true_start": start, "true_where_wrong_at_most": most})


def refused(found: Listed, ring: bytes, is_json: bool) -> int:
    """Tells why there is no list."""
    why = Rings(found.radius, panel=False).refusal(found.answer, ring).words
    print(as_json(found, refused=why) if is_json else f"ring {found.item}: refused ({found.answer}): {why}")
    return REFUSED


def explain(options: argparse.Namespace) -> int:
    item = options.item or 0
    ring, radius = ring_of(options, item)
    try:
        found = listed(item, ring, radius)
    except film.Refused as why:
        return refused(Listed(item, radius, why.number, [], None), ring, options.json)
    if options.svg is not None:
        with open(options.svg, "w", encoding="ascii") as file:
            file.write(picture(found))
    print(as_json(found) if options.json else as_text(found))
    return REFUSED if found.answer else DONE
