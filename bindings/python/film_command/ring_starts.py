"""The starts at which a ring fits, what is read at each of them, and which is the true one, as far as that can be said."""

from typing import List, NamedTuple, Optional

import film

from .drawing import PLACES
from .words import counted

# It is proved that a start at distance e is alone in the list at radius r where e + r is below this: so any other is at least this less e away.
APART = 4
# A start at this distance or nearer is nearer than all others, then; and there is one wherever no more characters of a recorded line are wrong.
SURE = 1


class Fit(NamedTuple):
    """A start at which a line lies within the radius: that line, its number, and in how many characters the ring differs from it."""

    start: int
    line: bytes
    number: int
    distance: int

    @property
    def is_forward(self) -> bool:
        return self.start < PLACES

    @property
    def direction(self) -> str:
        return "forward" if self.is_forward else "backward"

    @property
    def place(self) -> int:
        """The place of address 0."""
        return self.start % PLACES

    @property
    def note(self) -> film.Note:
        return film.text_of(self.line)


class Nearest(NamedTuple):
    """The one start that is nearer than all others. It is the true one where the ring is a recorded line with at most so many wrong characters."""

    start: int
    distance: int
    most_wrong: int


class Listed(NamedTuple):
    """A ring by its count in the file, the radius, what reading it with that answers, the starts of its list, rising, and the nearest, if one alone is."""

    item: int
    radius: int
    answer: int
    fits: List[Fit]
    nearest: Optional[Nearest]

    @property
    def truth(self) -> Optional[Nearest]:
        """The start that is told to be the true one."""
        return self.nearest if self.nearest and self.nearest.distance <= SURE else None

    @property
    def summary(self) -> str:
        return f"ring {self.item} at radius {self.radius}: {counted(len(self.fits), 'start')}; reading it answers {self.answer}"

    @property
    def nearest_first(self) -> List[Fit]:
        return sorted(self.fits, key=lambda fit: fit.distance)

    def is_true(self, fit: Fit) -> bool:
        return self.truth is not None and fit.start == self.truth.start


def word_for(note: film.Note) -> str:
    """What is said of a note that is no plain text, or has no letter. It has small letters, which no note has. Of any other nothing is."""
    if note.kind == film.PLAIN:
        return "" if note.text else "blank"
    return "template" if note.kind == film.TEMPLATE else f"kind {note.kind}"


def word_at(ring: bytes, start: int) -> bytes:
    """The 63 characters that are read from a start: address a is a places after it, or before it where the start is a backward one."""
    way = 1 if start < PLACES else -1
    return bytes(ring[(start + way * address) % PLACES] for address in range(PLACES))


def fit_at(ring: bytes, radius: int, start: int) -> Fit:
    read = film.read_line(word_at(ring, start), radius)
    return Fit(start, read.line, read.number, read.distance)


def nearest_of(fits: List[Fit], radius: int) -> Optional[Nearest]:
    """Where w characters of a recorded line are wrong, its true start lies at distance w: so a start that is nearer than all others is the true one as long as
    fewer are wrong than the next distance says."""
    if not fits:
        return None
    nearest = min(fits, key=lambda fit: fit.distance)
    beyond = max(radius + 1, APART - nearest.distance)
    next_distance = min((fit.distance for fit in fits if fit is not nearest), default=beyond)
    return Nearest(nearest.start, nearest.distance, next_distance - 1) if nearest.distance < next_distance else None


def answer_of(ring: bytes, radius: int) -> int:
    try:
        film.read_ring(ring, radius)
        return 0
    except film.Refused as refused:
        return refused.number


def listed(item: int, ring: bytes, radius: int) -> Listed:
    """What listing a ring gives; film.Refused where it is refused."""
    fits = [fit_at(ring, radius, start) for start in film.list_ring(ring, radius)]
    return Listed(item, radius, answer_of(ring, radius), fits, nearest_of(fits, radius))
