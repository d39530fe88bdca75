"""What reading gives, many items at once: each column of what they have as a sequence, and the refusals among them; and how records are cut."""

import abc
from typing import Any, Dict, List, NamedTuple, Sequence

import film

from . import words

WORD = 63
# what each character stands for; no other byte is ever looked up
ASCII = bytes((32 + v) % 256 for v in range(256))


class Refusal(NamedTuple):
    """Why an item is refused: the number, words, and, where a ring fits at several, its starts."""

    number: int
    words: str
    starts: Sequence[int] = ()


class Items(NamedTuple):
    """Items that were read, by columns, each with a place for every item: at the place of a refused one a column may hold anything of its type."""

    count: int
    columns: Dict[str, Sequence[Any]]
    refusals: Dict[int, Refusal]


class Reader(abc.ABC):
    """Who reads records of one kind: what one is called, and how many bytes of them make a task."""

    item: str
    task: int

    @abc.abstractmethod
    def whole(self, held: bytes) -> int:
        """How many of the bytes are whole records."""

    @abc.abstractmethod
    def count(self, records: bytes) -> int:
        """How many records these are."""

    @abc.abstractmethod
    def parts(self, records: bytes) -> List[bytes]:
        """The records as they are read at once."""

    @abc.abstractmethod
    def read(self, records: bytes, first: int) -> Items:
        """What was read of such a part; `first` is how many records came before."""


class WordReader(Reader):
    """Who reads lines or rings, records of 63 bytes, with a radius; `place` is what is counted along one."""

    place: str
    radius: int

    def whole(self, held: bytes) -> int:
        return len(held) - len(held) % WORD

    def count(self, records: bytes) -> int:
        return len(records) // WORD

    def parts(self, records: bytes) -> List[bytes]:
        return [records[at:at + film.SPOOL] for at in range(0, len(records), film.SPOOL)]

    def refusal(self, number: int, word: bytes) -> Refusal:
        if number == words.VALUE_OVER:
            return Refusal(number, words.over(self.place, word))
        return Refusal(number, words.radius_over(self.radius) if number == words.RADIUS_OVER else words.REFUSED[number])
