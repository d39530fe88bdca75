"""Lines, up to 255 in one call of the library: what it answers is taken apart by columns, and a line is looked at alone only where it is refused."""

import ctypes
import struct
from typing import Any, Dict, Optional, Sequence

import film
from film._calls import library

from . import words
from .items import ASCII, WORD, Items, Refusal, WordReader
from .options import LAST_NUMBER, Wanted

TEXT = 50
# film_line of film.h: an answer, a distance, a number of two bytes, a first and a last address
PLACE = 6
# the letters of each line of a spool
LETTERS = struct.Struct("x49s13x" * film.PLACES)


def room(size: int) -> "tuple[bytearray, Any]":
    """Bytes that the library writes to, as they are read here and as they are lent."""
    written = bytearray(size)
    return written, (ctypes.c_uint8 * size).from_buffer(written)


class Lines(WordReader):
    """Reads lines. What the library writes to is made once."""

    item, place, task = "line", "address", 8 * film.SPOOL

    def __init__(self, radius: int, wanted: Optional[Wanted], panel: bool) -> None:
        self.radius, self.wanted, self.panel = radius, wanted, panel
        self.mended, self.mended_lent = room(film.SPOOL)
        self.shown, self.shown_lent = room(film.PANEL)

    def read(self, records: bytes, first: int) -> Items:
        spool = library.film_read_spool(records, len(records), self.radius, self.mended_lent, len(records))
        count = self.count(records)
        places = bytes(spool)[:PLACE * count]
        answers, distances, firsts, lasts = (places[at::PLACE] for at in (0, 1, 4, 5))
        numbers = memoryview(places).cast("H")[1::PLACE // 2].tolist()
        refusals = {} if answers.count(0) == count else {i: self.refusal(answer, records[i * WORD:][:WORD]) for i, answer in enumerate(answers) if answer}
        if self.wanted:
            self.compare(numbers, first, refusals)
        texts = self.panel_texts(count, refusals) if self.panel else self.texts(count)
        return Items(count, {"number": numbers, "distance": distances, "first": firsts, "last": lasts, **texts}, refusals)

    def compare(self, numbers: Sequence[int], first: int, refusals: Dict[int, Refusal]) -> None:
        """Refuses the lines that carry another number than the wanted one."""
        start, step = self.wanted
        for i, number in enumerate(numbers):
            due = (start + step * (first + i)) % (LAST_NUMBER + 1)
            if number != due and i not in refusals:
                refusals[i] = Refusal(words.OTHER_NUMBER, words.other_number(number, due))

    def texts(self, count: int) -> Dict[str, Sequence[Any]]:
        letters = LETTERS.unpack(self.mended.translate(ASCII))
        return {"kind": self.mended[:count * WORD:WORD], "text": list(map(bytes.rstrip, letters[:count]))}

    def panel_texts(self, count: int, refusals: Dict[int, Refusal]) -> Dict[str, Sequence[Any]]:
        """Panel text, line by line; a line that has none is refused."""
        texts = [b""] * count
        for i in range(count):
            if i not in refusals:
                panel = library.film_panel_text(bytes(self.mended[i * WORD:i * WORD + TEXT]), TEXT, self.shown_lent, film.PANEL)
                if panel.answer:
                    refusals[i] = Refusal(panel.answer, words.REFUSED[panel.answer])
                texts[i] = bytes(self.shown[:panel.length]).rstrip()
        return {"panel": texts}
