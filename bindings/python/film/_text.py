"""Text: from a text to the 50 text characters of a line, and back."""

from typing import NamedTuple

from ._kinds import CHARACTER, INPUT_LENGTH, LINE, TEXT_OF_LINE, VALUE_OVER, BytesLike, Number, as_bytes
from ._refusals import Refused
from ._structs import CHARACTERS, TEXT

# The kinds of text that are known.
PLAIN = 0
TEMPLATE = 1

# The longest text of a line: its text characters but the first, which is the kind.
LETTERS = TEXT - 1

# The letters that the characters 0 and 63 stand for, and those between them in the same order.
BLANK, LAST = " ", "_"

KIND = Number({VALUE_OVER: "kind {} came"}, CHARACTER)


class NoCharacter(ValueError):
    """The `character` at `place` of a text, places counted from 0, is no character of film."""

    place: int
    character: str

    def __init__(self, place: int, character: str) -> None:
        super().__init__(place, character)
        self.place = place
        self.character = character

    def __str__(self) -> str:
        capital = f"; {self.character.upper()!r} is one" if "a" <= self.character <= "z" else ""
        alphabet = "these are the ASCII characters from space to _, capitals, digits and signs"
        return f"{self.character!r} at place {self.place} is no character of film: {alphabet}{capital}"


class TooLong(ValueError):
    """A text is longer than a line has room for; `length` is how long."""

    length: int

    def __init__(self, length: int) -> None:
        super().__init__(length)
        self.length = length

    def __str__(self) -> str:
        return f"a text of {self.length} characters came, and a line has room for {LETTERS}"


class Note(NamedTuple):
    """The text of a line: its kind (PLAIN, TEMPLATE, or one that is not known), and its letters without the blanks at the end. They may be & < > " ' too: for
    a page take panel_text."""

    kind: int
    text: str


def characters_of(text: str, kind: int = PLAIN) -> bytes:
    """The 50 text characters of a line: the kind, and the text, filled with blanks. Each v of the 49 stands for the ASCII byte 32 + v, so a text has capitals,
    digits and signs: any other character raises NoCharacter, and a text of more than LETTERS raises TooLong.

    >>> line = film.encode_line(film.characters_of("HELLO, FILM"), 65)
    >>> film.text_of(line)
    Note(kind=0, text='HELLO, FILM')
    >>> film.characters_of("HELLo")
    Traceback (most recent call last):
    film.NoCharacter: 'o' at place 4 is no character of film: these are the ASCII characters from space to _, capitals, digits and signs; 'O' is one
    """
    if not isinstance(text, str):
        raise TypeError(f"a text is needed, not {type(text).__name__}")
    if KIND.taken(kind) > CHARACTER:
        raise Refused(VALUE_OVER, KIND.detail(VALUE_OVER, kind))
    for place, letter in enumerate(text[:LETTERS]):
        if not BLANK <= letter <= LAST:
            raise NoCharacter(place, letter)
    if len(text) > LETTERS:
        raise TooLong(len(text))
    return bytes([kind, *(ord(letter) - ord(BLANK) for letter in text.ljust(LETTERS, BLANK))])


def text_of(characters: BytesLike) -> Note:
    """The kind and the text of the 50 text characters of a line, or of a whole line of 63; blanks at the end are left out."""
    characters = as_bytes(characters)
    if len(characters) not in (TEXT, CHARACTERS):
        raise Refused(INPUT_LENGTH, TEXT_OF_LINE.detail(INPUT_LENGTH, characters))
    if max(characters) > CHARACTER:
        raise Refused(VALUE_OVER, LINE.detail(VALUE_OVER, characters))
    kind, *others = characters[:TEXT]
    return Note(kind, "".join(chr(ord(BLANK) + v) for v in others).rstrip(BLANK))
