"""An open tray: its bytes, the lines and sums that they hold, and its operations."""

from typing import Any, Iterable, List, Tuple, Type, TypeVar

from ._calls import ask
from ._kinds import BytesLike, as_bytes
from ._structs import TRAY, TRAY_LINES, Tray

A = TypeVar("A", bound="OpenTray")


class OpenTray:
    """A tray kept open: up to TRAY_LINES lines that are edited, each with its eleven power sums, marks off, beside it, and a count of those whose sums are not
    all 0. A line in a tray is any 63 characters; the count tells how many of them are no lines of the code, and no line is walked again for it. Every operation
    takes any tray whatever, one that from_bytes makes by hand too. Two trays are equal where all of their bytes are, the room that is free too.

    >>> line = film.encode_line(bytes(50), 65)
    >>> tray = film.OpenTray([line, line])
    >>> tray.replace(1, 20, 8)
    >>> tray.count(), tray
    (1, <OpenTray: 2 lines, count 1>)
    >>> tray.replace(1, 20, 0)
    >>> tray.lines[1] == line, tray.sums(1) == bytes(film.SUMS), tray.count()
    (True, True, 0)
    >>> tray.drop_last()
    >>> len(tray)
    1
    """

    def __init__(self, lines: Iterable[BytesLike] = ()) -> None:
        self._lent: Any = Tray()
        for line in lines:
            self.add(line)

    @classmethod
    def from_bytes(cls: Type[A], data: BytesLike) -> A:
        """The tray of these bytes: one that was kept in a file, or is made by hand."""
        data = as_bytes(data)
        if len(data) != TRAY:
            raise ValueError(f"a tray is {TRAY} bytes, not {len(data)}")
        tray = cls()
        tray._lent = Tray.from_buffer_copy(data)
        return tray

    def __bytes__(self) -> bytes:
        return bytes(self._lent)

    def __reduce__(self) -> Tuple[Any, Tuple[bytes]]:
        """What copying and unpickling make it of again."""
        return self.from_bytes, (bytes(self),)

    def __eq__(self, other: object) -> bool:
        if not isinstance(other, OpenTray):
            return NotImplemented
        return bytes(self) == bytes(other)

    def __repr__(self) -> str:
        return f"<{type(self).__name__}: {self._lent.held} lines, count {self._lent.count}>"

    def __len__(self) -> int:
        """How many lines are held: 64 where a tray that is made by hand claims more."""
        return min(int(self._lent.held), TRAY_LINES)

    @property
    def lines(self) -> List[bytes]:
        """The characters of each line that is held."""
        return [bytes(line.characters) for line in self._lent.lines[: len(self)]]

    def sums(self, i: int) -> bytes:
        """The power sums of line `i`, S_-5 first; an IndexError where it is not held."""
        if not 0 <= i < len(self):
            raise IndexError("no such line is held")
        return bytes(self._lent.lines[i].sums)

    def add(self, line: BytesLike) -> None:
        """Adds 63 characters as the last line."""
        ask("tray_add", self._lent, line)

    def replace(self, line: int, address: int, character: int) -> None:
        """Replaces one character of a line, lines counted from 0, and adds the share of the change to the sums of that line."""
        ask("tray_replace", self._lent, line, address, character)

    def drop_last(self) -> None:
        """Drops the last line. The bytes of its room stay, and the next line added is written over them."""
        ask("tray_drop", self._lent)

    def count(self) -> int:
        """How many lines of the tray are no lines of the code."""
        return int(ask("tray_count", self._lent).count)
