"""The bytes that the command reads: a file or standard input. What was looked at first is read again after that."""

import os
import select
import stat
from typing import Optional

# the name of standard input, and of standard output
STANDARD = "-"
_PIECE = 1 << 16


class Source:
    """A file that is open for reading. `size` is how many bytes it has from here on, where that is known."""

    def __init__(self, name: str) -> None:
        self.name = "standard input" if name == STANDARD else name
        self._file = 0 if name == STANDARD else os.open(name, os.O_RDONLY)
        self._looked_at = b""
        about = os.fstat(self._file)
        self._is_regular = stat.S_ISREG(about.st_mode)
        self.size: Optional[int] = max(0, about.st_size - os.lseek(self._file, 0, os.SEEK_CUR)) if self._is_regular else None

    def is_ready(self) -> bool:
        """Whether reading does not wait: bytes are there, or the end is."""
        return bool(self._is_regular or self._looked_at or select.select([self._file], [], [], 0)[0])

    def read(self, most: int) -> bytes:
        """Bytes, as they come, up to so many; none at the end."""
        if self._looked_at:
            taken, self._looked_at = self._looked_at[:most], self._looked_at[most:]
            return taken
        try:
            return os.read(self._file, most)
        except OSError as why:
            why.filename = self.name
            raise

    def look(self, most: int) -> bytes:
        """The next bytes, so many or all that there are, to be read again."""
        looked_at = bytearray()
        while len(looked_at) < most:
            more = self.read(most - len(looked_at))
            if not more:
                break
            looked_at += more
        self._looked_at = bytes(looked_at) + self._looked_at
        return bytes(looked_at)

    def rest(self) -> int:
        """Reads to the end, and counts."""
        count = more = len(self.read(_PIECE))
        while more:
            more = len(self.read(_PIECE))
            count += more
        return count
