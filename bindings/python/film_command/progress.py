"""The bar that shows how far a long reading is, on standard error, where that is a terminal."""

import os
import sys
import time
from typing import Optional

# no bar for so many records or fewer; how often it is drawn, in seconds; how wide it is, with room for the numbers beside it
FEW, EVERY, WIDTH = 1000, 0.1, 30
CLEAR = "\r\x1b[K"


class Progress:
    """How many records and bytes are done. `size` is how many bytes there are, where that is known."""

    def __init__(self, size: Optional[int]) -> None:
        self.size = size
        self.records = self.bytes = 0
        self.begun = time.monotonic()
        self.drawn = self.begun - EVERY
        self.is_wanted, self.is_shown = sys.stderr.isatty(), False

    def add(self, records: int, size: int) -> None:
        """Draws the bar, where it is time to."""
        self.records += records
        self.bytes += size
        now = time.monotonic()
        if self.is_wanted and self.records > FEW and now - self.drawn >= EVERY:
            self.drawn, self.is_shown = now, True
            sys.stderr.write(CLEAR + self.bar(now - self.begun)[:self.columns() - 1])
            sys.stderr.flush()

    def clear(self) -> None:
        """Takes the bar away, so that something else can be written."""
        if self.is_shown:
            self.is_shown = False
            sys.stderr.write(CLEAR)
            sys.stderr.flush()

    def bar(self, seconds: float) -> str:
        done = f"{self.records:,} records, {self.records / seconds if seconds else 0:,.0f} a second"
        if not self.size:
            return done
        share = min(self.bytes / self.size, 1)
        filled = int(share * WIDTH)
        return f"[{'#' * filled}{'.' * (WIDTH - filled)}] {share:4.0%}  {done}"

    @staticmethod
    def columns() -> int:
        try:
            return os.get_terminal_size(sys.stderr.fileno()).columns or 80
        except OSError:
            return 80
