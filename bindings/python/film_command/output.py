"""Where rows go: standard output, with the bar taken away before a row is written to the same terminal, and all items and refusals counted."""

import sys

from .progress import Progress
from .rows import Made


class Output:
    """Standard output."""

    def __init__(self, progress: Progress) -> None:
        self.progress = progress
        self.items = self.refused = 0
        self.is_terminal = sys.stdout.isatty()

    def write(self, made: Made) -> None:
        if self.is_terminal:
            self.progress.clear()
        sys.stdout.buffer.write(made.rows)
        sys.stdout.buffer.flush()
        self.items += made.items
        self.refused += made.refused
        self.progress.add(made.items, made.bytes)
