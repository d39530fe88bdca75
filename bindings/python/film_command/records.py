"""Records as they come from a source: handed over in tasks, and their rows written in order, in memory that does not grow with the file."""

from typing import Union

from .items import Reader
from .output import Output
from .rows import Rows
from .source import Source
from .workers import Here, Workers

# where there is more than so many tasks it is worth starting processes
FEW = 4


class Records:
    """The whole records of a source."""

    def __init__(self, source: Source, reader: Reader) -> None:
        self.source, self.reader = source, reader
        self.held = b""
        self.is_ended = False

    def take(self, waits: bool) -> bytes:
        """As many as a task has, or as are there now. None at the end; and, unless it waits, where none is there yet."""
        held, task = self.held, self.reader.task
        while not self.is_ended and len(held) < task and (self.source.is_ready() or waits and not self.reader.whole(held)):
            more = self.source.read(task - len(held))
            self.is_ended = not more
            held = held + more if held else more
        length = self.reader.whole(held)
        self.held = held[length:]
        return held[:length]


class Reading:
    """Records that are read from a source, up to its end."""

    def __init__(self, source: Source, rows: Rows, jobs: int, output: Output) -> None:
        self.rows, self.jobs, self.output = rows, jobs, output
        self.records = Records(source, rows.reader)
        self.handed, self.expected = 0, source.size or 0
        self.count = 0
        self.team: Union[Here, Workers] = Here(rows)

    def hand_over(self) -> None:
        """Hands tasks to whom is free, as far as records are there; where all are free it waits for some."""
        while self.team.is_free():
            task = self.records.take(waits=not self.team.is_busy())
            if not task:
                break
            self.team.hand(task, self.count)
            self.count += self.rows.reader.count(task)
            self.handed += len(task)

    def to_the_end(self) -> int:
        """Writes the rows of all records; gives how many bytes are left over after the last whole one."""
        try:
            while True:
                if self.jobs > 1 and isinstance(self.team, Here) and max(self.handed, self.expected) > FEW * self.rows.reader.task:
                    self.team = Workers(self.rows, self.jobs)
                self.hand_over()
                if not self.team.is_busy():
                    return len(self.records.held)
                for made in self.team.result():
                    self.output.write(made)
        finally:
            self.team.end()
