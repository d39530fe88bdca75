"""What a file is, of which nobody says it: a tray or records of 63 bytes, where it can be one of them alone."""

from .source import Source
from .status import BadUse
from .tray import LONGEST, WORD, tray_of
from .words import counted


def left_over(count: int, after: str) -> str:
    return f"{counted(count, 'byte')} {'is' if count == 1 else 'are'} left over after {after}"


def format_of(source: Source, records: str) -> str:
    """What a file is: a tray, or these records, lines or rings. One that is both, or neither, is not guessed at."""
    start = source.look(LONGEST + 1)
    if len(start) > LONGEST:
        return records
    if not start:
        raise BadUse(f"the file is empty, and so neither a tray nor {records}: say --as")
    tray = tray_of(start)
    is_tray, is_records = not tray.stops and tray.taken == len(start), len(start) % WORD == 0
    if is_tray and is_records:
        raise BadUse(f"the file is a whole tray, and also {counted(len(start) // WORD, 'record')} of {WORD} bytes: say --as tray or --as {records}")
    if not is_tray and not is_records:
        no_tray = tray.stops or left_over(len(start) - tray.taken, "the tray")
        raise BadUse(f"the file is no whole tray ({no_tray}), and no {records} (its {len(start):,} bytes are no multiple of {WORD}): say --as")
    return "tray" if is_tray else records
