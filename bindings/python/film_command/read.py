"""The subcommands read and panel: what a file is, and the rows of all that it holds."""

import argparse
from typing import Optional

from .blocks import Blocks
from .formats import format_of, left_over
from .items import Reader
from .lines import Lines
from .output import Output
from .progress import Progress
from .records import Reading
from .rings import Rings
from .rows import JSON, TEXT, Rows
from .source import Source
from .status import DONE, REFUSED, BadUse
from .tray import LONGEST, tray_of
from .words import counted, say

LINE_RADIUS, RING_RADIUS = 5, 1


def check_words(options: argparse.Namespace) -> None:
    """An option that has no meaning for what the file is said to be is not left unused."""
    for given, name, formats in ((options.radius, "--radius", ("tray", "lines")), (options.ring_radius, "--ring-radius", ("tray", "rings")),
                                 (options.wanted, "--wanted", ("tray", "lines"))):
        if given is not None and options.format not in (None, *formats):
            raise BadUse(f"{name} has no meaning for {options.format}")


def reader_of(format: str, options: argparse.Namespace, own: Optional[int] = None) -> Reader:
    """Who reads these records, with the radius that is asked for, or else the tray's own, or else the usual one."""
    def radius(asked: Optional[int], usual: int) -> int:
        return next(radius for radius in (asked, own, usual) if radius is not None)

    if format == "lines":
        return Lines(radius(options.radius, LINE_RADIUS), options.wanted, options.panel)
    if format == "rings":
        return Rings(radius(options.ring_radius, RING_RADIUS), options.panel)
    return Blocks()


def rows_of(format: str, options: argparse.Namespace, own: Optional[int] = None) -> Rows:
    return Rows(reader_of(format, options, own), JSON if options.json else TEXT, options.panel)


def read_tray(source: Source, options: argparse.Namespace, output: Output) -> str:
    """Writes the rows of a tray; gives in words where it stops early, or how much is left over."""
    start = source.look(LONGEST)
    tray = tray_of(start)
    sections = {"lines": tray.lines, "rings": tray.rings, "blocks": [bytes([len(rows)]) + rows for rows in tray.blocks]}
    for format, items in sections.items():
        for made in rows_of(format, options, tray.radius).made(b"".join(items), 0):
            output.write(made)
    more = source.rest() - tray.taken
    return tray.stops or (left_over(more, "the tray") if more else "")


def read_records(source: Source, format: str, options: argparse.Namespace, output: Output) -> str:
    """Writes the rows of raw records; gives in words how much is left over."""
    rows = rows_of(format, options)
    more = Reading(source, rows, options.jobs, output).to_the_end()
    return left_over(more, f"the last whole {rows.reader.item}") if more else ""


def read(options: argparse.Namespace) -> int:
    check_words(options)
    source = Source(options.file)
    format = options.format or format_of(source, "lines")
    progress = Progress(source.size)
    output = Output(progress)
    try:
        amiss = read_tray(source, options, output) if format == "tray" else read_records(source, format, options, output)
    finally:
        progress.clear()
    if amiss:
        say(amiss)
    if output.refused:
        say(f"{counted(output.items, 'item')}, {output.refused:,} refused")
    return REFUSED if amiss or output.refused else DONE
