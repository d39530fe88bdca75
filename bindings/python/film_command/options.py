"""The words of the command line: what each subcommand takes, and its help."""

import argparse
import os
import re
from typing import Callable, NamedTuple, Optional, Sequence

LAST_RADIUS = 5
LAST_NUMBER = 4095
LAST_KIND = 63
MOST_JOBS = 256

HEAD = "Reads film, mends it and prints its text; makes film from text."
MORE = """\
A line or ring of film is 63 characters, each a byte from 0 to 63. A tray is a
file of lines, rings and blocks.

The exit status is 0; 1 where something was refused, or bytes were missing or
left over; 2 where the command was used badly, or there is no library."""

READ = "Prints each line, ring and block of a file, mended, or why it is refused."
HOW_READ = """\
Without --as a file that is a whole tray, to the last byte, is a tray; one that
is none, and whose length is a multiple of 63, is lines. Where it is both, or
neither, nothing is read. What is longer than 97,414 bytes is no tray.

    film read samples/notes.tray
    film read --as lines --radius 2 --wanted 7+ scans"""

PANEL = "Prints each line and ring of a file as panel text, which is harmless on a page."
HOW_SHOWN = """\
The file is read as film read reads it; a template, and text of a kind that is
not known, are refused. Blocks have no text, and are printed as by film read."""

ENCODE = "Makes a line of 63 bytes from each text."
HOW_ENCODED = """\
Film has 64 characters, from space to _ of ASCII: capitals, digits and signs.
A line has room for 49. With no TEXT each line of standard input is one, in
UTF-8. Where a TEXT does not fit nothing is written; of standard input the
lines before the first that does not fit are written.

    film encode --number 7 --output scans 'ITEM 4711: GLASS' 'ITEM 4712: PRINT'"""

EXPLAIN = "Shows every start at which a ring fits, and which is the true one."
HOW_EXPLAINED = """\
Without --as a file that is a whole tray is a tray, one whose length is a
multiple of 63 is rings, and one of 63 bytes is a ring."""


class Wanted(NamedTuple):
    """The number that the first line must carry, and how much more the next one's is: 0 or 1."""

    number: int
    step: int


def number_to(last: int, first: int = 0) -> Callable[[str], int]:
    """Takes a number up to the last one."""

    def number(word: str) -> int:
        if not re.fullmatch("[0-9]{1,9}", word) or not first <= int(word) <= last:
            raise argparse.ArgumentTypeError(f"a number from {first} to {last} is taken, and not '{word}'")
        return int(word)

    return number


def wanted(word: str) -> Wanted:
    return Wanted(number_to(LAST_NUMBER)(word[:-1] if word.endswith("+") else word), int(word.endswith("+")))


class Parser(argparse.ArgumentParser):
    """Takes whole words alone; its help begins with what the command does, and what it refuses is told in one line."""

    def __init__(self, **named) -> None:
        super().__init__(formatter_class=argparse.RawDescriptionHelpFormatter, allow_abbrev=False, **named)

    def format_help(self) -> str:
        head, self.description = self.description, None
        try:
            return f"{head}\n\n{super().format_help()}"
        finally:
            self.description = head

    def error(self, message: str) -> None:
        self.exit(2, f"{self.prog}: {message}; {self.prog} --help says what is taken\n")


class Version(argparse.Action):
    """Prints the command's version and, where the library loads, its own."""

    def __init__(self, **named) -> None:
        super().__init__(nargs=0, **named)

    def __call__(self, parser, namespace, values, option_string=None) -> None:
        from .version import versions

        print(versions())
        parser.exit()


# ---- what each subcommand calls; it is imported where it is called, since help and refused words need no library


def _read(options: argparse.Namespace) -> int:
    from .read import read

    return read(options)


def _encode(options: argparse.Namespace) -> int:
    from .encode import encode

    return encode(options)


def _explain(options: argparse.Namespace) -> int:
    from .explain import explain

    return explain(options)


# ---- the subcommands


def add_file(parser: Parser, formats: Sequence[str], help: str) -> None:
    parser.add_argument("file", nargs="?", metavar="FILE", default="-", help="a path; - or nothing is standard input")
    parser.add_argument("--as", dest="format", choices=formats, help=help)


def add_reading(parser: Parser) -> None:
    """What reading and panel text take."""
    add_file(parser, ("tray", "lines", "rings", "blocks"), "what FILE is; a line or ring is 63 bytes, a block a byte for its row count, and the rows")
    radius = number_to(LAST_RADIUS)
    parser.add_argument("--radius", type=radius, metavar="R", help="of lines, 0 to 5 (default: that of the tray; of records 5)")
    parser.add_argument("--ring-radius", type=radius, metavar="R", help="of rings, 0 to 5 (default: that of the tray; of records 1)")
    parser.add_argument("--json", action="store_true", help="one JSON object a row")
    parser.add_argument("--jobs", type=number_to(MOST_JOBS, 1), metavar="N", default=len(os.sched_getaffinity(0)),
                        help="how many processes read (default: one for each core)")


def add_read(parser: Parser) -> None:
    add_reading(parser)
    parser.add_argument("--wanted", type=wanted, metavar="N|N+", help="the number that each line must carry; N+: the first N, the next N + 1, and so on")
    parser.set_defaults(run=_read, panel=False)


def add_panel(parser: Parser) -> None:
    add_reading(parser)
    parser.set_defaults(run=_read, panel=True, wanted=None)


def add_encode(parser: Parser) -> None:
    parser.add_argument("texts", nargs="*", metavar="TEXT")
    parser.add_argument("--number", type=number_to(LAST_NUMBER), metavar="N", default=0, help="of the first line; the next has N + 1 (default: 0)")
    parser.add_argument("--kind", type=number_to(LAST_KIND), metavar="K", default=0, help="of each text: 0 plain, 1 template (default: 0)")
    parser.add_argument("--output", metavar="FILE", default="-", help="where the lines go (default: standard output, if that is no terminal)")
    parser.set_defaults(run=_encode)


def add_explain(parser: Parser) -> None:
    add_file(parser, ("tray", "rings"), "what FILE is; a ring is 63 bytes")
    parser.add_argument("--item", type=number_to(10**9 - 1), metavar="I", help="which ring, counted from 0 (default: 0)")
    parser.add_argument("--radius", type=number_to(LAST_RADIUS), metavar="R", help="0 to 5 (default: that of the tray; of records 5)")
    parser.add_argument("--svg", metavar="FILE", help="draws the ring and its starts")
    parser.add_argument("--json", action="store_true", help="one JSON object")
    parser.set_defaults(run=_explain)


def parsed(words: Optional[Sequence[str]]) -> argparse.Namespace:
    """The words taken apart; those of the command line where none are given. Help, the version and refused words end here."""
    parser = Parser(prog="film", description=HEAD, epilog=MORE)
    parser.add_argument("--version", action=Version, help="print the version, and the library's")
    commands = parser.add_subparsers(dest="command", metavar="COMMAND", required=True, parser_class=Parser)
    for name, head, more, add in (("read", READ, HOW_READ, add_read), ("panel", PANEL, HOW_SHOWN, add_panel), ("encode", ENCODE, HOW_ENCODED, add_encode),
                                  ("explain", EXPLAIN, HOW_EXPLAINED, add_explain)):
        add(commands.add_parser(name, help=head, description=head, epilog=more))
    return parser.parse_args(words)
