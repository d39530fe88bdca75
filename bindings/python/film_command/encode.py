"""The subcommand encode: from texts to lines, 63 bytes each, one after the other."""

import argparse
import contextlib
import sys
from typing import BinaryIO, ContextManager, Iterator, List

import film

from .options import LAST_NUMBER
from .source import STANDARD, Source
from .status import DONE, REFUSED, BadUse
from .words import say

PIECE = 1 << 16
# more bytes of UTF-8 than a text that fits can have
LONGEST = 4 * film.LETTERS


class Unfit(Exception):
    """Why a text does not fit on a line."""


def text_of(raw: bytes) -> str:
    if len(raw) > LONGEST:
        raise Unfit(f"it has more than {film.LETTERS} characters")
    try:
        return raw.decode("utf-8")
    except UnicodeDecodeError as why:
        raise Unfit(f"byte {raw[why.start]} at place {why.start} is no UTF-8") from None


def line_of(text: str, kind: int, number: int) -> bytes:
    if number > LAST_NUMBER:
        raise Unfit(f"its number would be {number}, and {LAST_NUMBER} is the last")
    try:
        return film.encode_line(film.characters_of(text, kind), number)
    except (film.NoCharacter, film.TooLong) as why:
        raise Unfit(str(why)) from None


def encode_texts(options: argparse.Namespace) -> int:
    """Encodes the texts of the command line, and writes them where every one fits."""
    lines, unfit = [], 0
    for i, text in enumerate(options.texts):
        try:
            lines.append(line_of(text, options.kind, options.number + i))
        except Unfit as why:
            say(f"text {i + 1} does not fit: {why}")
            unfit += 1
    if unfit:
        return REFUSED
    with opened(options) as output:
        output.write(b"".join(lines))
    return DONE


def pieces(source: Source) -> Iterator[List[bytes]]:
    """The lines of a file, without their newlines, as they come; of one that is too long the beginning may be the last."""
    held, is_ended = b"", False
    while not is_ended:
        more = source.read(PIECE)
        *whole, held = (held + more).split(b"\n")
        is_ended = not more or len(held) > LONGEST
        yield [*whole, held] if is_ended and held else whole


def encode_input(options: argparse.Namespace) -> int:
    """Encodes the lines of standard input, and writes those that come before the first that does not fit."""
    count = 0
    with opened(options) as output:
        for texts in pieces(Source(STANDARD)):
            lines = bytearray()
            try:
                for text in texts:
                    lines += line_of(text_of(text), options.kind, options.number + count)
                    count += 1
            except Unfit as why:
                say(f"line {count + 1} of the input does not fit: {why}")
                return REFUSED
            finally:
                output.write(lines)
                output.flush()
    return DONE


def opened(options: argparse.Namespace) -> ContextManager[BinaryIO]:
    """Where the lines are written."""
    if options.output != STANDARD:
        return open(options.output, "wb")
    return contextlib.nullcontext(sys.stdout.buffer)


def encode(options: argparse.Namespace) -> int:
    if options.output == STANDARD and sys.stdout.isatty():
        raise BadUse("lines are bytes, and not for a terminal: say --output FILE, or lead them into a file or a program")
    return encode_texts(options) if options.texts else encode_input(options)
