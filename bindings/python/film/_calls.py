"""Calls of the library: what is handed over is lent, what is written is given back, and a refusal is raised with what is known of its reason."""

import pathlib
from typing import Any, List, Optional, Sequence, Tuple

from ._functions import FUNCTIONS
from ._kinds import OUTPUT_LENGTH, counted
from ._loading import load, shared_library
from ._refusals import ImproperSheet, Refused
from ._structs import u8

library = load(shared_library(pathlib.Path(__file__).resolve().parent))
_LOADED = {name: (declared, getattr(library, f"film_{name}")) for name, declared in FUNCTIONS.items()}


def version() -> int:
    """The version of the library that was loaded: a million times the major number, a thousand times the minor, and the patch."""
    return int(library.film_version())


def detail(name: str, refusal: int, taken: Sequence[Any], out: Optional[bytearray] = None) -> str:
    """What is known of why a function refused: what the output tells, or else the first thing handed over that tells anything."""
    function = FUNCTIONS[name]
    if refusal == OUTPUT_LENGTH and function.room and out is not None:
        return f"an output of {counted(len(out), 'byte')} came, {function.room.said(taken[0])} are wanted"
    return next(filter(None, (kind.detail(refusal, one) for kind, one in zip(function.takes, taken))), "")


def write(name: str, *given: Any, out: Optional[bytearray] = None) -> Tuple[Any, bytes]:
    """What a function answers, and what it writes: to the output that is handed in, or to a new one of the length that is due."""
    declared, function = _LOADED[name]
    taken: List[Any] = []
    lent: List[Any] = []
    for kind, one in zip(declared.takes, given):
        one = kind.taken(one)
        taken.append(one)
        lent += kind.lent(one)
    if declared.room:
        if out is None:
            out = bytearray(declared.room.due(taken[0]))
        lent += (u8 * len(out)).from_buffer(out), len(out)
    result = function(*lent)
    written = bytes(out or b"")
    answer = result if isinstance(result, int) else result.answer
    if answer == ImproperSheet.NUMBER:
        raise ImproperSheet(written, result.rounds)
    if answer:
        raise Refused(answer, detail(name, answer, taken, out))
    return result, written


def ask(name: str, *given: Any) -> Any:
    """What a function that writes nothing answers."""
    return write(name, *given)[0]
