"""The command `film`, over the package `film`: reads film and prints its text, makes film from text, writes panel text, and shows why a ring is refused."""

import os
import sys
from typing import Optional, Sequence

from .status import BAD_USE, CLOSED, INTERRUPTED, BadUse
from .words import say


def _leave_unwritten() -> None:
    """What is still to be written goes nowhere, where writing has failed: it would fail again when Python ends."""
    try:
        sys.stdout.flush()
    except OSError:
        os.dup2(os.open(os.devnull, os.O_WRONLY), sys.stdout.fileno())


def main(words: Optional[Sequence[str]] = None) -> int:
    """Runs the command with these words, or those of the command line, and gives its exit status."""
    try:
        # imported here, since others import parts of this package alone
        from .options import parsed

        options = parsed(words)
        status = options.run(options)
        sys.stdout.flush()
        return status
    except BrokenPipeError:
        _leave_unwritten()
        return CLOSED
    except (BadUse, ImportError) as why:
        # the package `film` cannot be imported where there is no library, and says so
        say(str(why))
    except OSError as why:
        say(f"{why.filename}: {why.strerror}" if why.filename else str(why.strerror))
        _leave_unwritten()
    except KeyboardInterrupt:
        return INTERRUPTED
    return BAD_USE
