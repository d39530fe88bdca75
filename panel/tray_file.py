"""A tray file taken apart, as the command film does it; but what is not a whole tray, to the last byte, is refused."""

import reading  # puts the packages on the path
from film_command.tray import LONGEST, Tray, tray_of as begun


class NoTray(Exception):
    """Why the bytes are no tray: words and numbers of ours, and nothing of the file."""


def tray_of(file: bytes) -> Tray:
    """The tray that a file is."""
    tray = begun(file)
    if tray.stops:
        raise NoTray(f"{tray.stops[0].upper()}{tray.stops[1:]}.")
    if tray.taken < len(file):
        raise NoTray(f"The tray ends after {tray.taken} bytes, and the file has {len(file) - tray.taken} more.")
    return tray
