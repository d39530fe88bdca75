"""What is said in words: the refusals that lines, rings and blocks can meet, as an operator is told them, by the command's rows and by the panel's page."""

import sys

VALUE_OVER, RADIUS_OVER, OTHER_NUMBER, ROW_COUNT, MANY_STARTS = 2, 3, 7, 8, 10

REFUSED = {
    VALUE_OVER: "a byte is over 63, and is no character of film",
    RADIUS_OVER: "the radius is over 5",
    6: "no line lies within the radius",
    OTHER_NUMBER: "the line carries another number than the wanted one",
    ROW_COUNT: "a block has 2 to 64 rows",
    9: "no proper block lies within one bit",
    MANY_STARTS: "the ring fits at {starts}, and none is picked",
    14: "it is a template, which is never shown",
    15: "it is of a kind that is not known here",
}


def say(words: str) -> None:
    """Tells, on standard error."""
    print(f"film: {words}", file=sys.stderr)


def counted(count: int, one: str) -> str:
    return f"{count:,} {one}{'' if count == 1 else 's'}"


# ---- refusals of which more is known than their number


def over(place: str, characters: bytes) -> str:
    """The first byte that is over 63, and where it stands: `place` is what is counted, an address of a line or a place of a ring."""
    at, value = next((at, value) for at, value in enumerate(characters) if value > 63)
    return f"{REFUSED[VALUE_OVER]}: {place} {at} holds {value}"


def radius_over(radius: int) -> str:
    return f"{REFUSED[RADIUS_OVER]}: it is {radius}"


def other_number(number: int, wanted: int) -> str:
    return f"{REFUSED[OTHER_NUMBER]}: {number}, and {wanted} is wanted"


def row_count(count: int) -> str:
    return f"{REFUSED[ROW_COUNT]}: this one has {count}"


def many_starts(count: int) -> str:
    return f"{REFUSED[MANY_STARTS].format(starts=counted(count, 'start'))}; film explain shows them"
