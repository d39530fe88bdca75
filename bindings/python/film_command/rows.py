"""The rows that are printed, one for each item, as text or as JSON: those of many items are made at once, and those of refused ones put in their places."""

import json
from typing import Any, Callable, Dict, Iterable, Iterator, List, NamedTuple, Sequence

from .items import Items, Reader, Refusal

KINDS = [b"", b", template", *(b", kind %d" % kind for kind in range(2, 64))]
NOWHERE = 63
ADDRESSES = [*(b"%d" % address for address in range(NOWHERE)), b"null"]

# what a row tells of an item, in order
COLUMNS = {
    "line": ["number", "distance", "first", "last"],
    "ring": ["start", "number", "distance", "first", "last"],
    "block": ["distance", "rows"],
}


# ---- a column as it stands in rows


def as_it_is(column: Sequence[Any]) -> Sequence[Any]:
    return column


def kinds(column: Sequence[int]) -> List[bytes]:
    """Nothing for plain text, and words for any other."""
    return [KINDS[kind] for kind in column]


def addresses(column: Sequence[int]) -> List[bytes]:
    """Addresses in JSON, where nothing was changed null."""
    return [ADDRESSES[address] for address in column]


def quoted(column: Sequence[bytes]) -> List[bytes]:
    """What stands within quotes in JSON. Texts have no character that needs more than this, and no newline."""
    return b"\n".join(column).replace(b"\\", b"\\\\").replace(b'"', b'\\"').split(b"\n")


def spaced(column: Sequence[bytes]) -> List[bytes]:
    return [" ".join(map(str, numbers)).encode("ascii") for numbers in column]


def listed(column: Sequence[bytes]) -> List[bytes]:
    return [str(list(numbers)).encode("ascii") for numbers in column]


# ---- the two styles


class Slot(NamedTuple):
    """How a column stands in a row."""

    words: str
    column: Callable[[Sequence[Any]], Iterable[Any]] = as_it_is


class Style(NamedTuple):
    """How a row begins, given the item's name, and ends; the slots of the columns that it has; and how a refusal is written."""

    begins: str
    slots: Dict[str, Slot]
    ends: str
    refused: Callable[[str, int, Refusal], str]


def refused_text(item: str, index: int, refusal: Refusal) -> str:
    return f"{item} {index}: refused ({refusal.number}): {refusal.words}"


def refused_json(item: str, index: int, refusal: Refusal) -> str:
    starts = {"starts": list(refusal.starts)} if refusal.starts else {}
    return json.dumps({"item": item, "index": index, "answer": refusal.number, "refused": refusal.words, **starts})


TEXT = Style("{item} %d: ", {
    "start": Slot("start %d, "),
    "number": Slot("number %d, "),
    "distance": Slot("distance %d"),
    "kind": Slot("%b", kinds),
    "text": Slot(": %b"),
    "panel": Slot(": %b"),
    "rows": Slot(": %b", spaced),
}, "\n", refused_text)

JSON = Style('{{"item": "{item}", "index": %d, "answer": 0', {
    "start": Slot(', "start": %d'),
    "number": Slot(', "number": %d'),
    "distance": Slot(', "distance": %d'),
    "first": Slot(', "first": %b', addresses),
    "last": Slot(', "last": %b', addresses),
    "kind": Slot(', "kind": %d'),
    "text": Slot(', "text": "%b"', quoted),
    "panel": Slot(', "panel": "%b"', quoted),
    "rows": Slot(', "rows": %b', listed),
}, "}\n", refused_json)


# ---- making them


class Made(NamedTuple):
    """Rows, and of what: how many items, how many of them refused, and how many bytes."""

    rows: bytes
    items: int
    refused: int
    bytes: int


class Rows:
    """Makes the rows of records: reads them, and writes what was read in a style."""

    def __init__(self, reader: Reader, style: Style, panel: bool) -> None:
        self.reader, self.style = reader, style
        names = COLUMNS[reader.item] + ([] if reader.item == "block" else ["panel"] if panel else ["kind", "text"])
        self.slots = {name: style.slots[name] for name in names if name in style.slots}
        self.template = (style.begins.format(item=reader.item) + "".join(slot.words for slot in self.slots.values()) + style.ends).encode("ascii")

    def made(self, records: bytes, first: int) -> Iterator[Made]:
        """The rows of whole records, part by part; `first` is how many came before."""
        for part in self.reader.parts(records):
            items = self.reader.read(part, first)
            yield Made(self.rows(items, first), items.count, len(items.refusals), len(part))
            first += items.count

    def rows(self, items: Items, first: int) -> bytes:
        """All rows by one template, and then those of refused items anew."""
        columns = [range(first, first + items.count), *(slot.column(items.columns[name]) for name, slot in self.slots.items())]
        fields: List[Any] = [None] * (items.count * len(columns))
        for at, column in enumerate(columns):
            fields[at::len(columns)] = column
        made = self.template * items.count % tuple(fields)
        if not items.refusals:
            return made
        rows = made.split(b"\n")
        for i, refusal in items.refusals.items():
            rows[i] = self.style.refused(self.reader.item, first + i, refusal).encode("ascii")
        return b"\n".join(rows)
