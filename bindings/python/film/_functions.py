"""The library's functions as include/film.h declares them: what each is handed, kind by kind, what it gives, and how long its output is."""

from typing import Any, NamedTuple, Optional, Tuple

from . import _kinds as kinds, _structs as structs
from ._structs import CHARACTERS, PANEL, SHEET, SMUDGE, STARTS, u8


class Room(NamedTuple):
    """How long an output is: so many bytes, and, where `along` is set, as many more as the input has; where `or_more` is, these or more."""

    fixed: int
    along: bool = False
    or_more: bool = False

    def due(self, given: bytes) -> int:
        return self.fixed + self.along * len(given)

    def said(self, given: bytes) -> str:
        return f"{self.due(given)} or more" if self.or_more else str(self.due(given))


class Function(NamedTuple):
    """What a function is handed, the type of what it gives, and its output, if it has one."""

    takes: Tuple[kinds.Kind, ...]
    gives: Any
    room: Optional[Room] = None


_LINE_OUT, _PANEL_OUT = Room(CHARACTERS), Room(PANEL, or_more=True)

FUNCTIONS = {
    "sum": Function((kinds.OPERAND, kinds.OPERAND), structs.Element),
    "product": Function((kinds.OPERAND, kinds.OPERAND), structs.Element),
    "quotient": Function((kinds.OPERAND, kinds.OPERAND), structs.Element),
    "encode_line": Function((kinds.TEXT_OF_LINE, kinds.NUMBER), u8, _LINE_OUT),
    "step": Function((kinds.REGISTER, kinds.ONE_CHARACTER), structs.Stepped),
    "checks": Function((kinds.REGISTER,), structs.Checked),
    "read_line": Function((kinds.LINE, kinds.RADIUS), structs.Line, _LINE_OUT),
    "read_line_wanted": Function((kinds.LINE, kinds.RADIUS, kinds.WANTED), structs.Line, _LINE_OUT),
    "read_line_paper": Function((kinds.LINE, kinds.RADIUS), structs.Line, _LINE_OUT),
    "read_line_paper_wanted": Function((kinds.LINE, kinds.RADIUS, kinds.WANTED), structs.Line, _LINE_OUT),
    "read_blotted": Function((kinds.LINE, kinds.MAP), structs.Line, _LINE_OUT),
    "read_spool": Function((kinds.LINES, kinds.RADIUS), structs.Spool, Room(0, along=True)),
    "read_sheet": Function((kinds.WHOLE_SHEET,), structs.Sheet, Room(SHEET)),
    "encode_sheet": Function((kinds.SHEET_TEXTS, kinds.SHEET_NUMBERS), u8, Room(SHEET)),
    "tray_add": Function((kinds.TRAY, kinds.LINE), u8),
    "tray_replace": Function((kinds.TRAY, kinds.LINE_OF_TRAY, kinds.ADDRESS, kinds.ONE_CHARACTER), u8),
    "tray_drop": Function((kinds.TRAY,), u8),
    "tray_count": Function((kinds.TRAY,), structs.Count),
    "better_scan": Function((kinds.LINE, kinds.LINE, kinds.RADIUS), structs.Choice),
    "scan_clarity": Function((kinds.CELLS_OF_SCAN, kinds.THRESHOLD), structs.Scan),
    "spool_clarity": Function((kinds.CELLS_OF_SCANS, kinds.THRESHOLD), structs.Clarities),
    "list_ring": Function((kinds.RING, kinds.RADIUS), structs.List, Room(STARTS)),
    "read_ring": Function((kinds.RING, kinds.RADIUS), structs.Ring, _LINE_OUT),
    "panel_text": Function((kinds.TEXT_OF_LINE,), structs.Panel, _PANEL_OUT),
    "panel_ring": Function((kinds.RING, kinds.RADIUS), structs.Panel, _PANEL_OUT),
    "encode_block": Function((kinds.DATA_ROWS,), u8, Room(1, along=True)),
    "read_block": Function((kinds.ROWS,), structs.Block, Room(0, along=True)),
    "encode_smudge": Function((kinds.DATA_ROWS,), u8, Room(SMUDGE)),
    "read_smudge": Function((kinds.ROWS,), structs.Block, Room(SMUDGE)),
}
