"""The structs that the library takes and gives, as include/film.h declares them, and its counts and lengths."""

import ctypes

u8 = ctypes.c_uint8
u16 = ctypes.c_uint16

# In the place of an address: nothing was changed.
NOWHERE = 63

# The characters of a line and of its text, and the most starts of a ring.
CHARACTERS = 63
TEXT = 50
STARTS = 126

# The most lines of a spool, and the most bytes.
PLACES = 255
SPOOL = CHARACTERS * PLACES

# The bytes of a sheet and those of its texts, how many of its lines have numbers of their own, and the most rounds of reading it.
SHEET = 3969
TEXTS = 2600
NUMBERS = 52
ROUNDS = 8

# The most lines that an open tray holds, and the power sums of each.
TRAY_LINES = 64
SUMS = 11

# The brightnesses of a scan, one for each cell of a line, and the most bytes of a spool of such scans.
CELLS = 378
SCANS = CELLS * PLACES

# The kind of a scan that has a ratio; there is one other, of a scan with no spread.
RATIO = 0

# The least output of panel text, and the longest text for a panel.
PANEL = 294

# The characters of a register, and the checks.
CHECKS = 11

# The bytes of a block that outlasts a smudge.
SMUDGE = 8


class Element(ctypes.Structure):
    _fields_ = [("answer", u8), ("value", u8)]


class Line(ctypes.Structure):
    _fields_ = [("answer", u8), ("distance", u8), ("number", u16), ("first", u8), ("last", u8)]


class Spool(ctypes.Structure):
    _fields_ = [("places", Line * PLACES), ("answer", u8)]


class Sheet(ctypes.Structure):
    _fields_ = [("answer", u8), ("rounds", u8)]


class TrayLine(ctypes.Structure):
    _fields_ = [("characters", u8 * CHARACTERS), ("sums", u8 * SUMS)]


class Tray(ctypes.Structure):
    _fields_ = [("lines", TrayLine * TRAY_LINES), ("held", u8), ("count", u8)]


class Count(ctypes.Structure):
    _fields_ = [("answer", u8), ("count", u8)]


class Choice(ctypes.Structure):
    _fields_ = [("answer", u8), ("scan", u8)]


class Scan(ctypes.Structure):
    _fields_ = [("answer", u8), ("kind", u8), ("ratio", ctypes.c_double), ("dark", ctypes.c_double), ("bright", ctypes.c_double)]


class Clarities(ctypes.Structure):
    _fields_ = [("answer", u8), ("ratios", u8), ("no_spreads", u8), ("refusals", u8)]


class List(ctypes.Structure):
    _fields_ = [("answer", u8), ("count", u8)]


class Ring(ctypes.Structure):
    _fields_ = [("answer", u8), ("start", u8), ("distance", u8), ("number", u16), ("first", u8), ("last", u8)]


class Panel(ctypes.Structure):
    _fields_ = [("answer", u8), ("length", u16)]


class Block(ctypes.Structure):
    _fields_ = [("answer", u8), ("distance", u8)]


class Register(ctypes.Structure):
    _fields_ = [("held", u8 * CHECKS), ("count", u8)]


class Stepped(ctypes.Structure):
    _fields_ = [("after", Register), ("answer", u8)]


class Checked(ctypes.Structure):
    _fields_ = [("checks", u8 * CHECKS), ("answer", u8)]


# The bytes of an open tray.
TRAY = ctypes.sizeof(Tray)
