//! The numbers of the refusals, by name. tools/tables writes them from refusals.txt.

// A number that no rule here answers is no mistake.
#![allow(dead_code)]

/// A line, ring or map of blots is not 63 long, a text is not 50 long, a sheet is not 3,969 long, its texts are not 2,600 long or its numbers not 52, a spool's length is no multiple of 63 or is over 16,065, a scan of brightnesses is not 378 long, or the length of a spool of them is no multiple of 378 or is over 96,390.
pub const INPUT_LENGTH: u8 = 1;
/// A character (a register's too) or field operand is over 63, a data row over 127, or a byte of a map over 1.
pub const VALUE_OVER: u8 = 2;
/// Radius over 5.
pub const RADIUS_OVER: u8 = 3;
/// Number over 4095.
pub const NUMBER_OVER: u8 = 4;
/// Output length differs from the one stated, or is under 294 for panel text.
pub const OUTPUT_LENGTH: u8 = 5;
/// No line within the radius; for ring reading, an empty list; with blots, no such line.
pub const NO_LINE: u8 = 6;
/// The line found has another number than the wanted one.
pub const OTHER_NUMBER: u8 = 7;
/// Block rows outside 2..64, or data rows outside 1..63; with a smudge, not eight rows, or not seven data rows.
pub const ROW_COUNT: u8 = 8;
/// No proper block within one bit; with a smudge, none that differs inside one window of two by two cells alone.
pub const NO_BLOCK: u8 = 9;
/// Ring reading: two or more entries in the list.
pub const MANY_STARTS: u8 = 10;
/// A step is asked of a register that holds 52 characters, or anything of one whose count is above 52.
pub const REGISTER_FULL: u8 = 11;
/// Register holds fewer than 52.
pub const REGISTER_SHORT: u8 = 12;
/// Quotient by zero.
pub const QUOTIENT_BY_ZERO: u8 = 13;
/// Panel text: the kind is 1, a template.
pub const TEMPLATE: u8 = 14;
/// Panel text: the kind is over 1.
pub const UNKNOWN_KIND: u8 = 15;
/// Sheet reading: what the rounds leave is no proper sheet; it is written all the same, and the rounds are told.
pub const IMPROPER_SHEET: u8 = 16;
/// An open tray claims over 64 lines or a count above them; adding, where 64 are held; replacing and dropping, last, where the line has a character or sum over 63, or a sum not 0 at count 0.
pub const TRAY_UNFIT: u8 = 17;
/// Replacing: the line asked for is not there; dropping: no line is left.
pub const LINE_NOT_HELD: u8 = 18;
/// An address over 62.
pub const ADDRESS_OVER: u8 = 19;
/// A scan of brightnesses in which no cell is dark, or none is bright.
pub const ONE_SIDED: u8 = 20;
