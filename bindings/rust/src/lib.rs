//! The proved film reader: lines, with blots too, spools, sheets, open trays, the clarity of scans, rings, text for a panel and parity blocks, and the field
//! and the register below them.
//!
//! Every function takes whatever slices and numbers it is handed. It answers what it found, or the [`Refusal`] that says by number why not;
//! then the output, or the tray, is as it was, but for a sheet that is not proper after reading ([`SheetRefusal::Improper`]). A character is a byte from 0 to
//! 63, and a line is 63 of them.
//!
//! The first of a line's 50 text characters is its kind, and each of the other 49, `v`, stands for the ASCII byte 32 + `v`: [`characters_of`] makes them of a
//! text, and [`text_of`] gives it back. These two are plain Rust beside the proved library. Such text may hold `&`, `<`, `>`, `"` and `'`; for a page,
//! [`panel_text`] makes it harmless.
//!
//! ```
//! let (mut line, mut page) = ([0; 63], [0; film::PANEL]);
//! film::encode_line(&film::characters_of("A <B> & C", film::PLAIN)?, 65, &mut line)?;
//! let mut ring = line;
//! ring.rotate_left(4);
//! ring[9] ^= 5;
//! let found = film::read_ring(&ring, 1, &mut line)?;
//! assert_eq!((found.start, found.number, found.distance), (59, 65, 1));
//! assert_eq!(film::text_of(&line)?.as_str(), "A <B> & C");
//! assert_eq!(film::panel_text(&line[..50], &mut page)?.trim_end(), "A &lt;B&gt; &amp; C");
//! # Ok::<(), Box<dyn std::error::Error>>(())
//! ```
//!
//! ```
//! let mut line = [0; 63];
//! film::encode_line(&[7; 50], 65, &mut line)?;
//! let mut ring = line;
//! ring.rotate_left(4);
//! ring[9] ^= 5;
//! let read = film::read_line(&line, 5, None, &mut [0; 63])?;
//! let found = film::read_ring(&ring, 1, &mut line)?;
//! assert_eq!((read.number, read.distance), (65, 0));
//! assert_eq!((found.start, found.number, found.distance), (59, 65, 1));
//! # Ok::<(), film::Refusal>(())
//! ```

#![no_std]
#![deny(missing_docs)]

mod clarity;
mod library;
mod open_tray;
mod refusal;
mod sheet;
mod smudge;
mod spool;
mod text;

pub use clarity::{scan_clarity, spool_clarity, Clarities, Clarity, Means, Scan, CELLS, SCANS};
pub use open_tray::{OpenTray, SUMS, TRAY, TRAY_LINES};
pub use refusal::Refusal;
pub use sheet::{encode_sheet, read_sheet, SheetRefusal, NUMBERS, ROUNDS, SHEET, TEXTS};
pub use smudge::{encode_smudge, read_smudge, SMUDGE};
pub use spool::{read_spool, SpoolRead, PLACES, SPOOL};
pub use text::{characters_of, text_of, Note, Unfit, LETTERS, PLAIN, TEMPLATE};

/// The examples of README.md, which are run with those of the code.
#[cfg(doctest)]
#[doc = include_str!("../README.md")]
struct Readme;

/// How many characters a line has.
const LINE: usize = 63;

/// The version that this crate was made for: a million times the major number, a thousand times the minor, and the patch. It is the crate's own;
/// tools/tables writes it from version.txt.
pub const VERSION: u32 = 4008000;

/// The version of the library that is linked, written as [`VERSION`] is.
pub fn version() -> u32 {
    library::version()
}

/// What was done, or the refusal that the answer tells.
fn answered<T>(answer: u8, done: T) -> Result<T, Refusal> {
    Refusal::of_answer(answer).map_or(Ok(done), Err)
}

/// The sum of two elements of the field.
pub fn sum(u: u8, v: u8) -> Result<u8, Refusal> {
    let r = library::sum(u, v);
    answered(r.answer, r.value)
}

/// The product of two elements of the field.
pub fn product(u: u8, v: u8) -> Result<u8, Refusal> {
    let r = library::product(u, v);
    answered(r.answer, r.value)
}

/// The quotient of two elements of the field; a quotient by 0 is refused ([`Refusal::QuotientByZero`]).
pub fn quotient(u: u8, v: u8) -> Result<u8, Refusal> {
    let r = library::quotient(u, v);
    answered(r.answer, r.value)
}

/// Encodes 50 characters of text and a number: `out`, 63 bytes, gets the one line with them.
pub fn encode_line(text: &[u8], number: u16, out: &mut [u8]) -> Result<(), Refusal> {
    answered(library::encode_line(text, number, out), ())
}

/// In the place of an address: nothing was changed.
pub const NOWHERE: u8 = 63;

/// A line that was read.
#[derive(Clone, Copy, Debug, PartialEq, Eq)]
pub struct LineRead {
    /// The line's number.
    pub number: u16,
    /// In how many addresses the word differs from it.
    pub distance: u8,
    /// The first address at which the word differs from it, or [`NOWHERE`].
    pub first: u8,
    /// The last address at which the word differs from it, or [`NOWHERE`].
    pub last: u8,
}

/// Reads a line: `out`, 63 bytes, gets the line within the radius of the word. Where a number is wanted, the line must carry it.
pub fn read_line(word: &[u8], radius: u8, wanted: Option<u16>, out: &mut [u8]) -> Result<LineRead, Refusal> {
    let r = match wanted {
        None => library::read_line(word, radius, out),
        Some(number) => library::read_line_wanted(word, radius, number, out),
    };
    line_read(r)
}

/// Reads a line by the method of 1968, for a museum. For every input it answers and writes what [`read_line`] does, and takes longer.
///
/// ```
/// let mut line = [0; 63];
/// film::encode_line(&[7; 50], 65, &mut line)?;
/// let mut word = line;
/// for a in [0, 20, 40, 50, 62] {
///     word[a] ^= 1;
/// }
/// let mut out = [0; 63];
/// let read = film::read_line_paper(&word, 5, Some(65), &mut out)?;
/// assert_eq!((read.number, read.distance, read.first, read.last), (65, 5, 0, 62));
/// assert_eq!(out, line);
/// # Ok::<(), film::Refusal>(())
/// ```
pub fn read_line_paper(word: &[u8], radius: u8, wanted: Option<u16>, out: &mut [u8]) -> Result<LineRead, Refusal> {
    let r = match wanted {
        None => library::read_line_paper(word, radius, out),
        Some(number) => library::read_line_paper_wanted(word, radius, number, out),
    };
    line_read(r)
}

/// Reads a line with blots, the characters that the scanner could not see: `map`, 63 bytes, has 1 for a blot and 0 for none. With f blots, `out`, 63 bytes,
/// gets the line that differs from the word in e characters outside them, 2e + f at most 11; there is never a second one. What stands at a blot, a
/// character too, has no say in which line that is; the distance and the changed addresses count it as any other. With no blot it is [`read_line`] with
/// radius 5.
///
/// ```
/// let mut line = [0; 63];
/// film::encode_line(&[7; 50], 65, &mut line)?;
/// let (mut word, mut map) = (line, [0; 63]);
/// for a in 20..29 {
///     word[a] = 0;
///     map[a] = 1;
/// }
/// word[62] ^= 1;
/// let mut out = [0; 63];
/// let read = film::read_blotted(&word, &map, &mut out)?;
/// assert_eq!((read.number, read.distance, read.first, read.last), (65, 10, 20, 62));
/// assert_eq!(out, line);
/// # Ok::<(), film::Refusal>(())
/// ```
pub fn read_blotted(word: &[u8], map: &[u8], out: &mut [u8]) -> Result<LineRead, Refusal> {
    line_read(library::read_blotted(word, map, out))
}

/// The line that was read, or the refusal.
fn line_read(r: library::Line) -> Result<LineRead, Refusal> {
    answered(r.answer, LineRead { number: r.number, distance: r.distance, first: r.first, last: r.last })
}

/// The better of two scans of one line, each read with the radius and no wanted number: the caller's own slice of the scan that is read with the smaller
/// distance, the first where they tie; the other where one is refused. Where both are, the refusal is the first's.
///
/// ```
/// let mut line = [0; 63];
/// film::encode_line(&[7; 50], 65, &mut line)?;
/// let (mut first, mut second) = (line, line);
/// first[9] ^= 5;
/// first[10] ^= 5;
/// second[62] ^= 1;
/// assert!(std::ptr::eq(film::better_scan(&first, &second, 5)?, &second));
/// # Ok::<(), film::Refusal>(())
/// ```
pub fn better_scan<'a>(first: &'a [u8], second: &'a [u8], radius: u8) -> Result<&'a [u8], Refusal> {
    let r = library::better_scan(first, second, radius);
    answered(r.answer, if r.scan == 1 { first } else { second })
}

/// Lists a ring: the starts at which some line lies within the radius, in rising order. They are the first bytes of `out`, 126 bytes;
/// its others stay as they were.
pub fn list_ring<'a>(ring: &[u8], radius: u8, out: &'a mut [u8]) -> Result<&'a [u8], Refusal> {
    let r = library::list_ring(ring, radius, out);
    answered(r.answer, ())?;
    Ok(&out[..r.count as usize])
}

/// A line that was read from a ring.
#[derive(Clone, Copy, Debug, PartialEq, Eq)]
pub struct RingRead {
    /// The one start that is listed: 0 to 62 are forward, 63 to 125 backward.
    pub start: u8,
    /// The line's number.
    pub number: u16,
    /// In how many addresses the word at the start differs from it.
    pub distance: u8,
    /// The first of these addresses, or [`NOWHERE`]: an address of the line, no place on the ring.
    pub first: u8,
    /// The last of these addresses, or [`NOWHERE`].
    pub last: u8,
}

/// Reads a ring: `out`, 63 bytes, gets the line at the one start that is listed.
pub fn read_ring(ring: &[u8], radius: u8, out: &mut [u8]) -> Result<RingRead, Refusal> {
    let r = library::read_ring(ring, radius, out);
    answered(r.answer, RingRead { start: r.start, number: r.number, distance: r.distance, first: r.first, last: r.last })
}

/// The least output of panel text, and the longest text for a panel.
pub const PANEL: usize = 294;

/// What was written for a panel, as text.
fn shown(r: library::Panel, out: &[u8]) -> Result<&str, Refusal> {
    answered(r.answer, ())?;
    Ok(core::str::from_utf8(&out[..r.length as usize]).expect("it is proved that each byte is ASCII"))
}

/// Harmless text for a panel, from the 50 text characters of a line. Only plain text ([`PLAIN`]) is written: all 49 letters, blanks at the end too, with `&`,
/// `<`, `>`, `"` and `'` by name. `out` has [`PANEL`] bytes or more; those after the text stay.
///
/// ```
/// let note = "\"AT&T\" <B>";
/// let mut out = [0; film::PANEL];
/// let plain = film::characters_of(note, film::PLAIN)?;
/// assert_eq!(film::panel_text(&plain, &mut out)?.trim_end(), "&quot;AT&amp;T&quot; &lt;B&gt;");
/// let template = film::characters_of(note, film::TEMPLATE)?;
/// assert_eq!(film::panel_text(&template, &mut out), Err(film::Refusal::Template));
/// # Ok::<(), Box<dyn std::error::Error>>(())
/// ```
///
/// ```
/// let mut text = [0; 50];
/// for (v, c) in text[1..].iter_mut().zip("\"AT&T\" <B>".bytes()) {
///     *v = c - 32;
/// }
/// let mut out = [0; film::PANEL];
/// assert_eq!(film::panel_text(&text, &mut out)?.trim_end(), "&quot;AT&amp;T&quot; &lt;B&gt;");
/// text[0] = 1;
/// assert_eq!(film::panel_text(&text, &mut out), Err(film::Refusal::Template));
/// # Ok::<(), film::Refusal>(())
/// ```
pub fn panel_text<'a>(text: &[u8], out: &'a mut [u8]) -> Result<&'a str, Refusal> {
    shown(library::panel_text(text, out), out)
}

/// Harmless text for a panel, from a ring: that of the line at the one start that is listed, as [`panel_text`] gives it. The refusals of [`read_ring`]
/// come first.
pub fn panel_ring<'a>(ring: &[u8], radius: u8, out: &'a mut [u8]) -> Result<&'a str, Refusal> {
    shown(library::panel_ring(ring, radius, out), out)
}

/// Encodes 1 to 63 data rows: `out`, one longer, gets the one proper block with them: every row holds an even number of ones, every column an odd number.
pub fn encode_block(data: &[u8], out: &mut [u8]) -> Result<(), Refusal> {
    answered(library::encode_block(data, out), ())
}

/// Reads a block: `out`, as long as the rows, gets the proper block within one bit of them. Its distance, 0 or 1, is given. Dark film is no block.
pub fn read_block(rows: &[u8], out: &mut [u8]) -> Result<u8, Refusal> {
    let r = library::read_block(rows, out);
    answered(r.answer, r.distance)
}

/// The recorder's register, which encodes by the character.
#[derive(Clone, Copy, Debug, Default, PartialEq, Eq)]
#[repr(C)]
pub struct Register {
    /// Eleven characters, highest degree first.
    pub held: [u8; 11],
    /// How many characters were taken.
    pub count: u8,
}

impl Register {
    /// The register that has taken no character.
    pub fn new() -> Register {
        Register::default()
    }

    /// Takes one more character; a refused step leaves the register as it was.
    pub fn step(&mut self, c: u8) -> Result<(), Refusal> {
        let r = library::step(*self, c);
        *self = r.after;
        answered(r.answer, ())
    }

    /// The checks, of a register that has taken 52 characters.
    pub fn checks(&self) -> Result<[u8; 11], Refusal> {
        let r = library::checks(*self);
        answered(r.answer, r.checks)
    }
}
