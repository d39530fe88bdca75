//! A tray kept open: up to 64 lines that are edited, each with its power sums beside it, and the count of those that are no lines of the code.

use crate::{answered, library, Refusal, LINE};
use core::fmt;

/// How many bytes an open tray has.
pub const TRAY: usize = 4738;

/// The most lines that a tray holds.
pub const TRAY_LINES: usize = 64;

/// How many power sums stand beside a line.
pub const SUMS: usize = 11;

/// How many bytes a line has with its sums.
const ROOM: usize = LINE + SUMS;

/// Where the number of lines stands, and where the count; every line's room comes before them.
const HELD: usize = TRAY_LINES * ROOM;
const COUNT: usize = HELD + 1;

/// A tray kept open: up to [`TRAY_LINES`] lines, each with its eleven power sums, marks off, beside it, and a count of those whose sums are not all 0. A line in
/// a tray is any 63 characters; the count tells how many of them are no lines of the code, and no line is walked again for it.
///
/// A tray is its 4,738 bytes and nothing else: each line's characters and sums, then the number of lines, then the count. So it may be kept in a file, or made
/// by hand ([`OpenTray::from_bytes`]): every operation takes any tray whatever, and a refused one leaves every byte as it was. Two trays are equal where all of
/// their bytes are, the room that is free too.
///
/// ```
/// use film::{OpenTray, Refusal};
/// let mut line = [0; 63];
/// film::encode_line(&[7; 50], 65, &mut line)?;
///
/// let mut tray = OpenTray::new();
/// tray.add(&line)?;
/// tray.add(&line)?;
/// tray.replace(1, 20, 8)?;
/// assert_eq!((tray.len(), tray.count()), (2, Ok(1)));
/// assert_eq!(tray.replace(2, 20, 8), Err(Refusal::LineNotHeld));
/// tray.replace(1, 20, 7)?;
/// assert_eq!((tray.line(1), tray.sums(1), tray.count()), (Some(&line), Some(&[0; 11]), Ok(0)));
/// tray.drop_last()?;
/// assert_eq!((tray.len(), tray.line(1)), (1, None));
/// # Ok::<(), film::Refusal>(())
/// ```
#[derive(Clone, PartialEq, Eq)]
#[repr(C)]
pub struct OpenTray {
    bytes: [u8; TRAY],
}

impl OpenTray {
    /// The tray that holds no line; all of its bytes are 0.
    pub const fn new() -> OpenTray {
        OpenTray::from_bytes([0; TRAY])
    }

    /// The tray of these bytes, whatever they are.
    pub const fn from_bytes(bytes: [u8; TRAY]) -> OpenTray {
        OpenTray { bytes }
    }

    /// The bytes of the tray.
    pub const fn as_bytes(&self) -> &[u8; TRAY] {
        &self.bytes
    }

    /// Adds 63 characters as the last line.
    pub fn add(&mut self, line: &[u8]) -> Result<(), Refusal> {
        answered(library::tray_add(self, line), ())
    }

    /// Replaces one character of a line, lines counted from 0, and adds the share of the change to the sums of that line.
    pub fn replace(&mut self, line: u8, address: u8, character: u8) -> Result<(), Refusal> {
        answered(library::tray_replace(self, line, address, character), ())
    }

    /// Drops the last line. The bytes of its room stay, and the next line added is written over them.
    pub fn drop_last(&mut self) -> Result<(), Refusal> {
        answered(library::tray_drop(self), ())
    }

    /// How many lines of the tray are no lines of the code.
    pub fn count(&self) -> Result<u8, Refusal> {
        let r = library::tray_count(self);
        answered(r.answer, r.count)
    }

    /// How many lines are held: [`TRAY_LINES`] where a tray that is made by hand claims more.
    pub fn len(&self) -> usize {
        TRAY_LINES.min(self.bytes[HELD].into())
    }

    /// Whether no line is held.
    pub fn is_empty(&self) -> bool {
        self.len() == 0
    }

    /// The characters of line `i`, where it is held.
    pub fn line(&self, i: usize) -> Option<&[u8; LINE]> {
        self.room(i)?.first_chunk()
    }

    /// The power sums of line `i`, S_-5 first, where it is held.
    pub fn sums(&self, i: usize) -> Option<&[u8; SUMS]> {
        self.room(i)?.last_chunk()
    }

    /// The characters of line `i` and its sums after them, where it is held.
    fn room(&self, i: usize) -> Option<&[u8]> {
        self.bytes.chunks_exact(ROOM).take(self.len()).nth(i)
    }
}

impl Default for OpenTray {
    fn default() -> OpenTray {
        OpenTray::new()
    }
}

impl fmt::Debug for OpenTray {
    /// How many lines it claims to hold, and the count that it claims.
    fn fmt(&self, f: &mut fmt::Formatter<'_>) -> fmt::Result {
        f.debug_struct("OpenTray").field("held", &self.bytes[HELD]).field("count", &self.bytes[COUNT]).finish_non_exhaustive()
    }
}
