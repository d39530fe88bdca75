//! Reading a spool: many lines in one call, and the list of what was read.

use crate::{answered, library, line_read, LineRead, Refusal, LINE};
use core::{array, fmt, iter, ops, slice};

/// The most lines of a spool.
pub const PLACES: usize = 255;

/// The most bytes of a spool.
pub const SPOOL: usize = PLACES * LINE;

/// What was read of a spool: a list with one reading for each line, in their order. It can do all that a slice can.
#[derive(Clone, PartialEq, Eq)]
pub struct SpoolRead {
    places: [Result<LineRead, Refusal>; PLACES],
    count: usize,
}

impl ops::Deref for SpoolRead {
    type Target = [Result<LineRead, Refusal>];

    fn deref(&self) -> &Self::Target {
        &self.places[..self.count]
    }
}

impl fmt::Debug for SpoolRead {
    fn fmt(&self, f: &mut fmt::Formatter<'_>) -> fmt::Result {
        f.debug_list().entries(self).finish()
    }
}

impl<'a> IntoIterator for &'a SpoolRead {
    type Item = &'a Result<LineRead, Refusal>;
    type IntoIter = slice::Iter<'a, Result<LineRead, Refusal>>;

    fn into_iter(self) -> Self::IntoIter {
        self.iter()
    }
}

impl IntoIterator for SpoolRead {
    type Item = Result<LineRead, Refusal>;
    type IntoIter = iter::Take<array::IntoIter<Result<LineRead, Refusal>, PLACES>>;

    fn into_iter(self) -> Self::IntoIter {
        self.places.into_iter().take(self.count)
    }
}

/// Reads a spool: up to [`PLACES`] lines of 63 bytes, one after the other, with one radius and no wanted numbers. Each is read as
/// [`read_line`](crate::read_line) reads it: `out`, as long as `lines`, gets it in its own 63 bytes. A refused line leaves its own as they were, and stops no
/// other. No lines give an empty list.
///
/// Only a wrong length, of `lines` or of `out`, makes the call itself refused; a radius over 5 is refused by each line.
///
/// ```
/// let mut lines = [0; 3 * 63];
/// for (line, number) in lines.chunks_mut(63).zip(65..) {
///     film::encode_line(&[7; 50], number, line)?;
/// }
/// lines[63..126].fill(0);
/// let mut out = [0; 3 * 63];
/// let spool = film::read_spool(&lines, 2, &mut out)?;
/// let mut loaded = Vec::new();
/// for (i, (reading, line)) in spool.iter().zip(out.chunks(63)).enumerate() {
///     match reading {
///         Ok(read) => loaded.push((read.number, line)),
///         Err(why) => eprintln!("line {i}: {why}"),
///     }
/// }
/// assert_eq!(loaded, [(65, &lines[..63]), (67, &lines[126..])]);
/// assert_eq!(spool[1], Err(film::Refusal::NoLine));
/// # Ok::<(), film::Refusal>(())
/// ```
pub fn read_spool(lines: &[u8], radius: u8, out: &mut [u8]) -> Result<SpoolRead, Refusal> {
    let r = library::read_spool(lines, radius, out);
    answered(r.answer, ())?;
    Ok(SpoolRead { places: r.places.map(line_read), count: lines.len() / LINE })
}
