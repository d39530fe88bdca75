//! Sheets: 63 lines whose columns can be read too, encoded and read, and why a sheet was not read.

use crate::{answered, library, Refusal};
use core::fmt;

/// How many bytes a sheet has: 63 lines of 63.
pub const SHEET: usize = 3969;

/// How many bytes the texts of a sheet's first 52 lines have.
pub const TEXTS: usize = 2600;

/// How many lines of a sheet have texts and numbers of their own.
pub const NUMBERS: usize = 52;

/// The most rounds of reading a sheet.
pub const ROUNDS: u8 = 8;

/// Why a sheet was not read. An improper sheet was written, and any other refusal leaves the output as it was.
#[derive(Clone, Copy, Debug, PartialEq, Eq, Hash)]
pub enum SheetRefusal {
    /// What the rounds left is no proper sheet: some line or column could not be read. The output got it.
    Improper {
        /// How many rounds were run, the last counted.
        rounds: u8,
    },
    /// The call was refused before any round.
    Refused(Refusal),
}

impl From<SheetRefusal> for Refusal {
    /// The refusal alone, with which `?` answers in a function that refuses for other reasons too.
    fn from(why: SheetRefusal) -> Refusal {
        match why {
            SheetRefusal::Improper { .. } => Refusal::ImproperSheet,
            SheetRefusal::Refused(refusal) => refusal,
        }
    }
}

impl fmt::Display for SheetRefusal {
    fn fmt(&self, f: &mut fmt::Formatter<'_>) -> fmt::Result {
        Refusal::from(*self).fmt(f)
    }
}

impl core::error::Error for SheetRefusal {}

/// Encodes a sheet from 52 texts of 50 characters, one after the other, and 52 numbers: `out`, 3,969 bytes, gets the one proper sheet whose first 52 lines have
/// them. The last eleven lines, text and number field too, are what the columns force.
pub fn encode_sheet(texts: &[u8], numbers: &[u16], out: &mut [u8]) -> Result<(), Refusal> {
    answered(library::encode_sheet(texts, numbers, out), ())
}

/// Reads a sheet in rounds: each line with radius 5, then each column, marks off; what cannot be read is left. Rounds go on until one ends as it began or
/// [`ROUNDS`] are done. `out`, 3,969 bytes, gets what they leave, and where that is a proper sheet, how many rounds were run is given, the last counted.
///
/// A sheet of which at most five lines are damaged in any way, and each other in at most five characters, is put right: in 2 rounds, or 1 where nothing is
/// damaged. What is not proper is written too, and answered with [`SheetRefusal::Improper`].
///
/// ```
/// let mut sheet = [0; film::SHEET];
/// film::encode_sheet(&[7; film::TEXTS], &[65; film::NUMBERS], &mut sheet)?;
/// let mut scan = sheet;
/// scan[63..6 * 63].fill(0);
/// let mut out = [0; film::SHEET];
/// assert_eq!(film::read_sheet(&scan, &mut out), Ok(2));
/// assert_eq!(out, sheet);
///
/// scan[6 * 63..7 * 63].fill(0);
/// assert_eq!(film::read_sheet(&scan, &mut out), Err(film::SheetRefusal::Improper { rounds: 2 }));
/// assert_eq!(out[7 * 63..], sheet[7 * 63..]);
/// # Ok::<(), film::Refusal>(())
/// ```
pub fn read_sheet(sheet: &[u8], out: &mut [u8]) -> Result<u8, SheetRefusal> {
    let r = library::read_sheet(sheet, out);
    answered(r.answer, r.rounds).map_err(|why| match why {
        Refusal::ImproperSheet => SheetRefusal::Improper { rounds: r.rounds },
        _ => SheetRefusal::Refused(why),
    })
}
