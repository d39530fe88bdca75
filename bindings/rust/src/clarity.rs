//! How clear a scan is: the means of its dark and its bright cells, and the ratio of their distance to their spread, one by one and counted for a spool.

use crate::{answered, library, Refusal, PLACES};

/// How many brightnesses a scan has: one for each cell of a line.
pub const CELLS: usize = 378;

/// The most bytes of a spool of such scans.
pub const SCANS: usize = PLACES * CELLS;

/// The means of the two sides of a scan, each rounded once.
#[derive(Clone, Copy, Debug, PartialEq)]
pub struct Means {
    /// The mean of the dark cells, those below the threshold.
    pub dark: f64,
    /// The mean of the bright cells, all others.
    pub bright: f64,
}

/// How clear a scan is.
#[derive(Clone, Copy, Debug, PartialEq)]
pub enum Clarity {
    /// The square of the distance of the two means over the sum of the two variances, rounded once: above 0, and the greater, the clearer.
    Ratio(f64),
    /// The cells of each side are all alike, and the ratio would be of something by 0.
    NoSpread,
}

/// What a scan shows.
#[derive(Clone, Copy, Debug, PartialEq)]
pub struct Scan {
    /// The means of its dark and its bright cells.
    pub means: Means,
    /// How clear it is.
    pub clarity: Clarity,
}

impl Scan {
    /// The ratio; none, where there is no spread.
    pub fn ratio(&self) -> Option<f64> {
        match self.clarity {
            Clarity::Ratio(ratio) => Some(ratio),
            Clarity::NoSpread => None,
        }
    }
}

/// How many scans of a spool have a ratio, have no spread and are refused; together they are all of its scans.
#[derive(Clone, Copy, Debug, PartialEq, Eq)]
pub struct Clarities {
    /// How many have a ratio.
    pub ratios: u8,
    /// How many have no spread.
    pub no_spreads: u8,
    /// How many are refused, as those in which no cell is dark or none is bright ([`Refusal::OneSided`]).
    pub refusals: u8,
}

/// The clarity of one scan: the brightness of each of [`CELLS`] cells, and a threshold. A cell below the threshold is dark, any other bright. With n cells on a
/// side, their sum s and the sum of their squares q (1 dark, 2 bright) the ratio is (s2 n1 - s1 n2)² / (n2² (n1 q1 - s1²) + n1² (n2 q2 - s2²)), rounded once.
///
/// ```
/// let mut cells = [10; film::CELLS];
/// cells[100..200].fill(30);
/// cells[200..289].fill(200);
/// cells[289..].fill(220);
/// let scan = film::scan_clarity(&cells, 128)?;
/// assert_eq!((scan.means.dark, scan.means.bright), (20.0, 210.0));
/// assert_eq!(scan.ratio(), Some(180.5));
///
/// assert_eq!(film::scan_clarity(&cells, 10), Err(film::Refusal::OneSided));
/// # Ok::<(), film::Refusal>(())
/// ```
pub fn scan_clarity(cells: &[u8], threshold: u8) -> Result<Scan, Refusal> {
    let r = library::scan_clarity(cells, threshold);
    let clarity = if r.kind == library::RATIO { Clarity::Ratio(r.ratio) } else { Clarity::NoSpread };
    answered(r.answer, Scan { means: Means { dark: r.dark, bright: r.bright }, clarity })
}

/// Counts what [`scan_clarity`] answers for each of up to [`PLACES`] scans of [`CELLS`] bytes, one after the other, with one threshold. A refused scan stops no
/// other, and no scans give zeros. Only a wrong length makes the call itself refused.
///
/// ```
/// let mut cells = [0; 3 * film::CELLS];
/// cells[..200].fill(255);
/// cells[film::CELLS..][..200].fill(255);
/// cells[0] = 254;
/// let counts = film::spool_clarity(&cells, 128)?;
/// assert_eq!((counts.ratios, counts.no_spreads, counts.refusals), (1, 1, 1));
/// # Ok::<(), film::Refusal>(())
/// ```
pub fn spool_clarity(cells: &[u8], threshold: u8) -> Result<Clarities, Refusal> {
    let r = library::spool_clarity(cells, threshold);
    answered(r.answer, Clarities { ratios: r.ratios, no_spreads: r.no_spreads, refusals: r.refusals })
}
