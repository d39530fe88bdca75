//! Blocks that outlast a smudge: eight rows of eight cells, stored staggered, encoded and read.

use crate::{answered, library, Refusal};

/// How many bytes a block that outlasts a smudge has: eight rows, and cell j of row i is bit j of byte i.
pub const SMUDGE: usize = 8;

/// Encodes seven data rows: `out`, 8 bytes, gets the block that [`encode_block`](crate::encode_block) makes of them, staggered. To straighten it, every cell of
/// an odd column moves two rows up, and then every cell of an odd row two cells toward bit 0, both around the edge.
pub fn encode_smudge(data: &[u8], out: &mut [u8]) -> Result<(), Refusal> {
    answered(library::encode_smudge(data, out), ())
}

/// Reads a block that outlasts a smudge: `out`, 8 bytes, gets the block, staggered, that differs from the rows inside one window of two by two cells alone, if
/// at all; there is never a second one. Its distance, 0 to 4 bits, is given. A window does not go around the edge, and dark film is no block.
///
/// ```
/// let mut block = [0; film::SMUDGE];
/// film::encode_smudge(&[1, 2, 3, 4, 5, 6, 7], &mut block)?;
/// let mut scan = block;
/// scan[4] ^= 0b11000;
/// scan[5] ^= 0b11000;
/// let mut out = [0; film::SMUDGE];
/// assert_eq!(film::read_smudge(&scan, &mut out), Ok(4));
/// assert_eq!(out, block);
///
/// scan[0] ^= 1;
/// assert_eq!(film::read_smudge(&scan, &mut out), Err(film::Refusal::NoBlock));
/// # Ok::<(), film::Refusal>(())
/// ```
pub fn read_smudge(rows: &[u8], out: &mut [u8]) -> Result<u8, Refusal> {
    let r = library::read_smudge(rows, out);
    answered(r.answer, r.distance)
}
