//! Dark rows, bright rows and blocks whose columns are even: what is due follows from how each is made, and reading by trial has to say the same.

use crate::block::{self, encoded, flipped, places};
use crate::random::Random;
use crate::refusals::{NO_BLOCK, ROW_COUNT};

pub const DARK: u8 = 0;
pub const BRIGHT: u8 = 255;

/// A block whose columns are even is refused with up to so many wrong bits.
pub const MOST_WRONG: usize = 6;

/// Rows that are all dark or all bright: refused, but for an odd number of bright ones.
pub fn uniform(row: u8, count: usize) -> Vec<u8> {
    let rows = vec![row; count];
    let (answer, distance, output) = block::read(&rows, count);
    let due = match count {
        2..=64 if row == BRIGHT && count % 2 == 1 => 0,
        2..=64 => NO_BLOCK,
        _ => ROW_COUNT,
    };
    assert_eq!((answer, distance, due == 0), (due, 0, count > 0 && output == rows));
    rows
}

/// A block whose rows and columns are even: rectangles, each of which turns the four bits at its corners.
pub fn even_block(random: &mut Random, rows: usize) -> Vec<u8> {
    let mut block = vec![DARK; rows];
    for _ in 0..4 * rows {
        let sides = 1 << random.below(8) ^ 1 << random.below(8);
        block[random.below(rows)] ^= sides;
        block[random.below(rows)] ^= sides;
    }
    block
}

/// So many bits turned, no two at one place.
fn with_wrong(random: &mut Random, rows: &[u8], wrong: usize) -> Vec<u8> {
    let mut left = places(rows.len());
    let bits: Vec<(usize, usize)> = (0..wrong).map(|_| left.swap_remove(random.below(left.len()))).collect();
    flipped(rows, &bits)
}

/// A block whose columns are even with so few wrong bits that it is refused.
pub fn refused(random: &mut Random, even: &[u8], wrong: usize) -> Vec<u8> {
    assert!(wrong <= MOST_WRONG);
    let rows = with_wrong(random, even, wrong);
    assert_eq!(block::read(&rows, rows.len()).0, NO_BLOCK);
    rows
}

/// And with one wrong bit too many: seven of a row's eight, so that the one bit to the proper block is the eighth.
pub fn too_many_wrong(random: &mut Random, even: &[u8], row: usize) -> Vec<u8> {
    let mut block = even.to_vec();
    block[row] ^= BRIGHT;
    let rows = flipped(&block, &[(row, random.below(8))]);
    assert_eq!(block::read(&rows, rows.len()), (0, 1, block));
    rows
}

/// The lowest seven bits of all rows but the last.
pub fn data_of(rows: &[u8]) -> Vec<u8> {
    rows[..rows.len() - 1].iter().map(|row| row % 128).collect()
}

/// A block whose columns are even with its last row inverted: it is the proper block with its data rows, and is read with one wrong bit at most.
pub fn inverted(random: &mut Random, even: &[u8], wrong: usize) -> Vec<u8> {
    assert!(wrong <= 1);
    let mut block = even.to_vec();
    *block.last_mut().expect("a row") ^= BRIGHT;
    assert_eq!(block, encoded(&data_of(even)));
    let rows = with_wrong(random, &block, wrong);
    assert_eq!(block::read(&rows, rows.len()), (0, wrong as u8, block));
    rows
}
