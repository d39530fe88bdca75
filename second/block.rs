//! Parity blocks by trial: ones are counted bit by bit, a block is read by trying every single bit, and the checks are found by trying every value.

use crate::random::Random;
use crate::refusals;

const UNTOUCHED: u8 = 170;

/// The rows of the bench sheet, and its numbers of rows.
pub const BENCH_ROWS: [[u8; 2]; 4] = [[3, 252], [3, 253], [3, 3], [3, 0]];
pub const BENCH_ROW_COUNTS: [usize; 4] = [1, 2, 64, 65];

pub fn bit(rows: &[u8], row: usize, column: usize) -> u8 {
    (rows[row] >> column) & 1
}

pub fn is_proper(rows: &[u8]) -> bool {
    let row_is_even = |row| (0..8).filter(|&column| bit(rows, row, column) == 1).count() % 2 == 0;
    let column_is_odd = |column| (0..rows.len()).filter(|&row| bit(rows, row, column) == 1).count() % 2 == 1;
    (0..rows.len()).all(row_is_even) && (0..8).all(column_is_odd)
}

pub fn flipped(rows: &[u8], bits: &[(usize, usize)]) -> Vec<u8> {
    let mut other = rows.to_vec();
    for &(row, column) in bits {
        other[row] ^= 1 << column;
    }
    other
}

/// Every bit of so many rows, by row and column.
pub fn places(rows: usize) -> Vec<(usize, usize)> {
    (0..rows).flat_map(|row| (0..8).map(move |column| (row, column))).collect()
}

/// The proper blocks within one bit, each with its distance.
fn near(rows: &[u8]) -> Vec<(u8, Vec<u8>)> {
    let mut found = Vec::new();
    if is_proper(rows) {
        found.push((0, rows.to_vec()));
    }
    for place in places(rows.len()) {
        let other = flipped(rows, &[place]);
        if is_proper(&other) {
            found.push((1, other));
        }
    }
    found
}

/// The answer, the distance, and the output.
type Answer = (u8, u8, Vec<u8>);

pub fn read(rows: &[u8], room: usize) -> Answer {
    let refused = |number| (number, 0, vec![UNTOUCHED; room]);
    if rows.len() < 2 || rows.len() > 64 {
        return refused(refusals::ROW_COUNT);
    }
    if room != rows.len() {
        return refused(refusals::OUTPUT_LENGTH);
    }
    let mut found = near(rows);
    assert!(found.len() <= 1, "two proper blocks within one bit");
    match found.pop() {
        Some((distance, block)) => (0, distance, block),
        None => refused(refusals::NO_BLOCK),
    }
}

/// The one proper block with these data rows.
pub fn encoded(data: &[u8]) -> Vec<u8> {
    let mut block = Vec::new();
    for &row in data {
        let even: Vec<u8> = [row, row + 128].into_iter().filter(|x| (0..8).filter(|c| x >> c & 1 == 1).count() % 2 == 0).collect();
        assert_eq!(even.len(), 1);
        block.push(even[0]);
    }
    let fits = |&last: &u8| is_proper(&[&block[..], &[last]].concat());
    let last: Vec<u8> = (0..=255).filter(fits).collect();
    assert_eq!(last.len(), 1);
    block.push(last[0]);
    block
}

/// So many rows that would be proper if a block could have any number of them: zeros, and the column checks.
pub fn no_data(rows: usize) -> Vec<u8> {
    (1..=rows).map(|row| if row == rows { 255 } else { 0 }).collect()
}

pub fn encode(data: &[u8], room: usize) -> Answer {
    let refused = |number| (number, 0, vec![UNTOUCHED; room]);
    if data.is_empty() || data.len() > 63 {
        return refused(refusals::ROW_COUNT);
    }
    if room != data.len() + 1 {
        return refused(refusals::OUTPUT_LENGTH);
    }
    if data.iter().any(|&row| row > 127) {
        return refused(refusals::VALUE_OVER);
    }
    (0, 0, encoded(data))
}

pub fn random_block(random: &mut Random, rows: usize) -> Vec<u8> {
    encoded(&random.bytes(rows - 1, 128))
}
