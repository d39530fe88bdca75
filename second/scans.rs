//! Two scans of one line: of those that are read, the nearest, and of two that are as near the one that comes first.

use crate::code::{with_errors, Code};
use crate::line::{self, random_errors, random_line};
use crate::random::Random;

/// The answer, and the scan that is kept: 1 the first, 2 the second, 0 neither.
pub fn better(code: &Code, first: &[u8], second: &[u8], radius: u8) -> Vec<usize> {
    let answers = [first, second].map(|scan| line::read(code, scan, radius, None, 63).0);
    // a reading's fields: the answer, the number, the distance
    let read = (1..=2).filter(|scan| answers[scan - 1][0] == 0);
    match read.min_by_key(|scan| answers[scan - 1][2]) {
        Some(scan) => vec![0, scan],
        None => vec![answers[0][0], 0],
    }
}

/// Two scans of a random line, with so many wrong characters each.
pub fn random_two(code: &Code, random: &mut Random, wrong: usize, more: usize) -> [Vec<u8>; 2] {
    let line = random_line(code, random);
    [wrong, more].map(|count| with_errors(&line, &random_errors(random, count)))
}
