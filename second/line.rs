//! Line reading: the line within the radius of a word is the nearest one, if it is near enough.

use crate::code::{changed, distance, with_errors, Code, Sums};
use crate::random::Random;
use crate::refusals;

pub const UNTOUCHED: u8 = 170;

pub fn number(line: &[u8]) -> u16 {
    line[50] as u16 * 64 + line[51] as u16
}

/// The answer and the fields after it, the number, the distance, the first and the last changed address; and the output.
pub type Answer = (Vec<usize>, Vec<u8>);

/// What is told of a line that is read from a word.
pub fn told(word: &[u8], line: &[u8]) -> Vec<usize> {
    [&[number(line) as usize, distance(word, line)], &changed(word, line)[..]].concat()
}

pub fn refused(answer: u8, room: usize) -> Answer {
    (vec![answer as usize, 0, 0, 0, 0], vec![UNTOUCHED; room])
}

pub fn read(code: &Code, word: &[u8], radius: u8, wanted: Option<u16>, room: usize) -> Answer {
    let refused = |answer| refused(answer, room);
    if word.len() != 63 {
        return refused(refusals::INPUT_LENGTH);
    }
    if room != 63 {
        return refused(refusals::OUTPUT_LENGTH);
    }
    if word.iter().any(|&c| c > 63) {
        return refused(refusals::VALUE_OVER);
    }
    if radius > 5 {
        return refused(refusals::RADIUS_OVER);
    }
    if wanted.is_some_and(|n| n > 4095) {
        return refused(refusals::NUMBER_OVER);
    }
    let Some(line) = code.nearest(word).filter(|line| distance(word, line) <= radius as usize) else {
        return refused(refusals::NO_LINE);
    };
    if wanted.is_some_and(|n| n != number(&line)) {
        return refused(refusals::OTHER_NUMBER);
    }
    ([vec![0], told(word, &line)].concat(), line)
}

/// A line of random text and number.
pub fn random_line(code: &Code, random: &mut Random) -> Vec<u8> {
    code.line(&random.bytes(52, 64))
}

/// So many different addresses.
pub fn random_addresses(random: &mut Random, count: usize) -> Vec<usize> {
    let mut all: Vec<usize> = (0..63).collect();
    (0..count).map(|_| all.swap_remove(random.below(all.len()))).collect()
}

/// Values that are not 0 at these addresses.
pub fn with_values(random: &mut Random, addresses: &[usize]) -> Vec<(usize, u8)> {
    addresses.iter().map(|&a| (a, 1 + random.below(63) as u8)).collect()
}

/// So many wrong characters: different addresses, and values that are not 0.
pub fn random_errors(random: &mut Random, count: usize) -> Vec<(usize, u8)> {
    let addresses = random_addresses(random, count);
    with_values(random, &addresses)
}

/// A word in which what is wrong has these sums: a random line with values at eleven addresses, wherever they are.
pub fn with_sums(code: &Code, random: &mut Random, sums: Sums) -> Vec<u8> {
    with_errors(&random_line(code, random), &code.solved(&random_addresses(random, 11), sums))
}
