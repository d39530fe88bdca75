//! Words of every kind that line reading and the method of 1968 have cases of.

use crate::code::{distance, with_errors, Code, Sums};
use crate::line::{number, random_addresses, random_errors, random_line};
use crate::random::Random;

/// Finds the nearest line of a word of 63 characters by trial too.
pub fn try_all(code: &Code, word: &[u8]) {
    let tried = code.trial(&code.to_mend(word));
    match code.nearest(word) {
        None => assert!(tried.is_none()),
        Some(line) => assert!((0..63).all(|a| word[a] == line[a] || tried.unwrap().contains(&a))),
    }
}

/// A line with some wrong characters. The line is what is read, where they are five at most.
pub fn planted(code: &Code, line: &[u8], errors: &[(usize, u8)]) -> Vec<u8> {
    let word = with_errors(line, errors);
    assert_eq!(distance(line, &word), errors.len());
    assert!(errors.len() > 5 || code.nearest(&word).as_deref() == Some(line));
    word
}

/// A number that the line does not carry.
pub fn another_number(random: &mut Random, line: &[u8]) -> u16 {
    (number(line) + 1 + random.below(4095) as u16) % 4096
}

/// A line of random text with this number.
pub fn numbered(code: &Code, random: &mut Random, carried: u16) -> Vec<u8> {
    let mut information = random.bytes(50, 64);
    information.extend([(carried / 64) as u8, (carried % 64) as u8]);
    let line = code.line(&information);
    assert_eq!(number(&line), carried);
    line
}

/// So many wrong characters of which one of the eleven sums is 0.
pub fn with_sum_0(code: &Code, random: &mut Random, k: usize, count: usize) -> Vec<(usize, u8)> {
    let mut errors = random_errors(random, count);
    while code.error_sums(&errors)[k] != 0 {
        errors[0].1 = errors[0].1 % 63 + 1;
        if errors[0].1 == 1 {
            errors = random_errors(random, count);
        }
    }
    errors
}

/// A word whose wrong characters have these sums.
pub fn with_sums(code: &Code, random: &mut Random, sums: Sums) -> Vec<u8> {
    let eleven = random_addresses(random, 11);
    with_errors(&random_line(code, random), &code.solved(&eleven, sums))
}

/// A word whose sums are those of so many wrong characters but for one sum.
pub fn with_other_sum(code: &Code, random: &mut Random, k: usize, count: usize) -> Vec<u8> {
    let mut sums = [0; 11];
    sums[k] = 1 + random.below(63) as u8;
    let eleven = random_addresses(random, 11);
    let errors = random_errors(random, count);
    let word = with_errors(&random_line(code, random), &code.solved(&eleven, sums));
    with_errors(&word, &errors)
}

/// A line, and a word between it and another that differs in twelve characters, as near as two lines can be: so many of the twelve are the other's.
pub fn between(code: &Code, random: &mut Random, taken: usize) -> (Vec<u8>, Vec<u8>) {
    let line = random_line(code, random);
    let twelve = random_addresses(random, 12);
    let first = (twelve[0], 1 + random.below(63) as u8);
    let mut errors = code.solved(&twelve[1..], code.error_sums(&[first]));
    errors.push(first);
    let other = with_errors(&line, &errors);
    assert!(distance(&line, &other) == 12 && code.nearest(&other) == Some(other.clone()));
    let word = with_errors(&line, &errors[..taken]);
    (line, word)
}

/// What is handed over for a wanted number, and the length of the output.
pub struct Given {
    pub word: Vec<u8>,
    pub radius: u8,
    pub wanted: u16,
    pub room: usize,
}

/// How many choices there are of the seven faults that are refused.
pub const FAULTS: u8 = 128;

/// A case with the faults of a choice, a bit for each, the one that is refused first in the lowest.
pub fn with_faults(code: &Code, random: &mut Random, faults: u8) -> Given {
    let has = |fault: u8| faults >> fault & 1 == 1;
    let line = random_line(code, random);
    let errors = random_errors(random, if has(5) { 6 } else { 2 });
    let mut word = with_errors(&line, &errors);
    if has(2) {
        word[random.below(62)] = 64;
    }
    word.truncate(if has(0) { 62 } else { 63 });
    let wanted = if has(4) { number(&line) + 4096 } else { number(&line) ^ has(6) as u16 };
    Given { word, radius: if has(3) { 6 } else { 3 }, wanted, room: if has(1) { 64 } else { 63 } }
}
