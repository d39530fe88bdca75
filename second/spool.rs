//! Reading a spool: whole lines are split off from its end, each is read alone, and what was read is turned round at last.

use crate::code::{with_errors, Code};
use crate::line::{self, random_errors, random_line};
use crate::random::Random;
use crate::refusals;

/// The length of a line.
pub const LINE: usize = 63;

/// The places of an answer, which are the most lines.
pub const PLACES: usize = 255;

/// The length of the longest spool.
pub const LONGEST: usize = PLACES * LINE;

/// The numbers of a place: the answer of a line and the fields after it.
pub const FIELDS: usize = 5;

/// The answer of the call, then the numbers of every place; and the output.
pub type Answer = (Vec<usize>, Vec<u8>);

fn answered(answer: u8, places: &[Vec<usize>], output: &[u8]) -> Answer {
    let mut numbers = [vec![answer as usize], places.concat()].concat();
    numbers.resize(1 + PLACES * FIELDS, 0);
    (numbers, output.to_vec())
}

/// The numbers of a line, and the bytes that stand in its part of the output then.
fn read_one(code: &Code, word: &[u8], radius: u8, old: &[u8]) -> (Vec<usize>, Vec<u8>) {
    let (numbers, line) = line::read(code, word, radius, None, old.len());
    let read = numbers[0] == 0;
    (numbers, if read { line } else { old.to_vec() })
}

/// Reads a spool; the old bytes are those of the output before.
pub fn read(code: &Code, spool: &[u8], radius: u8, old: &[u8]) -> Answer {
    let lines = spool.rchunks_exact(LINE);
    if !lines.remainder().is_empty() || lines.len() > PLACES {
        return answered(refusals::INPUT_LENGTH, &[], old);
    }
    if old.len() != spool.len() {
        return answered(refusals::OUTPUT_LENGTH, &[], old);
    }
    let mut read: Vec<_> = lines.zip(old.rchunks_exact(LINE)).map(|(word, old)| read_one(code, word, radius, old)).collect();
    read.reverse();
    let (places, output): (Vec<_>, Vec<_>) = read.into_iter().unzip();
    answered(0, &places, &output.concat())
}

/// Random lines, one after the other, each with so many wrong characters.
pub fn random_spool(code: &Code, random: &mut Random, wrong: impl IntoIterator<Item = usize>) -> Vec<u8> {
    wrong.into_iter().flat_map(|count| with_errors(&random_line(code, random), &random_errors(random, count))).collect()
}

/// Makes a character of one line too high.
pub fn raise(spool: &mut [u8], random: &mut Random, line: usize) {
    spool[line * LINE + random.below(LINE)] |= 64 << random.below(2);
}

/// Counts of wrong characters for so many lines, over and over: up to one more than any radius mends.
pub fn zero_to_six(lines: usize) -> impl Iterator<Item = usize> {
    (0..=6).cycle().take(lines)
}

/// The ways in which four lines can be of three kinds.
pub const WAYS: usize = 81;

/// Four lines in one of those ways: a line is right, has a character that is too high, or has six wrong ones.
pub fn four_lines(code: &Code, random: &mut Random, way: usize) -> Vec<u8> {
    let kinds = [way / 27, way / 9 % 3, way / 3 % 3, way % 3];
    let mut spool = random_spool(code, random, kinds.map(|kind| if kind == 2 { 6 } else { 0 }));
    for line in (0..4).filter(|&line| kinds[line] == 1) {
        raise(&mut spool, random, line);
    }
    spool
}
