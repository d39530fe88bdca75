//! Sheets: encoded columns first and lines last, and read in place, each column taken out by index and mended by the errors that its own sums tell.
//!
//! A column's marks are one value, its own, in every line: they are taken off before its sums, and a clean word's sums are those of its errors alone.

use crate::code::{added, marks, with_errors, Code};
use crate::encoder::information;
use crate::line::{random_addresses, random_errors, random_line};
use crate::random::Random;
use crate::refusals;

/// The lines of a sheet, and the characters of a line, which are its columns.
pub const SIDE: usize = 63;

/// The length of a sheet.
pub const SHEET: usize = SIDE * SIDE;

/// The lines that have texts and numbers of their own, and the characters of a line before its checks.
pub const FREE: usize = 52;

/// The length of a line's text.
pub const TEXT: usize = 50;

/// The length of the texts of a sheet.
pub const TEXTS: usize = FREE * TEXT;

/// The most rounds.
pub const ROUNDS: usize = 8;

/// The lines that may be damaged in any way, and the characters of each other line that may be wrong.
pub const MENDED: usize = 5;

/// The answer and, for reading, the rounds; and the output.
pub type Answer = (Vec<usize>, Vec<u8>);

/// A column with its marks off.
fn column(sheet: &[u8], address: usize) -> Vec<u8> {
    let mark = marks()[address];
    (0..SIDE).map(|line| sheet[line * SIDE + address] ^ mark).collect()
}

/// The clean word with these 52 characters.
fn clean(code: &Code, known: &[u8]) -> Vec<u8> {
    added(&code.line(known), &marks())
}

/// The characters that some words have at one address.
fn across(words: &[Vec<u8>], address: usize) -> Vec<u8> {
    words.iter().map(|word| word[address]).collect()
}

/// The proper sheet with this square, the first 52 characters of its first 52 lines: 52 columns lead to 63 lines.
fn encoded(code: &Code, square: &[Vec<u8>]) -> Vec<u8> {
    let columns: Vec<Vec<u8>> = (0..FREE).map(|address| clean(code, &across(square, address))).collect();
    (0..SIDE).flat_map(|line| code.line(&across(&columns, line))).collect()
}

/// Whether all lines are lines and all columns, marks off, are clean words; such a sheet is the one that its square gives.
pub fn is_proper(code: &Code, sheet: &[u8]) -> bool {
    let lines = sheet.chunks(SIDE).all(|line| code.is_line(line));
    let columns = (0..SIDE).all(|address| code.sums(&column(sheet, address)) == [0; 11]);
    let square: Vec<Vec<u8>> = sheet.chunks(SIDE).take(FREE).map(|line| line[..FREE].to_vec()).collect();
    assert_eq!(lines && columns, sheet == encoded(code, &square));
    lines && columns
}

/// Reads each line, then each column; what cannot be read stays.
pub fn round(code: &Code, sheet: &[u8]) -> Vec<u8> {
    let mut after: Vec<u8> = sheet.chunks(SIDE).flat_map(|word| code.nearest(word).unwrap_or(word.to_vec())).collect();
    for address in 0..SIDE {
        for (line, value) in code.errors(&code.sums(&column(&after, address))).unwrap_or_default() {
            after[line * SIDE + address] ^= value;
        }
    }
    after
}

/// The rounds that are run, the last counted, and what they leave; the eighth is the last however it ends.
fn rounds(code: &Code, sheet: &[u8]) -> (usize, Vec<u8>) {
    let mut now = sheet.to_vec();
    for count in 1..ROUNDS {
        let next = round(code, &now);
        if next == now {
            return (count, now);
        }
        now = next;
    }
    (ROUNDS, round(code, &now))
}

/// Reads a sheet; the old bytes are those of the output before.
pub fn read(code: &Code, sheet: &[u8], old: &[u8]) -> Answer {
    let refused = |answer| (vec![answer as usize, 0], old.to_vec());
    if sheet.len() != SHEET {
        return refused(refusals::INPUT_LENGTH);
    }
    if old.len() != SHEET {
        return refused(refusals::OUTPUT_LENGTH);
    }
    if sheet.iter().any(|&c| c > 63) {
        return refused(refusals::VALUE_OVER);
    }
    let (count, output) = rounds(code, sheet);
    let answer = if is_proper(code, &output) { 0 } else { refusals::IMPROPER_SHEET };
    (vec![answer as usize, count], output)
}

/// Encodes a sheet; the old bytes are those of the output before.
pub fn encode(code: &Code, texts: &[u8], numbers: &[u16], old: &[u8]) -> Answer {
    let refused = |answer| (vec![answer as usize], old.to_vec());
    if texts.len() != TEXTS || numbers.len() != FREE {
        return refused(refusals::INPUT_LENGTH);
    }
    if old.len() != SHEET {
        return refused(refusals::OUTPUT_LENGTH);
    }
    if texts.iter().any(|&c| c > 63) {
        return refused(refusals::VALUE_OVER);
    }
    if numbers.iter().any(|&n| n > 4095) {
        return refused(refusals::NUMBER_OVER);
    }
    let square: Vec<Vec<u8>> = texts.chunks(TEXT).zip(numbers).map(|(text, &number)| information(text, number)).collect();
    let sheet = encoded(code, &square);
    assert!(is_proper(code, &sheet));
    (vec![0], sheet)
}

/// The texts and the numbers of a sheet's first 52 lines.
pub fn random_texts(random: &mut Random) -> (Vec<u8>, Vec<u16>) {
    (random.bytes(TEXTS, 64), (0..FREE).map(|_| random.below(4096) as u16).collect())
}

/// A proper sheet of random texts and numbers.
pub fn random_sheet(code: &Code, random: &mut Random) -> Vec<u8> {
    let (texts, numbers) = random_texts(random);
    encode(code, &texts, &numbers, &[0; SHEET]).1
}

/// A sheet with any characters in so many of its lines, and so many wrong ones in each other line. Where neither are too many the sheet is had back.
pub fn with_dust(code: &Code, random: &mut Random, sheet: &[u8], lines: usize, wrong: usize) -> Vec<u8> {
    let dusty = random_addresses(random, lines);
    let words = sheet.chunks(SIDE).enumerate();
    let damaged = words.flat_map(|(i, line)| if dusty.contains(&i) { random.bytes(SIDE, 64) } else { with_errors(line, &random_errors(random, wrong)) });
    let damaged: Vec<u8> = damaged.collect();
    if lines <= MENDED && wrong <= MENDED {
        let count = if damaged == sheet { 1 } else { 2 };
        assert_eq!(read(code, &damaged, &[0; SHEET]), (vec![0, count], sheet.to_vec()));
    }
    damaged
}

/// A sheet in which so many of a thousand characters, on the average, are others.
pub fn scattered(random: &mut Random, sheet: &[u8], of_thousand: usize) -> Vec<u8> {
    sheet.iter().map(|&c| if random.below(1000) < of_thousand { c ^ (1 + random.below(63) as u8) } else { c }).collect()
}

/// 52 words of any characters, of which so many in a row are made by `near` instead.
fn mostly_noise(random: &mut Random, count: usize, near: impl Fn(&mut Random) -> Vec<u8>) -> Vec<Vec<u8>> {
    let first = random.below(FREE + 1 - count);
    (0..FREE).map(|i| if (first..first + count).contains(&i) { near(random) } else { random.bytes(SIDE, 64) }).collect()
}

/// A sheet whose columns are clean words, marks off, and whose lines are not: so many have so many wrong characters, the others any. Where few can be read,
/// the columns undo what the lines did, and the first round ends as it began.
pub fn undone_by_columns(code: &Code, random: &mut Random, lines: usize, wrong: usize) -> Vec<u8> {
    let words = mostly_noise(random, lines, |random| with_errors(&added(&random_line(code, random), &marks()), &random_errors(random, wrong)));
    let columns: Vec<Vec<u8>> = (0..SIDE).map(|address| clean(code, &across(&words, address))).collect();
    let sheet: Vec<u8> = (0..SIDE).flat_map(|line| added(&across(&columns, line), &marks())).collect();
    if sheet.chunks(SIDE).filter(|word| code.nearest(word).is_some()).count() <= MENDED {
        assert_eq!(read(code, &sheet, &[0; SHEET]), (vec![refusals::IMPROPER_SHEET as usize, 1], sheet.clone()));
    }
    sheet
}

/// A sheet of lines whose columns are not clean words: so many have so many wrong characters, the others any. Where few can be read, the lines undo what the
/// columns did, which do it again, and the second round ends as it began.
pub fn undone_by_lines(code: &Code, random: &mut Random, columns: usize, wrong: usize) -> Vec<u8> {
    let words = mostly_noise(random, columns, |random| with_errors(&clean(code, &random.bytes(FREE, 64)), &random_errors(random, wrong)));
    let sheet: Vec<u8> = (0..SIDE).flat_map(|line| code.line(&across(&words, line))).collect();
    let changed = (0..SIDE).filter(|&address| code.errors(&code.sums(&column(&sheet, address))).is_some_and(|errors| !errors.is_empty())).count();
    if (1..=MENDED).contains(&changed) {
        assert_eq!(read(code, &sheet, &[0; SHEET]).0, vec![refusals::IMPROPER_SHEET as usize, 2]);
    }
    sheet
}
