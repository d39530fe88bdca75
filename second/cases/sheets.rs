//! Cases of sheets: which refusal comes first, clean ones, damage that is undone, what is left as it is, and every count of rounds with every ending of eight.

use super::{Case, Cases, ENCODE_SHEET, READ_SHEET};
use crate::code::with_errors;
use crate::line::{random_addresses, random_errors, with_values, UNTOUCHED};
use crate::random::Random;
use crate::refusals::IMPROPER_SHEET;
use crate::sheets::{encode, is_proper, random_sheet, random_texts, read, round, scattered, undone_by_columns, undone_by_lines, with_dust};
use crate::sheets::{FREE, MENDED, ROUNDS, SHEET, SIDE, TEXTS};

/// The fewest lines, or wrong characters of a line, that cannot be put right.
const TOO_MANY: usize = MENDED + 1;

/// A sheet with wrong characters all over it, and what has to become of it.
struct Kept {
    seed: u64,
    /// How many of a thousand characters are wrong, on the average.
    of_thousand: usize,
    rounds: usize,
    proper: bool,
    /// Whether the last round ended as it began.
    settled: bool,
}

/// A sheet that settles after so many rounds.
const fn settled(rounds: usize, proper: bool, seed: u64, of_thousand: usize) -> Kept {
    Kept { seed, of_thousand, rounds, proper, settled: true }
}

/// A sheet that the eighth round still changes.
const fn unsettled(proper: bool, seed: u64, of_thousand: usize) -> Kept {
    Kept { seed, of_thousand, rounds: ROUNDS, proper, settled: false }
}

const KEPT: [Kept; 18] = [
    settled(2, false, 101, 130),
    settled(3, true, 1, 90),
    settled(3, false, 14, 125),
    settled(4, true, 1, 100),
    settled(4, false, 1, 120),
    settled(5, true, 1, 110),
    settled(5, false, 43, 125),
    settled(6, true, 31, 110),
    settled(6, false, 39, 120),
    settled(7, true, 100, 110),
    settled(7, false, 31, 115),
    settled(8, true, 1, 115),
    settled(8, true, 30, 120),
    settled(8, false, 53, 130),
    unsettled(true, 39, 115),
    unsettled(true, 104, 125),
    unsettled(false, 100, 120),
    unsettled(false, 6, 140),
];

fn add(cases: &mut Cases, sheet: &[u8], room: usize) {
    let (numbers, output) = read(&cases.code, sheet, &vec![UNTOUCHED; room]);
    let case = Case { room, ..Case::new(READ_SHEET, sheet) };
    cases.add(case, &numbers, &output);
}

/// A sheet that is improper after so many rounds, with these characters.
fn add_improper(cases: &mut Cases, sheet: &[u8], rounds: usize, left: &[u8]) {
    assert_eq!(read(&cases.code, sheet, &[UNTOUCHED; SHEET]), (vec![IMPROPER_SHEET as usize, rounds], left.to_vec()));
    add(cases, sheet, SHEET);
}

/// The texts and the numbers, two bytes each, stand one after the other in the input.
fn add_encoded(cases: &mut Cases, texts: &[u8], numbers: &[u16], room: usize) {
    let (answer, output) = encode(&cases.code, texts, numbers, &vec![UNTOUCHED; room]);
    let pairs: Vec<u8> = numbers.iter().flat_map(|n| n.to_be_bytes()).collect();
    let both = [texts, &pairs].concat();
    let case = Case { number: texts.len() as u16, room, ..Case::new(ENCODE_SHEET, &both) };
    cases.add(case, &answer, &output);
}

/// The bytes with another in one place.
fn replaced(bytes: &[u8], place: usize, byte: u8) -> Vec<u8> {
    with_errors(bytes, &[(place, bytes[place] ^ byte)])
}

/// Each refusal of reading, with all that is refused later: the lengths, and at either end of the sheet and of a line a character that is too high.
fn refused(cases: &mut Cases, random: &mut Random) {
    let sheet = random_sheet(&cases.code, random);
    let long = [replaced(&sheet, SIDE, 64), vec![0]].concat();
    for length in [0, SIDE, SHEET - 1, SHEET + 1] {
        for room in [length, SHEET] {
            add(cases, &long[..length], room);
        }
    }
    for room in [0, SHEET - 1, SHEET + 1] {
        add(cases, &long[..SHEET], room);
    }
    for (place, byte) in [(0, 64), (SIDE - 1, 128), (SIDE, 255), (SHEET - 1, 64)] {
        add(cases, &replaced(&sheet, place, byte), SHEET);
    }
}

/// Each refusal of encoding in the same way: the two lengths, the output's, a character that is too high, and a number that is.
fn encoding_refused(cases: &mut Cases, random: &mut Random) {
    let (texts, numbers) = random_texts(random);
    let over = |i: usize, number: u16| [&numbers[..i], &[number], &numbers[i + 1..]].concat();
    let (long, more) = ([replaced(&texts, 0, 64), vec![0]].concat(), [over(0, 4096), vec![0]].concat());
    for (length, count) in [(0, 0), (TEXTS - 1, FREE), (TEXTS + 1, FREE), (TEXTS, FREE - 1), (TEXTS, FREE + 1), (TEXTS - 1, FREE + 1)] {
        for room in [0, SHEET] {
            add_encoded(cases, &long[..length], &more[..count], room);
        }
    }
    for room in [0, SHEET - 1, SHEET + 1] {
        add_encoded(cases, &long[..TEXTS], &more[..FREE], room);
    }
    for place in [0, TEXTS - 1] {
        add_encoded(cases, &replaced(&texts, place, 64), &over(FREE - 1, 65535), SHEET);
    }
    for (i, number) in [(0, 4096), (FREE - 1, 4096), (30, 65535)] {
        add_encoded(cases, &texts, &over(i, number), SHEET);
    }
}

/// Sheets of zeros, of the highest texts and numbers, and any, encoded and read as they are; and any that one wrong character is in, at either end.
fn clean(cases: &mut Cases, random: &mut Random) {
    let lowest = (vec![0; TEXTS], vec![0; FREE]);
    let highest = (vec![63; TEXTS], vec![4095; FREE]);
    for (texts, numbers) in [lowest, highest, random_texts(random)] {
        add_encoded(cases, &texts, &numbers, SHEET);
        let sheet = encode(&cases.code, &texts, &numbers, &[0; SHEET]).1;
        add(cases, &sheet, SHEET);
    }
    for place in [0, SHEET - 1] {
        let sheet = random_sheet(&cases.code, random);
        add(cases, &with_errors(&sheet, &with_values(random, &[place])), SHEET);
    }
}

/// Any characters in some lines, and some wrong ones in each other: what is undone, and one line or one character too many.
fn dust(cases: &mut Cases, random: &mut Random) {
    let undone = [(0, 1), (0, MENDED), (1, 0), (MENDED, 0), (3, 2), (MENDED, MENDED)];
    let too_many = [(TOO_MANY, 0), (TOO_MANY, MENDED), (0, TOO_MANY), (MENDED, TOO_MANY)];
    for (lines, wrong) in undone.into_iter().chain(too_many) {
        let sheet = random_sheet(&cases.code, random);
        let scan = with_dust(&cases.code, random, &sheet, lines, wrong);
        add(cases, &scan, SHEET);
    }
}

/// One character everywhere, and any characters. Zeros lead to the sheet of zeros, marks and all.
fn no_sheet(cases: &mut Cases, random: &mut Random) {
    for scan in [vec![0; SHEET], vec![1; SHEET], vec![63; SHEET], random.bytes(SHEET, 64)] {
        add(cases, &scan, SHEET);
    }
}

/// Six lines with six wrong characters each, in the same columns: they are left, alone and where every other line has five.
fn crossings(cases: &mut Cases, random: &mut Random) {
    let sheet = random_sheet(&cases.code, random);
    let (lines, columns) = (random_addresses(random, TOO_MANY), random_addresses(random, TOO_MANY));
    let places: Vec<usize> = lines.iter().flat_map(|line| columns.iter().map(move |column| line * SIDE + column)).collect();
    let left = with_errors(&sheet, &with_values(random, &places));
    add_improper(cases, &left, 1, &left);
    let spoilt = |(i, line): (usize, &[u8])| if lines.contains(&i) { line.to_vec() } else { with_errors(line, &random_errors(random, MENDED)) };
    let scan: Vec<u8> = left.chunks(SIDE).enumerate().flat_map(spoilt).collect();
    add_improper(cases, &scan, 2, &left);
}

/// Clean columns that undo what the lines did, and lines that undo what the columns did, where no word, one or five can be read.
fn undone(cases: &mut Cases, random: &mut Random) {
    for words in [0, 1, MENDED] {
        for made in [undone_by_columns, undone_by_lines] {
            let sheet = made(&cases.code, random, words, MENDED);
            add(cases, &sheet, SHEET);
        }
    }
}

/// Wrong characters all over, kept for the rounds that they take and for what these leave.
fn kept(cases: &mut Cases, _: &mut Random) {
    for kept in KEPT {
        let random = &mut Random::new(kept.seed);
        let sheet = random_sheet(&cases.code, random);
        let scan = scattered(random, &sheet, kept.of_thousand);
        let before_last = (1..kept.rounds).fold(scan.clone(), |now, _| round(&cases.code, &now));
        let (numbers, output) = read(&cases.code, &scan, &[UNTOUCHED; SHEET]);
        assert_eq!((numbers[1], output == before_last), (kept.rounds, kept.settled));
        assert_eq!((numbers[0] == 0, is_proper(&cases.code, &output), output == sheet), (kept.proper, kept.proper, kept.proper));
        add(cases, &scan, SHEET);
    }
}

pub fn add_all(cases: &mut Cases) {
    let random = &mut Random::new(SHEET as u64);
    for add_some in [refused, encoding_refused, clean, dust, no_sheet, crossings, undone, kept] {
        add_some(cases, random);
    }
}
