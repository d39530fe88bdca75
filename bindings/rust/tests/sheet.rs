//! Tests of sheets: what is encoded is proper and has its texts and numbers, the damage of the promise is undone, an improper sheet is written with its rounds,
//! and the refusals come in their order.

mod words;

use film::{Refusal, SheetRefusal, NUMBERS, ROUNDS, SHEET, TEXTS};
use words::{number, read_as, Chance, OLD, WRONG_LENGTHS};

/// How many lines, or characters of a line, are put right.
const MOST: usize = 5;

/// Bytes that are no characters, and numbers that no line has.
const BYTES_OVER: [u8; 6] = [64, 65, 127, 128, 192, 255];
const NUMBERS_OVER: [u16; 5] = [4096, 4097, 8191, 32768, 65535];

/// The texts and the numbers of a sheet, and the sheet.
struct Encoded {
    texts: [u8; TEXTS],
    numbers: [u16; NUMBERS],
    sheet: [u8; SHEET],
}

fn encode(texts: [u8; TEXTS], numbers: [u16; NUMBERS]) -> Encoded {
    let mut sheet = [OLD; SHEET];
    film::encode_sheet(&texts, &numbers, &mut sheet).unwrap();
    Encoded { texts, numbers, sheet }
}

fn any(chance: &mut Chance) -> Encoded {
    encode(chance.characters(), core::array::from_fn(|_| chance.below(4096) as u16))
}

/// What reading a sheet gives, and leaves in an output of its length.
fn read(scan: &[u8; SHEET]) -> (Result<u8, SheetRefusal>, [u8; SHEET]) {
    let mut out = [OLD; SHEET];
    (film::read_sheet(scan, &mut out), out)
}

/// So many wrong characters in a line of a scan.
fn spoil_line(chance: &mut Chance, scan: &mut [u8; SHEET], i: usize, wrong: usize) {
    for a in chance.addresses(wrong) {
        scan[63 * i + a] ^= chance.error();
    }
}

/// The word is a line.
fn is_line(word: &[u8; 63]) {
    assert_eq!(film::read_line(word, 0, None, &mut [0; 63]), Ok(read_as(word, word)));
}

/// The sheet has its texts and numbers, every line is one and every column a clean word, and it is read in one round.
fn is_encoded(encoded: &Encoded) {
    let Encoded { texts, numbers, sheet } = encoded;
    let lines: Vec<&[u8; 63]> = sheet.chunks(63).map(|line| line.try_into().unwrap()).collect();
    for (line, (text, &due)) in lines.iter().zip(texts.chunks(50).zip(numbers)) {
        let mut alone = [0; 63];
        film::encode_line(text, due, &mut alone).unwrap();
        assert_eq!((**line, number(line)), (alone, due));
    }
    let mut marks = [0; 63];
    film::encode_line(&[0; 50], 0, &mut marks).unwrap();
    for a in 0..63 {
        is_line(lines[a]);
        // a clean word is a line with the marks on
        is_line(&core::array::from_fn(|i| lines[i][a] ^ marks[a] ^ marks[i]));
    }
    assert_eq!(read(sheet), (Ok(1), *sheet));
}

#[test]
fn encoding() {
    let mut chance = Chance(1);
    is_encoded(&encode([0; TEXTS], [0; NUMBERS]));
    is_encoded(&encode([63; TEXTS], [4095; NUMBERS]));
    for _ in 0..20 {
        is_encoded(&any(&mut chance));
    }
    assert_eq!((SHEET, TEXTS, NUMBERS, ROUNDS), (63 * 63, 50 * 52, 52, 8));
}

/// Up to five lines with any characters or with another line in them, and up to five wrong characters in each other: two rounds, or one where nothing is wrong.
#[test]
fn promise() {
    let mut chance = Chance(2);
    for (destroyed, wrong) in (0..=MOST).flat_map(|destroyed| (0..=MOST).map(move |wrong| (destroyed, wrong))) {
        for is_a_line in [false, true] {
            let sheet = any(&mut chance).sheet;
            let mut scan = sheet;
            for (k, i) in chance.addresses(63).into_iter().enumerate() {
                if k < destroyed {
                    let instead = if is_a_line { chance.line() } else { chance.characters() };
                    scan[63 * i..63 * i + 63].copy_from_slice(&instead);
                } else {
                    spoil_line(&mut chance, &mut scan, i, wrong);
                }
            }
            assert_eq!(read(&scan), (Ok(if destroyed + wrong > 0 { 2 } else { 1 }), sheet));
        }
    }
}

/// Six lines with six wrong characters each, in the same columns: neither lines nor columns can be read. They are left, in one round; where other lines have
/// wrong characters too, these are put right, in two.
#[test]
fn improper() {
    let mut chance = Chance(3);
    for wrong in (0..=MOST).cycle().take(24) {
        let mut scan = any(&mut chance).sheet;
        let (lines, columns) = (chance.addresses(63), chance.addresses(MOST + 1));
        let (six, others) = lines.split_at(MOST + 1);
        for (i, a) in six.iter().flat_map(|i| columns.iter().map(move |a| (i, a))) {
            scan[63 * i + a] ^= chance.error();
        }
        let left = scan;
        for &i in others {
            spoil_line(&mut chance, &mut scan, i, wrong);
        }
        let rounds = if wrong > 0 { 2 } else { 1 };
        assert_eq!(read(&scan), (Err(SheetRefusal::Improper { rounds }), left));
    }
}

/// A clean word: the sum of two lines.
fn clean(chance: &mut Chance) -> [u8; 63] {
    let (one, other) = (chance.line(), chance.line());
    core::array::from_fn(|a| one[a] ^ other[a])
}

/// Six lines with a clean word added that is nowhere 0: each line is one, no column can be read, and all is left as it is.
#[test]
fn lines_alone() {
    let mut chance = Chance(4);
    for _ in 0..8 {
        let mut scan = any(&mut chance).sheet;
        let mut added = [0; 63];
        while added.contains(&0) {
            added = clean(&mut chance);
        }
        for i in chance.addresses(MOST + 1) {
            for a in 0..63 {
                scan[63 * i + a] ^= added[a];
            }
        }
        assert_eq!(read(&scan), (Err(SheetRefusal::Improper { rounds: 1 }), scan));
    }
}

/// Six columns with clean words added: a line is read where one of them is 0, and the columns undo it where these are five lines at most. So the round ends as
/// it began, though it changed characters.
#[test]
fn columns_undo_lines() {
    let mut chance = Chance(5);
    let mut tried = 0;
    while tried < 8 {
        let mut scan = any(&mut chance).sheet;
        let mut zeros = std::collections::HashSet::new();
        for a in chance.addresses(MOST + 1) {
            for (i, c) in clean(&mut chance).into_iter().enumerate() {
                scan[63 * i + a] ^= c;
                if c == 0 {
                    zeros.insert(i);
                }
            }
        }
        if (1..=MOST).contains(&zeros.len()) {
            assert_eq!(read(&scan), (Err(SheetRefusal::Improper { rounds: 1 }), scan));
            tried += 1;
        }
    }
}

/// What an improper sheet and any other refusal are as a refusal alone, and how they are told.
#[test]
fn as_refusals() {
    let improper = SheetRefusal::Improper { rounds: 3 };
    assert_eq!((Refusal::from(improper), Refusal::from(improper).number()), (Refusal::ImproperSheet, 16));
    assert_eq!(improper.to_string(), Refusal::ImproperSheet.to_string());
    for &why in Refusal::ALL {
        assert_eq!(Refusal::from(SheetRefusal::Refused(why)), why);
        assert_eq!(SheetRefusal::Refused(why).to_string(), why.to_string());
    }
}

/// Reading is refused, and an output of a length is left alone.
fn reading_refused(due: Refusal, scan: &[u8], room: usize) {
    let mut out = vec![OLD; room];
    assert_eq!(film::read_sheet(scan, &mut out), Err(SheetRefusal::Refused(due)));
    assert_eq!(out, vec![OLD; room]);
}

/// Encoding is refused, and an output of a length is left alone.
fn encoding_refused(due: Refusal, texts: &[u8], numbers: &[u16], room: usize) {
    let mut out = vec![OLD; room];
    assert_eq!(film::encode_sheet(texts, numbers, &mut out), Err(due));
    assert_eq!(out, vec![OLD; room]);
}

/// Lengths that are not this one, those beside it among them.
fn wrong_lengths(length: usize) -> impl Iterator<Item = usize> {
    WRONG_LENGTHS.into_iter().chain([length - 1, length + 1])
}

/// The lengths of what is given come before the output's, and that before values.
#[test]
fn lengths() {
    let (scan, texts, numbers) = ([64; SHEET + 1], [64; TEXTS + 1], [4096; 126]);
    for length in wrong_lengths(SHEET) {
        reading_refused(Refusal::InputLength, &scan[..length], length);
        reading_refused(Refusal::InputLength, &scan[..length], SHEET);
        reading_refused(Refusal::OutputLength, &scan[..SHEET], length);
        encoding_refused(Refusal::OutputLength, &texts[..TEXTS], &numbers[..NUMBERS], length);
    }
    for (length, count) in wrong_lengths(TEXTS).zip(wrong_lengths(NUMBERS)) {
        for room in [SHEET, length] {
            encoding_refused(Refusal::InputLength, &texts[..length], &numbers[..NUMBERS], room);
            encoding_refused(Refusal::InputLength, &texts[..TEXTS], &numbers[..count], room);
            encoding_refused(Refusal::InputLength, &texts[..length], &numbers[..count], room);
        }
    }
}

/// A byte that is no character, at any place of a sheet or of its texts, where it comes before a number that is too large, at any place too.
#[test]
fn values_and_numbers() {
    let Encoded { texts, mut numbers, sheet } = any(&mut Chance(6));
    for (k, over) in (0..SHEET).zip(BYTES_OVER.into_iter().cycle()) {
        let mut high = sheet;
        high[k] = over;
        reading_refused(Refusal::ValueOver, &high, SHEET);
    }
    for (i, over) in (0..NUMBERS).zip(NUMBERS_OVER.into_iter().cycle()) {
        let mut high = numbers;
        high[i] = over;
        encoding_refused(Refusal::NumberOver, &texts, &high, SHEET);
    }
    numbers[0] = 4096;
    for (k, over) in (0..TEXTS).zip(BYTES_OVER.into_iter().cycle()) {
        let mut high = texts;
        high[k] = over;
        encoding_refused(Refusal::ValueOver, &high, &numbers, SHEET);
    }
}
