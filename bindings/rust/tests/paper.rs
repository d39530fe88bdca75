//! Tests of reading a line by the method of 1968: what is due where the line is known, what `read_line` gives for any word, and the refusals in their order.

mod words;

use film::{LineRead, Refusal};
use words::{number, read_as, Chance, OLD, WRONG_LENGTHS};

/// What reading a word by the method of 1968 gives, and leaves in an output of 63 bytes.
fn read(word: &[u8], radius: u8, wanted: Option<u16>) -> (Result<LineRead, Refusal>, [u8; 63]) {
    let mut out = [OLD; 63];
    (film::read_line_paper(word, radius, wanted, &mut out), out)
}

/// The same by the library's own reading.
fn read_otherwise(word: &[u8], radius: u8, wanted: Option<u16>) -> (Result<LineRead, Refusal>, [u8; 63]) {
    let mut out = [OLD; 63];
    (film::read_line(word, radius, wanted, &mut out), out)
}

/// A line, and the word with so many wrong characters.
fn scan(chance: &mut Chance, wrong: usize) -> ([u8; 63], [u8; 63]) {
    let line = chance.line();
    let mut word = line;
    for a in chance.addresses(wrong) {
        word[a] ^= chance.error();
    }
    (line, word)
}

/// The word is read as the line, with no wanted number and with its own; any other is refused, one that the word shows too.
fn is_read(chance: &mut Chance, line: &[u8; 63], word: &[u8; 63], radius: u8) {
    let due = read_as(line, word);
    for wanted in [None, Some(due.number)] {
        assert_eq!(read(word, radius, wanted), (Ok(due), *line));
    }
    let another = (due.number + 1 + chance.below(4095) as u16) % 4096;
    for wanted in [another, number(word)].into_iter().filter(|&wanted| wanted != due.number) {
        assert_eq!(read(word, radius, Some(wanted)), (Err(Refusal::OtherNumber), [OLD; 63]));
    }
}

/// There is no line, whichever number is wanted; one that is too large is refused before.
fn is_no_line(word: &[u8; 63], radius: u8) {
    for wanted in [None, Some(0), Some(4095), Some(number(word))] {
        assert_eq!(read(word, radius, wanted), (Err(Refusal::NoLine), [OLD; 63]));
    }
    assert_eq!(read(word, radius, Some(4096)), (Err(Refusal::NumberOver), [OLD; 63]));
}

/// Every count of wrong characters at every radius: with six at most any other line is too far away, since two lines differ in 12 addresses or more.
#[test]
fn every_count() {
    let mut chance = Chance(1);
    for (radius, wrong) in (0..=5).flat_map(|radius| (0..=6).map(move |wrong| (radius, wrong))) {
        for _ in 0..40 {
            let (line, word) = scan(&mut chance, wrong);
            if wrong <= radius as usize {
                is_read(&mut chance, &line, &word, radius);
            } else {
                is_no_line(&word, radius);
            }
        }
    }
}

/// Every one and every two addresses, with equal values and with any.
#[test]
fn every_two_addresses() {
    let mut chance = Chance(2);
    for (a, b) in (0..63).flat_map(|a| (a..63).map(move |b| (a, b))) {
        let line = chance.line();
        let value = chance.error();
        for other in [value, chance.error()] {
            let mut word = line;
            word[b] ^= other;
            word[a] = line[a] ^ value;
            is_read(&mut chance, &line, &word, 2);
            is_read(&mut chance, &line, &word, 5);
        }
    }
}

/// Up to five wrong characters of one value.
#[test]
fn equal_values() {
    let mut chance = Chance(3);
    for (value, wrong) in (1..64).flat_map(|value| (1..=5).map(move |wrong| (value, wrong))) {
        let line = chance.line();
        let mut word = line;
        for a in chance.addresses(wrong as usize) {
            word[a] ^= value;
        }
        is_read(&mut chance, &line, &word, wrong);
        is_no_line(&word, wrong - 1);
    }
}

/// Six wrong characters whose first ten sums are those of five: the last sum alone tells that there is no line.
#[test]
fn six_as_five() {
    let mut word = Chance(6).line();
    for (a, value) in [1, 1, 4, 4, 5, 3].into_iter().enumerate() {
        word[a] ^= value;
    }
    for radius in 0..=5 {
        is_no_line(&word, radius);
    }
}

/// Lines with any count of wrong characters, and words with any characters and with bytes that are none: every radius up to 7, and every kind of wanted number.
#[test]
fn any_word() {
    let mut chance = Chance(4);
    for wrong in (0..=63).cycle().take(640) {
        let (line, word) = scan(&mut chance, wrong);
        let mut high = word;
        high[chance.below(63)] = 60 + chance.below(8) as u8;
        for word in [word, high, chance.characters(), [chance.below(64) as u8; 63]] {
            for wanted in [None, Some(number(&line)), Some(chance.below(4096) as u16), Some(4096)] {
                for radius in 0..=7 {
                    assert_eq!(read(&word, radius, wanted), read_otherwise(&word, radius, wanted));
                }
            }
        }
    }
}

/// Refused with no wanted number, with one that a line can carry, and with one too large; an output of a length is left alone.
fn refused(due: Refusal, word: &[u8], radius: u8, room: usize) {
    for wanted in [None, Some(0), Some(65535)] {
        let mut out = vec![OLD; room];
        assert_eq!(film::read_line_paper(word, radius, wanted, &mut out), Err(due));
        assert_eq!(out, vec![OLD; room]);
    }
}

/// Lengths come before values, and those before the radius.
#[test]
fn lengths() {
    let word = [64; 126];
    for length in WRONG_LENGTHS {
        for room in [62, 63, length] {
            refused(Refusal::InputLength, &word[..length], 6, room);
        }
        refused(Refusal::OutputLength, &word[..63], 6, length);
    }
}

/// A byte that is no character, at any address, comes before the radius, and that before the wanted number.
#[test]
fn values_radii_and_numbers() {
    let mut chance = Chance(5);
    for a in 0..63 {
        let (_, word) = scan(&mut chance, a % 8);
        for over in [64, 65, 127, 128, 192, 255] {
            let mut high = word;
            high[a] = over;
            refused(Refusal::ValueOver, &high, 5, 63);
            refused(Refusal::ValueOver, &high, 6, 63);
        }
        for radius in [6, 7, 8, 64, 128, 255] {
            refused(Refusal::RadiusOver, &word, radius, 63);
        }
        for wanted in [4096, 4097, 8191, 32768, 65535] {
            assert_eq!(read(&word, 5, Some(wanted)), (Err(Refusal::NumberOver), [OLD; 63]));
        }
    }
}
