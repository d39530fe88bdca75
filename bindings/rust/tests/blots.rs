//! Tests of reading a line with blots: every count of blots with every count of wrong characters, what stands at a blot, and the refusals in their order.

mod words;

use film::Refusal;
use words::{read_as, Chance, OLD, WRONG_LENGTHS};

/// A line, the word that was scanned of it, and the map of blots.
struct Scan {
    line: [u8; 63],
    word: [u8; 63],
    map: [u8; 63],
}

/// What stands at the blots: what was recorded, other characters everywhere, or either.
#[derive(Clone, Copy, PartialEq)]
enum Filling {
    Recorded,
    Spoilt,
    Either,
}

const FILLINGS: [Filling; 3] = [Filling::Recorded, Filling::Spoilt, Filling::Either];

/// A line with so many blots, and so many wrong characters outside them.
fn scan(chance: &mut Chance, blots: usize, wrong: usize, filling: Filling) -> Scan {
    let line = chance.line();
    let (mut word, mut map) = (line, [0; 63]);
    for (i, a) in chance.addresses(blots + wrong).into_iter().enumerate() {
        let is_blot = i < blots;
        map[a] = is_blot as u8;
        if !is_blot || filling == Filling::Spoilt || filling == Filling::Either && chance.below(2) == 1 {
            word[a] ^= chance.error();
        }
    }
    Scan { line, word, map }
}

/// The word and the map are refused, and an output of a length is left alone.
fn refused(due: Refusal, word: &[u8], map: &[u8], room: usize) {
    let mut out = vec![OLD; room];
    assert_eq!(film::read_blotted(word, map, &mut out), Err(due));
    assert_eq!(out, vec![OLD; room]);
}

#[test]
fn found() {
    let mut chance = Chance(1);
    for (blots, wrong) in (0..=11).flat_map(|blots| (0..=(11 - blots) / 2).map(move |wrong| (blots, wrong))) {
        for filling in FILLINGS.repeat(20) {
            let Scan { line, word, map } = scan(&mut chance, blots, wrong, filling);
            let mut out = [OLD; 63];
            assert_eq!(film::read_blotted(&word, &map, &mut out), Ok(read_as(&line, &word)));
            assert_eq!(out, line);
        }
    }
}

/// One wrong character too many for an even count of blots: any other line is too far away, since two lines differ in 12 addresses or more.
#[test]
fn not_found() {
    let mut chance = Chance(2);
    for blots in (0..12).step_by(2) {
        for filling in FILLINGS.repeat(20) {
            let Scan { word, map, .. } = scan(&mut chance, blots, (12 - blots) / 2, filling);
            refused(Refusal::NoLine, &word, &map, 63);
        }
    }
}

/// Eleven blots: whatever is seen, there is one line that has all of it. Twelve or more: there is none, even where nothing is wrong.
#[test]
fn always_and_never() {
    let mut chance = Chance(3);
    for _ in 0..40 {
        let map = scan(&mut chance, 11, 0, Filling::Recorded).map;
        let word = chance.characters();
        let (mut out, mut same) = ([OLD; 63], [OLD; 63]);
        assert_eq!(film::read_blotted(&word, &map, &mut out), Ok(read_as(&out, &word)));
        assert_eq!(film::read_line(&out, 0, None, &mut same).map(|read| read.distance), Ok(0));
        assert!((0..63).all(|a| map[a] == 1 || out[a] == word[a]));
    }
    for (blots, filling) in (12..=63).flat_map(|blots| FILLINGS.map(|filling| (blots, filling))) {
        let Scan { word, map, .. } = scan(&mut chance, blots, 0, filling);
        refused(Refusal::NoLine, &word, &map, 63);
    }
}

/// With no blot it is reading a line with radius 5.
#[test]
fn no_blots() {
    let mut chance = Chance(4);
    for wrong in (0..8).cycle().take(80) {
        let word = scan(&mut chance, 0, wrong, Filling::Recorded).word;
        let (mut out, mut due) = ([OLD; 63], [OLD; 63]);
        assert_eq!(film::read_blotted(&word, &[0; 63], &mut out), film::read_line(&word, 5, None, &mut due));
        assert_eq!(out, due);
    }
}

/// Lengths come before values, and those before too many blots.
#[test]
fn lengths() {
    let (word, mut map) = ([64; 126], [1; 126]);
    map[40] = 2;
    for length in WRONG_LENGTHS {
        for room in [62, 63, length] {
            refused(Refusal::InputLength, &word[..length], &map[..63], room);
            refused(Refusal::InputLength, &word[..63], &map[..length], room);
            refused(Refusal::InputLength, &word[..length], &map[..length], room);
        }
        refused(Refusal::OutputLength, &word[..63], &map[..63], length);
    }
}

/// A byte that is no character, or none of a map, at any address: at a blot too, and with too many blots.
#[test]
fn values() {
    let mut chance = Chance(5);
    for (a, blots) in (0..63).flat_map(|a| (0..14).map(move |blots| (a, blots))) {
        let Scan { line, mut word, mut map } = scan(&mut chance, blots, 0, Filling::Either);
        map[a] = (blots % 2) as u8;
        word[a] = [64, 255, 64 + chance.below(192) as u8][blots % 3];
        refused(Refusal::ValueOver, &word, &map, 63);
        word[a] = line[a];
        map[a] = [2, 255, 2 + chance.below(254) as u8][blots % 3];
        refused(Refusal::ValueOver, &word, &map, 63);
    }
}
