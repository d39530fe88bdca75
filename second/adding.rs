//! Lines merged by exclusive or, and clean words turned and reversed: the words that come out, and the line that each has to be read as.
//!
//! What is due is worked out without reading: the checks of a line are solved for from its first 52 characters, and those of lines merged are the sum
//! of theirs.

use crate::code::{added, distance, marks, with_errors, Code};
use crate::line::{self, random_errors, random_line, refused, told};
use crate::random::Random;
use crate::refusals;
use crate::ring::word_at;

/// A word, and the line that lies within five characters of it.
pub struct Tried {
    pub word: Vec<u8>,
    pub line: Vec<u8>,
}

impl Tried {
    /// What reading the word gives: the line where the radius reaches it, and else nothing.
    fn due(&self, radius: u8) -> line::Answer {
        match distance(&self.word, &self.line) {
            apart if apart <= radius as usize => ([vec![0], told(&self.word, &self.line)].concat(), self.line.clone()),
            _ => refused(refusals::NO_LINE, 63),
        }
    }

    /// Reading it gives what is due, at every radius.
    fn held(self, code: &Code) -> Tried {
        for radius in 0..=5 {
            assert_eq!(line::read(code, &self.word, radius, None, 63), self.due(radius));
        }
        self
    }
}

/// A line, and the characters of it that are scanned wrongly.
pub type Scan = (Vec<u8>, Vec<(usize, u8)>);

/// Scans merged. The lines alone would give a line or, an even number of them, a line that lacks its marks; no more characters of that are wrong than
/// in all the scans. So few may be wrong that the line lies within five characters.
pub fn merged(code: &Code, scans: &[Scan]) -> Tried {
    let sum = |words: Vec<Vec<u8>>| words.into_iter().reduce(|one, other| added(&one, &other)).expect("a scan");
    let lines = sum(scans.iter().map(|(line, _)| line.clone()).collect());
    let word = sum(scans.iter().map(|(line, errors)| with_errors(line, errors)).collect());
    let wrong: usize = scans.iter().map(|(_, errors)| errors.len()).sum();
    let line = code.line(&sum(scans.iter().map(|(line, _)| line[..52].to_vec()).collect()));
    let lacking = if scans.len() % 2 == 0 { 3 } else { 0 };
    assert_eq!(lines, if lacking == 0 { line.clone() } else { added(&line, &marks()) });
    assert!(distance(&word, &lines) <= wrong && distance(&word, &line) + wrong >= lacking && lacking + wrong <= 5);
    Tried { word, line }.held(code)
}

/// So many random lines, with so many wrong characters in all; at times some of the lines are the same.
pub fn random_scans(code: &Code, random: &mut Random, count: usize, wrong: usize) -> Vec<Scan> {
    let mut scans: Vec<Scan> = (0..count).map(|_| (random_line(code, random), Vec::new())).collect();
    for i in 1..count {
        if random.below(4) == 0 {
            scans[i].0 = scans[random.below(i)].0.clone();
        }
    }
    for _ in 0..wrong {
        let error = random_errors(random, 1);
        scans[random.below(count)].1.extend(error);
    }
    scans
}

/// A clean word turned or reversed, as a ring is taken at a start, with the marks put on.
pub fn moved(code: &Code, line: &[u8], start: usize) -> Tried {
    let word = added(&word_at(&added(line, &marks()), start), &marks());
    let line = code.line(&word[..52]);
    assert_eq!(word, line);
    Tried { word, line }.held(code)
}

/// A clean word reversed twice from a place, 0 to 62, with the marks put on.
pub fn reversed_twice(code: &Code, line: &[u8], place: usize) -> Tried {
    let reversed = |word: &[u8]| word_at(word, 63 + place);
    let word = added(&reversed(&reversed(&added(line, &marks()))), &marks());
    assert_eq!(word, line);
    Tried { word, line: line.to_vec() }.held(code)
}
