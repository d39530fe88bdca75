//! The parts of the comparison that read lines, in the library's own way and in the paper's: both are held against the second program, which finds the errors
//! by the shortest recurrence of the sums and Forney's quotient, where 001 solves square systems and tries roots.
//!
//! Both must give what it gives, so that they are the same in every field and byte. Whatever the comparison reads as a line is read in both ways; here are all
//! radii and numbers, each refusal before the next, and words that meet the special cases of 1968.

use crate::blotted::{of_length, LENGTHS};
use crate::code::{with_errors, Code};
use crate::interface::*;
use crate::line::{self, number, random_addresses, random_errors, random_line, with_sums, with_values};
use crate::{line_numbers, twice, Comparison};

/// The most wrong characters that a line is read with.
const MOST: usize = 5;

/// How many words of each kind are read before the rounds.
const TIMES: usize = 2;

/// A function that reads a line, and one that reads a line with a wanted number.
type Read = unsafe extern "C" fn(*const u8, usize, u8, *mut u8, usize) -> Line;
type ReadWanted = unsafe extern "C" fn(*const u8, usize, u8, u16, *mut u8, usize) -> Line;

/// The library's own way, and the paper's.
const WAYS: [(&str, Read); 2] = [("read_line", film_read_line), ("read_line_paper", film_read_line_paper)];
const WAYS_WANTED: [(&str, ReadWanted); 2] = [("read_line_wanted", film_read_line_wanted), ("read_line_paper_wanted", film_read_line_paper_wanted)];

/// Errors at these addresses with as many sums in a row 0 as can be, one fewer than there are errors, from the k-th on: the sum of X^m over the product of
/// X + Y for the other places Y is 0 where m is small enough. Of two errors S_0 alone is 0 where they are equal.
fn with_zero_sums(code: &Code, addresses: &[usize], k: usize, scale: u8) -> Vec<(usize, u8)> {
    let value = |a: usize| {
        let others = addresses.iter().filter(|&&b| b != a);
        let product = others.fold(code.error_sums(&[(a, 1)])[k], |product, &b| code.product(product, code.place(a) ^ code.place(b)));
        code.quotient(scale, product)
    };
    let errors: Vec<(usize, u8)> = addresses.iter().map(|&a| (a, value(a))).collect();
    assert!(code.error_sums(&errors)[k..].iter().take(addresses.len() - 1).all(|&sum| sum == 0));
    errors
}

impl Comparison {
    /// Reads a word in both ways.
    pub fn read_line(&mut self, word: &[u8], radius: u8, wanted: Option<u16>, room: usize) {
        let due = line::read(&self.code, word, radius, wanted, room);
        match wanted {
            None => {
                for (name, read) in WAYS {
                    self.call(name, word, &[radius as usize], due.clone(), |given, out| unsafe {
                        line_numbers(&read(given, word.len(), radius, out, room))
                    });
                }
            }
            Some(wanted) => {
                for (name, read) in WAYS_WANTED {
                    self.call(name, word, &[radius as usize, wanted as usize], due.clone(), |given, out| unsafe {
                        line_numbers(&read(given, word.len(), radius, wanted, out, room))
                    });
                }
            }
        }
    }

    /// Reads a word at every radius and one over, with no wanted number, with the number at its characters, and with another.
    fn at_each_radius(&mut self, word: &[u8]) {
        let near = number(word);
        for radius in 0..=MOST as u8 + 1 {
            for wanted in [None, Some(near), Some(near ^ 1)] {
                self.read_line(word, radius, wanted, 63);
            }
        }
    }

    /// A line with these errors, at every radius.
    fn with_each_radius(&mut self, errors: &[(usize, u8)]) {
        let word = with_errors(&random_line(&self.code, &mut self.random), errors);
        self.at_each_radius(&word);
    }

    /// Up to eight wrong characters, at every radius that fits a byte.
    fn every_radius(&mut self) {
        for (wrong, radius) in (0..=8).flat_map(|wrong| (0..=255).map(move |radius| (wrong, radius))) {
            let line = random_line(&self.code, &mut self.random);
            let word = with_errors(&line, &random_errors(&mut self.random, wrong));
            for wanted in [None, Some(number(&line)), Some(number(&line) ^ 4095), Some(4096)] {
                self.read_line(&word, radius, wanted, 63);
            }
        }
    }

    /// Every wanted number, and some over: of a line that carries it, or its lowest twelve bits, and of the same line each time.
    fn every_number(&mut self) {
        let other = random_line(&self.code, &mut self.random);
        for wanted in (0..=4100).chain([8191, 8192, 32768, 61440, 65535]) {
            let [high, low] = [wanted / 64 % 64, wanted % 64].map(|c| c as u8);
            let line = self.code.line(&[self.random.bytes(50, 64), vec![high, low]].concat());
            let word = with_errors(&line, &random_errors(&mut self.random, wanted as usize % (MOST + 2)));
            for word in [&word, &other] {
                self.read_line(word, MOST as u8, Some(wanted), 63);
            }
        }
    }

    /// All that can be refused at once: both lengths, a character that is too high, the radius, a number over 4095, no line, and another number.
    fn refusals_of_lines(&mut self) {
        for (wrong, high) in [(0, 0), (2, 0), (8, 0), (0, 64), (2, 128), (8, 192)] {
            let line = random_line(&self.code, &mut self.random);
            let mut word = with_errors(&line, &random_errors(&mut self.random, wrong));
            word[self.random.below(62)] |= high;
            for way in 0..64 {
                let ([length, room], radius) = ([way / 16, way / 4 % 4].map(|i| LENGTHS[i]), [1, 5, 6, 255][way % 4]);
                for wanted in [None, Some(number(&line)), Some(number(&line) ^ 1), Some(4096)] {
                    self.read_line(&of_length(&word, length), radius, wanted, room);
                }
            }
        }
    }

    /// So many errors with as many sums in a row 0 as can be, from the k-th on: two with S_0 or S_1 0, and more whose systems have 0 where one divides.
    fn zero_sums(&mut self, count: usize, k: usize) {
        let addresses = random_addresses(&mut self.random, count);
        let errors = with_zero_sums(&self.code, &addresses, k, 1 + self.random.below(63) as u8);
        self.with_each_radius(&errors);
    }

    /// Wrong characters at either end of a word or at both, where the place is the highest power or 1, and at so many addresses between.
    fn ends(&mut self, between: usize) {
        for ends in [vec![0], vec![62], vec![0, 62]] {
            let others = random_addresses(&mut self.random, 63).into_iter().filter(|a| !ends.contains(a)).take(between);
            let addresses: Vec<usize> = ends.iter().copied().chain(others).collect();
            let errors = with_values(&mut self.random, &addresses);
            self.with_each_radius(&errors);
        }
    }

    /// Words whose sums follow a recurrence of so many terms, and the same but for the last sum: its roots are places, or any elements if there are so many, or
    /// 0 is one of them; and one that has a place for its root twice.
    fn recurrences(&mut self, terms: usize) {
        let any = [vec![1], self.random.bytes(terms, 64)].concat();
        let with_zero = [&any[..terms], &[0]].concat();
        let with_places = self.code.with_roots(&random_addresses(&mut self.random, terms));
        for recurrence in [any, with_zero, with_places] {
            let sums = self.code.continued(&self.random.bytes(terms, 64), &recurrence);
            for last in [0, 1 + self.random.below(63) as u8] {
                let mut sums = sums;
                sums[10] ^= last;
                let word = with_sums(&self.code, &mut self.random, sums);
                self.at_each_radius(&word);
            }
        }
        if terms > 1 {
            let word = twice::random_word(&self.code, &mut self.random, terms);
            self.at_each_radius(&word);
        }
    }

    fn noise(&mut self) {
        let word = self.random.bytes(63, 64);
        self.at_each_radius(&word);
    }

    /// All that is tried once.
    pub fn paper(&mut self) {
        self.every_radius();
        self.every_number();
        self.refusals_of_lines();
        for _ in 0..TIMES {
            for (count, k) in (2..=MOST).flat_map(|count| (0..=12 - count).map(move |k| (count, k))) {
                self.zero_sums(count, k);
            }
            for n in 0..MOST {
                self.ends(n);
                self.recurrences(n + 1);
                self.noise();
            }
        }
    }

    /// One of each kind, of any count.
    pub fn any_paper(&mut self) {
        let count = 2 + self.random.below(MOST - 1);
        let k = self.random.below(13 - count);
        self.zero_sums(count, k);
        let n = self.random.below(MOST);
        self.ends(n);
        self.recurrences(n + 1);
        self.noise();
    }
}
