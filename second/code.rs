//! Words and lines by matrices: sums by the check matrix, lines by elimination, the nearest line by the shortest recurrence of the sums.
//!
//! The errors are found as Berlekamp, Massey and Forney do it. `trial` finds them a second time, by trying every four addresses: what stands there
//! is taken out of the sums, and 001's rule for one wrong character gives the fifth address.

use crate::field;
use std::array::from_fn;

/// The eleven sums of a word, S_-5 first.
pub type Sums = [u8; 11];

pub struct Code {
    products: [[u8; 64]; 64],
    inverses: [u8; 64],
    /// 62 - a is the exponent of the place of address a.
    places: [u8; 63],
    /// Row k has α^((k - 5)(62 - a)) at address a.
    checks: [[u8; 63]; 11],
}

/// 32 at 52, 8 at 55, 1 at 62, else 0.
pub fn marks() -> Vec<u8> {
    (0..63).map(|a| if a == 52 { 32 } else if a == 55 { 8 } else if a == 62 { 1 } else { 0 }).collect()
}

/// Two words added, character by character.
pub fn added(one: &[u8], other: &[u8]) -> Vec<u8> {
    one.iter().zip(other).map(|(c, d)| c ^ d).collect()
}

/// A word with values added at addresses.
pub fn with_errors(word: &[u8], errors: &[(usize, u8)]) -> Vec<u8> {
    let mut other = word.to_vec();
    for &(address, value) in errors {
        other[address] ^= value;
    }
    other
}

pub fn distance(one: &[u8], other: &[u8]) -> usize {
    one.iter().zip(other).filter(|(c, d)| c != d).count()
}

/// The first and the last address at which two words differ, both 63 where they do not: the words are held against each other from either end.
pub fn changed(one: &[u8], other: &[u8]) -> [usize; 2] {
    let differs = |&a: &usize| one[a] != other[a];
    [(0..63).find(differs), (0..63).rfind(differs)].map(|address| address.unwrap_or(63))
}

impl Code {
    pub fn new() -> Code {
        let powers = field::powers();
        let mut inverses = [0; 64];
        for x in 1..64 {
            inverses[x as usize] = powers[(63 - field::log(x)) % 63];
        }
        Code {
            products: from_fn(|u| from_fn(|v| field::product(u as u8, v as u8))),
            inverses,
            places: from_fn(|a| powers[62 - a]),
            checks: from_fn(|k| from_fn(|a| powers[(58 + k) * (62 - a) % 63])),
        }
    }

    pub fn product(&self, u: u8, v: u8) -> u8 {
        self.products[u as usize][v as usize]
    }

    pub fn quotient(&self, u: u8, v: u8) -> u8 {
        assert_ne!(v, 0, "no quotient by 0 is ever needed");
        self.product(u, self.inverses[v as usize])
    }

    /// The place of an address.
    pub fn place(&self, address: usize) -> u8 {
        self.places[address]
    }

    /// The value of a polynomial, its constant coefficient first.
    pub fn value(&self, polynomial: &[u8], x: u8) -> u8 {
        polynomial.iter().rev().fold(0, |value, &c| self.product(value, x) ^ c)
    }

    /// The check matrix times the word.
    pub fn sums(&self, word: &[u8]) -> Sums {
        from_fn(|k| (0..63).fold(0, |sum, a| sum ^ self.product(self.checks[k][a], word[a])))
    }

    pub fn error_sums(&self, errors: &[(usize, u8)]) -> Sums {
        self.sums(&with_errors(&[0; 63], errors))
    }

    /// The values at eleven addresses that have these sums: the columns of the check matrix there are reduced to the unit matrix.
    pub fn solved(&self, addresses: &[usize], sums: Sums) -> Vec<(usize, u8)> {
        assert_eq!(addresses.len(), 11);
        let mut rows: Vec<Vec<u8>> = (0..11).map(|k| addresses.iter().map(|&a| self.checks[k][a]).chain([sums[k]]).collect()).collect();
        for i in 0..11 {
            let pivot = (i..11).find(|&k| rows[k][i] != 0).expect("any eleven columns are independent");
            rows.swap(i, pivot);
            let lead = rows[i][i];
            let row: Vec<u8> = rows[i].iter().map(|&x| self.quotient(x, lead)).collect();
            for other in rows.iter_mut() {
                let factor = other[i];
                for (x, &y) in other.iter_mut().zip(&row) {
                    *x ^= self.product(factor, y);
                }
            }
            rows[i] = row;
        }
        addresses.iter().copied().zip(rows.iter().map(|row| row[11])).collect()
    }

    /// The line with these 52 characters: the checks are solved for.
    pub fn line(&self, information: &[u8]) -> Vec<u8> {
        let mut word = information.to_vec();
        word.resize(63, 0);
        let lacking = added(&self.sums(&word), &self.sums(&marks()));
        with_errors(&word, &self.solved(&(52..63).collect::<Vec<usize>>(), lacking.try_into().unwrap()))
    }

    pub fn is_line(&self, word: &[u8]) -> bool {
        self.sums(word) == self.sums(&marks())
    }

    /// The shortest recurrence that gives these sums one from another: its length, and its coefficients, 1 first.
    pub fn recurrence(&self, sums: &[u8]) -> (usize, Vec<u8>) {
        let (mut now, mut before) = (vec![1], vec![1]);
        let (mut length, mut age, mut gap_before) = (0, 1, 1);
        for n in 0..sums.len() {
            let gap = (0..=length).fold(0, |gap, i| gap ^ self.product(now.get(i).copied().unwrap_or(0), sums[n - i]));
            if gap == 0 {
                age += 1;
                continue;
            }
            let mut next: Vec<u8> = now.clone();
            next.resize(now.len().max(before.len() + age), 0);
            for (i, &c) in before.iter().enumerate() {
                next[i + age] ^= self.product(self.quotient(gap, gap_before), c);
            }
            if 2 * length <= n {
                length = n + 1 - length;
                (before, gap_before, age) = (now, gap, 1);
            } else {
                age += 1;
            }
            now = next;
        }
        (length, now)
    }

    /// The sums, these first, that a recurrence gives.
    pub fn continued(&self, first: &[u8], recurrence: &[u8]) -> Sums {
        let mut sums = [0; 11];
        sums[..first.len()].copy_from_slice(first);
        for n in first.len()..11 {
            sums[n] = (1..recurrence.len()).fold(0, |sum, i| sum ^ self.product(recurrence[i], sums[n - i]));
        }
        sums
    }

    /// The recurrence that has these addresses for its roots: the product of (1 + Xx).
    pub fn with_roots(&self, addresses: &[usize]) -> Vec<u8> {
        addresses.iter().fold(vec![1], |p, &a| {
            let shifted: Vec<u8> = [0].into_iter().chain(p.iter().map(|&c| self.product(self.places[a], c))).collect();
            p.iter().chain(&[0]).zip(&shifted).map(|(c, d)| c ^ d).collect()
        })
    }

    /// The addresses whose places are roots of a recurrence, tried one by one.
    pub fn roots(&self, recurrence: &[u8]) -> Vec<usize> {
        (0..63).filter(|&a| self.value(recurrence, self.inverses[self.places[a] as usize]) == 0).collect()
    }

    /// The errors, five at most, that have these sums.
    pub fn errors(&self, sums: &Sums) -> Option<Vec<(usize, u8)>> {
        let (length, recurrence) = self.recurrence(sums);
        let addresses = self.roots(&recurrence);
        if length > 5 || addresses.len() != length {
            return None;
        }
        // Forney's quotient times the place, and five times more, since the sums begin at S_-5; the derivative keeps the odd coefficients
        let top: Vec<u8> = (0..length).map(|n| (0..=n).fold(0, |sum, i| sum ^ self.product(recurrence[i], sums[n - i]))).collect();
        let slope: Vec<u8> = (1..=length).map(|i| if i % 2 == 1 { recurrence[i] } else { 0 }).collect();
        let value = |a: usize| {
            let (x, y) = (self.places[a], self.inverses[self.places[a] as usize]);
            (0..6).fold(self.quotient(self.value(&top, y), self.value(&slope, y)), |v, _| self.product(v, x))
        };
        let errors: Vec<(usize, u8)> = addresses.iter().map(|&a| (a, value(a))).collect();
        assert!(errors.iter().all(|&(_, value)| value != 0));
        assert_eq!(self.error_sums(&errors), *sums);
        Some(errors)
    }

    /// The line within five of a word: its sums are those of the marks, and its first 52 characters give the whole of it.
    pub fn nearest(&self, word: &[u8]) -> Option<Vec<u8>> {
        let line = with_errors(word, &self.errors(&self.to_mend(word))?);
        assert!(self.is_line(&line) && line == self.line(&line[..52]) && distance(word, &line) <= 5);
        Some(line)
    }

    /// The sums that the errors of a word have: its own and those of the marks.
    pub fn to_mend(&self, word: &[u8]) -> Sums {
        self.sums(&added(word, &marks()))
    }

    /// The sums, one fewer, that are left when whatever stands at one place is taken out.
    fn without<const N: usize>(&self, sums: &[u8], x: u8) -> [u8; N] {
        from_fn(|i| sums[i + 1] ^ self.product(x, sums[i]))
    }

    /// The address of the one error that has these sums, each of which is the place times the one before it.
    fn alone(&self, sums: &[u8]) -> Option<usize> {
        if sums[0] == 0 {
            return None;
        }
        let x = self.quotient(sums[1], sums[0]);
        if (1..sums.len()).any(|i| sums[i] != self.product(x, sums[i - 1])) {
            return None;
        }
        self.places.iter().position(|&place| place == x)
    }

    /// Five addresses such that errors there have these sums, found by trying every four of them.
    pub fn trial(&self, sums: &Sums) -> Option<[usize; 5]> {
        for a in 0..63 {
            let s: [u8; 10] = self.without(sums, self.places[a]);
            for b in a + 1..63 {
                let s: [u8; 9] = self.without(&s, self.places[b]);
                for c in b + 1..63 {
                    let s: [u8; 8] = self.without(&s, self.places[c]);
                    for d in c + 1..63 {
                        let s: [u8; 7] = self.without(&s, self.places[d]);
                        if s == [0; 7] {
                            return Some([a, b, c, d, d]);
                        }
                        // nothing is left at the four, so sums that grow by one of their places are those of no error
                        if let Some(e) = self.alone(&s).filter(|e| ![a, b, c, d].contains(e)) {
                            return Some([a, b, c, d, e]);
                        }
                    }
                }
            }
        }
        None
    }
}
