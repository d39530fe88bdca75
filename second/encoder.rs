//! Lines and registers by interpolation: a remainder is the one polynomial of degree at most 10 with the right values at the eleven roots of
//! the generator. Nothing is divided, and the generator is not used.

use crate::field::{log, powers, product};
use crate::refusals;

const UNTOUCHED: u8 = 170;

/// 32 at address 52, 8 at 55, 1 at 62, as places among the eleven checks.
const MARKS: [(usize, u8); 3] = [(0, 32), (3, 8), (10, 1)];

fn power(x: u8, n: usize) -> u8 {
    if x == 0 {
        return (n == 0) as u8;
    }
    powers()[log(x) * n % 63]
}

fn inverse(x: u8) -> u8 {
    powers()[(63 - log(x)) % 63]
}

/// α^j for j from -5 to 5.
fn roots() -> Vec<u8> {
    (0..11).map(|k| powers()[(58 + k) % 63]).collect()
}

/// The value at x of a polynomial, its highest coefficient first, term by term.
fn value(coefficients: &[u8], x: u8) -> u8 {
    let n = coefficients.len();
    coefficients.iter().enumerate().map(|(a, &c)| product(c, power(x, n - 1 - a))).fold(0, |s, t| s ^ t)
}

/// The polynomial of degree at most 10, highest coefficient first, that has these values at the roots: Lagrange's sum of products.
fn interpolated(values: &[u8]) -> Vec<u8> {
    let roots = roots();
    let mut sum = vec![0; 11];
    for (k, &root) in roots.iter().enumerate() {
        // the product of (x + r) / (root + r) over the other roots r, lowest coefficient first
        let mut basis = vec![1u8];
        for &other in roots.iter().filter(|&&r| r != root) {
            let scale = inverse(root ^ other);
            let mut longer = vec![0; basis.len() + 1];
            for (i, &b) in basis.iter().enumerate() {
                longer[i] ^= product(product(b, other), scale);
                longer[i + 1] ^= product(b, scale);
            }
            basis = longer;
        }
        for (i, &b) in basis.iter().enumerate() {
            sum[10 - i] ^= product(values[k], b);
        }
    }
    sum
}

/// What is left of x^11 times a polynomial.
fn remainder(characters: &[u8]) -> Vec<u8> {
    interpolated(&roots().iter().map(|&x| product(value(characters, x), power(x, 11))).collect::<Vec<u8>>())
}

fn marked(held: &[u8]) -> Vec<u8> {
    let mut checks = held.to_vec();
    for (place, mark) in MARKS {
        checks[place] ^= mark;
    }
    checks
}

/// The 52 characters of a text and a number.
pub fn information(text: &[u8], number: u16) -> Vec<u8> {
    let mut all = text.to_vec();
    all.extend([(number >> 6) as u8, (number & 63) as u8]);
    all
}

/// The answer of encoding at once, and the output.
pub fn encode(text: &[u8], number: u16, room: usize) -> (u8, Vec<u8>) {
    let refused = |answer| (answer, vec![UNTOUCHED; room]);
    if text.len() != 50 {
        return refused(refusals::INPUT_LENGTH);
    }
    if room != 63 {
        return refused(refusals::OUTPUT_LENGTH);
    }
    if text.iter().any(|&c| c > 63) {
        return refused(refusals::VALUE_OVER);
    }
    if number > 4095 {
        return refused(refusals::NUMBER_OVER);
    }
    let mut word = information(text, number);
    let rest = remainder(&word);
    word.extend(&rest);
    assert!(roots().iter().all(|&x| value(&word, x) == 0), "a clean word");
    word.truncate(52);
    word.extend(marked(&rest));
    (0, word)
}

#[derive(Clone)]
pub struct Register {
    pub held: Vec<u8>,
    pub count: u8,
}

impl Register {
    pub fn step(&mut self, c: u8) -> u8 {
        if self.count >= 52 {
            return refusals::REGISTER_FULL;
        }
        if c > 63 || self.held.iter().any(|&h| h > 63) {
            return refusals::VALUE_OVER;
        }
        let values: Vec<u8> = roots().iter().map(|&x| product(value(&self.held, x), x) ^ product(c, power(x, 11))).collect();
        self.held = interpolated(&values);
        self.count += 1;
        0
    }

    pub fn checks(&self) -> (u8, Vec<u8>) {
        let refused = |answer| (answer, vec![0; 11]);
        if self.count > 52 {
            return refused(refusals::REGISTER_FULL);
        }
        if self.count < 52 {
            return refused(refusals::REGISTER_SHORT);
        }
        if self.held.iter().any(|&h| h > 63) {
            return refused(refusals::VALUE_OVER);
        }
        (0, marked(&self.held))
    }
}
