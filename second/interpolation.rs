//! Polynomials through points: the one through all of them, and the one of few coefficients through all but a few of them, as Gao finds it.
//!
//! A polynomial is its coefficients, the constant one first. The last is not 0, so 0 has none.

use crate::code::Code;

/// A place, and the value there.
pub type Point = (u8, u8);

/// A polynomial, and a multiple of another that is shifted up by so many places added.
fn with_multiple(code: &Code, polynomial: &[u8], factor: u8, shift: usize, other: &[u8]) -> Vec<u8> {
    let mut sum = polynomial.to_vec();
    sum.resize(sum.len().max(shift + other.len()), 0);
    for (c, &d) in sum[shift..].iter_mut().zip(other) {
        *c ^= code.product(factor, d);
    }
    let length = sum.iter().rposition(|&c| c != 0).map_or(0, |last| last + 1);
    sum.truncate(length);
    sum
}

/// A polynomial, and the product of two others added.
fn with_product(code: &Code, polynomial: &[u8], one: &[u8], other: &[u8]) -> Vec<u8> {
    one.iter().enumerate().fold(polynomial.to_vec(), |sum, (shift, &c)| with_multiple(code, &sum, c, shift, other))
}

/// The quotient and the remainder.
fn divided(code: &Code, polynomial: &[u8], by: &[u8]) -> (Vec<u8>, Vec<u8>) {
    let (mut quotient, mut rest) = (Vec::new(), polynomial.to_vec());
    while rest.len() >= by.len() {
        let (factor, shift) = (code.quotient(rest[rest.len() - 1], by[by.len() - 1]), rest.len() - by.len());
        quotient = with_multiple(code, &quotient, factor, shift, &[1]);
        rest = with_multiple(code, &rest, factor, shift, by);
    }
    (quotient, rest)
}

/// The product of x + X over the places X, and the polynomial through the points: they are taken one by one, each by a multiple of the product so far.
fn through(code: &Code, points: &[Point]) -> (Vec<u8>, Vec<u8>) {
    points.iter().fold((vec![1], Vec::new()), |(product, sum), &(x, y)| {
        let factor = code.quotient(y ^ code.value(&sum, x), code.value(&product, x));
        (with_product(code, &[], &[x, 1], &product), with_multiple(code, &sum, factor, 0, &product))
    })
}

/// The polynomial of so many coefficients at most that misses the fewest points, if it misses half of those over that many at most.
///
/// Times the product of x + X over the places X that it misses, it is the polynomial through the points times the same, but for a multiple of the product over
/// all places. Euclid's division comes to such a triple, and halfway it is this one.
pub fn nearly_through(code: &Code, points: &[Point], most: usize) -> Option<Vec<u8>> {
    let (mut before, mut rest) = through(code, points);
    let (mut factor_before, mut factor) = (Vec::new(), vec![1]);
    // halfway: the degree is below half of the points and the coefficients
    while 2 * rest.len() >= points.len() + most + 2 {
        let (quotient, next) = divided(code, &before, &rest);
        let next_factor = with_product(code, &factor_before, &quotient, &factor);
        (before, rest) = (rest, next);
        (factor_before, factor) = (factor, next_factor);
    }
    let (found, over) = divided(code, &rest, &factor);
    (over.is_empty() && found.len() <= most).then_some(found)
}
