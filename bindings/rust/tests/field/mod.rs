//! What the tests that work in the field share: a product, by no table.

/// The product of polynomials over bits, reduced by x^6 + x + 1.
pub fn of_polynomials(u: u8, v: u8) -> u8 {
    let reduced = |p: u8| if p < 64 { p } else { p ^ 0b1000011 };
    (0..6).rev().fold(0, |product, k| reduced(2 * product) ^ ((v >> k & 1) * u))
}
