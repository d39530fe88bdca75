//! The field of 64 elements by logarithms: a product adds exponents, and a quotient is looked for among all elements.

/// The powers of 2 in order, each the one before it shifted and, where it leaves six bits, reduced by x^6 + x + 1.
pub fn powers() -> [u8; 63] {
    let mut powers = [0; 63];
    let mut x: u8 = 1;
    for p in powers.iter_mut() {
        *p = x;
        x <<= 1;
        if x > 63 {
            x ^= 0b1000011;
        }
    }
    powers
}

/// The exponent of an element that is not 0.
pub fn log(x: u8) -> usize {
    powers().iter().position(|&p| p == x).expect("an element that is not 0")
}

pub fn product(u: u8, v: u8) -> u8 {
    if u == 0 || v == 0 {
        return 0;
    }
    powers()[(log(u) + log(v)) % 63]
}

/// The one w with v w = u. By 0 there is none: no w has the product u, or, where u is 0, every w has it.
pub fn quotient(u: u8, v: u8) -> Option<u8> {
    let all: Vec<u8> = (0..64).filter(|&w| product(v, w) == u).collect();
    assert_eq!(all.len(), if v != 0 { 1 } else if u != 0 { 0 } else { 64 });
    if all.len() == 1 { Some(all[0]) } else { None }
}
