//! What the tests that read one word share: lines and addresses by chance, and what reading a word has to give.

use film::LineRead;

/// What stands in each byte of an output that is lent.
pub const OLD: u8 = 170;

/// Lengths that are not 63.
pub const WRONG_LENGTHS: [usize; 5] = [0, 1, 62, 64, 126];

/// Numbers that look like chance, the same in every run.
pub struct Chance(pub u32);

impl Chance {
    pub fn below(&mut self, bound: usize) -> usize {
        self.0 = self.0.wrapping_mul(1664525).wrapping_add(1013904223);
        (self.0 >> 8) as usize % bound
    }

    /// So many characters.
    pub fn characters<const N: usize>(&mut self) -> [u8; N] {
        core::array::from_fn(|_| self.below(64) as u8)
    }

    pub fn line(&mut self) -> [u8; 63] {
        let mut line = [0; 63];
        film::encode_line(&self.characters::<50>(), self.below(4096) as u16, &mut line).unwrap();
        line
    }

    /// So many different addresses.
    pub fn addresses(&mut self, count: usize) -> Vec<usize> {
        let mut addresses: Vec<usize> = (0..63).collect();
        for i in 0..count {
            addresses.swap(i, i + self.below(63 - i));
        }
        addresses.truncate(count);
        addresses
    }

    /// What makes another character of one.
    pub fn error(&mut self) -> u8 {
        1 + self.below(63) as u8
    }
}

/// The number in a word.
pub fn number(word: &[u8; 63]) -> u16 {
    64 * word[50] as u16 + word[51] as u16
}

/// What reading a word has to give where it is read as this line.
pub fn read_as(line: &[u8; 63], word: &[u8; 63]) -> LineRead {
    let changed: Vec<u8> = (0..63).filter(|&a| line[a as usize] != word[a as usize]).collect();
    LineRead {
        number: number(line),
        distance: changed.len() as u8,
        first: *changed.first().unwrap_or(&film::NOWHERE),
        last: *changed.last().unwrap_or(&film::NOWHERE),
    }
}
