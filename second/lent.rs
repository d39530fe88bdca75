//! Bytes that are lent to the library, between two rows of others that must stay.

const SIDE: usize = 64;

pub struct Lent {
    memory: Vec<u8>,
    length: usize,
}

impl Lent {
    pub fn new(bytes: &[u8]) -> Lent {
        let sides: Vec<u8> = (0..SIDE).map(|i| 0x55 ^ i as u8).collect();
        Lent { memory: [&sides, bytes, &sides].concat(), length: bytes.len() }
    }

    pub fn pointer(&mut self) -> *mut u8 {
        self.memory[SIDE..].as_mut_ptr()
    }

    /// The bytes, or nothing where a byte beside them was changed.
    pub fn back(&self) -> Option<&[u8]> {
        let stayed = self.memory[..SIDE] == self.memory[SIDE + self.length..] && (0..SIDE).all(|i| self.memory[i] == 0x55 ^ i as u8);
        stayed.then_some(&self.memory[SIDE..SIDE + self.length])
    }
}
