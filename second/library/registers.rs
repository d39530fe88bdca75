//! The parts of the comparison that call registers: one step and asking, a line's text by the character, and registers that no text need give.

use crate::interface::{film_checks, film_step, Register};
use crate::line::random_line;
use crate::{encoder, Comparison};

impl Comparison {
    /// A step and asking, of one register; what the step leaves is given back.
    pub fn register(&mut self, held: [u8; 11], count: u8, c: u8) -> ([u8; 11], u8) {
        let mut second = encoder::Register { held: held.to_vec(), count };
        let (answer, checks) = second.checks();
        let r = unsafe { film_checks(Register { held, count }) };
        self.hold("checks", &(held, count), (vec![r.answer as usize], r.checks.to_vec()), (vec![answer as usize], checks));
        let answer = second.step(c);
        let r = unsafe { film_step(Register { held, count }, c) };
        let given = (vec![r.answer as usize], (r.after.held.to_vec(), r.after.count));
        self.hold("step", &(held, count, c), given, (vec![answer as usize], (second.held, second.count)));
        (r.after.held, r.after.count)
    }

    /// A line's text, character by character: the register holds what it should after each.
    pub fn by_the_character(&mut self) {
        let line = random_line(&self.code, &mut self.random);
        let (mut held, mut count) = ([0; 11], 0);
        for &c in &line[..52] {
            (held, count) = self.register(held, count, c);
        }
        self.register(held, count, 0);
        let checks = unsafe { film_checks(Register { held, count }).checks };
        self.hold("checks", &line, (vec![0], checks.to_vec()), (vec![0], line[52..].to_vec()));
    }

    /// A register that no text need give: any characters, at times over 63, and any count, most often about 52.
    pub fn any_register(&mut self) {
        let mut held: [u8; 11] = self.random.bytes(11, 64).try_into().unwrap();
        held[self.random.below(11)] = self.below(64, 256) as u8;
        let count = match self.random.below(4) {
            0 => self.random.below(256),
            1 => self.random.below(52),
            _ => 50 + self.random.below(5),
        };
        let c = self.below(64, 256) as u8;
        self.register(held, count as u8, c);
    }
}
