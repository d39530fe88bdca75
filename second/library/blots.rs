//! The parts of the comparison that read words with blots: every count of blots and of wrong characters, scratches, any map, and each refusal before the next.

use crate::blots::{self, counts, map_of, planted, planted_at, with_root_twice, Blotted, MOST};
use crate::code::with_errors;
use crate::interface::{film_read_blotted, film_read_line};
use crate::lent::Lent;
use crate::line::{random_addresses, random_errors, random_line};
use crate::{line_numbers, Comparison, UNTOUCHED};
use std::ptr::null_mut;

/// No length, one less than a line's, that of a line, and one more.
pub const LENGTHS: [usize; 4] = [0, 62, 63, 64];

/// How often each two counts are planted before the rounds.
const TIMES: usize = 8;

/// The address of bytes that are lent; where there are none it is null.
pub fn address_of(lent: &mut Lent, length: usize) -> *mut u8 {
    if length == 0 { null_mut() } else { lent.pointer() }
}

/// Bytes cut to a length, or with a zero after them.
pub fn of_length(bytes: &[u8], length: usize) -> Vec<u8> {
    bytes.iter().copied().chain([0]).take(length).collect()
}

/// Bytes with another one at an address, if one is named.
fn with_byte(bytes: &[u8], other: Option<(usize, u8)>) -> Vec<u8> {
    let mut bytes = bytes.to_vec();
    if let Some((address, byte)) = other {
        bytes[address] = byte;
    }
    bytes
}

impl Comparison {
    fn read_blotted(&mut self, word: &[u8], map: &[u8], room: usize) {
        let (numbers, output) = blots::read(&self.code, word, map, room);
        let mut lent = [word, map, &vec![UNTOUCHED; room]].map(Lent::new);
        let [one, other, out] = &mut lent;
        let (given, blots, out) = (address_of(one, word.len()), address_of(other, map.len()), address_of(out, room));
        let r = unsafe { film_read_blotted(given, word.len(), blots, map.len(), out, room) };
        let back = lent.each_ref().map(Lent::back);
        self.hold("read_blotted", &(word, map, room), (line_numbers(&r), back), (numbers, [word, map, &output].map(Some)));
    }

    /// A word with no blot, and the same word read as a line within five characters, which gives the same.
    fn read_unblotted(&mut self, word: &[u8], room: usize) {
        self.read_blotted(word, &[0; 63], room);
        let due = blots::read(&self.code, word, &[0; 63], room);
        self.call("unblotted_line", word, &[5], due, |given, out| unsafe { line_numbers(&film_read_line(given, word.len(), 5, out, room)) });
    }

    /// So many blots and so many wrong characters outside them: each blot hides a wrong character, none does, or some do.
    fn planted(&mut self, blots: usize, wrong: usize) {
        for hidden in [blots, 0, self.random.below(blots + 1)] {
            let (word, map) = planted(&self.code, &mut self.random, blots, hidden, wrong);
            self.read_blotted(&word, &map, 63);
        }
    }

    /// Words that have a root twice, with so many blots: the first blot's place or that of a wrong character, with every count of wrong ones that fits.
    fn blots_twice(&mut self, count: usize) {
        for others in 0..=(MOST - count) / 2 {
            let addresses = random_addresses(&mut self.random, count + others);
            let (blots, wrong) = addresses.split_at(count);
            for twice in [blots.first(), wrong.first()].into_iter().flatten() {
                let (word, map) = with_root_twice(&self.code, &mut self.random, blots, wrong, *twice);
                self.read_blotted(&word, &map, 63);
            }
        }
    }

    /// Scratches: every run of up to twelve blots, all of which hide a wrong character, and as many wrong ones elsewhere as fit.
    fn scratches(&mut self) {
        for (count, first) in (1..=MOST + 1).flat_map(|count| (0..=63 - count).map(move |first| (count, first))) {
            let blots: Vec<usize> = (first..first + count).collect();
            let seen = random_addresses(&mut self.random, 63).into_iter().filter(|a| !blots.contains(a));
            let wrong: Vec<usize> = seen.take(MOST.saturating_sub(count) / 2).chain(blots.clone()).collect();
            let (word, map) = planted_at(&self.code, &mut self.random, &blots, &wrong);
            self.read_blotted(&word, &map, 63);
        }
    }

    /// A line, one with a few wrong characters and any characters, with so many blots anywhere.
    fn blots_anywhere(&mut self, count: usize) {
        let line = random_line(&self.code, &mut self.random);
        let wrong = self.random.below(7);
        let near = with_errors(&line, &random_errors(&mut self.random, wrong));
        let noise = self.random.bytes(63, 64);
        let map = map_of(&random_addresses(&mut self.random, count));
        for word in [line, near, noise] {
            self.read_blotted(&word, &map, 63);
        }
    }

    /// Every length from 0 to 300 of the word, of the map and of the output.
    fn blotted_lengths(&mut self, (word, map): &Blotted) {
        for length in 0..=300 {
            let (input, bytes) = (self.random.bytes(length, 64), self.random.bytes(length, 2));
            self.read_blotted(&input, map, 63);
            self.read_blotted(word, &bytes, 63);
            self.read_blotted(word, map, length);
            self.read_blotted(&input, &bytes, length);
        }
    }

    /// Every byte at every place of the map, and a character that is too high at every place of the word, in a blot too.
    fn blotted_bytes(&mut self, (word, map): &Blotted) {
        for address in 0..63 {
            for byte in 0..=255 {
                self.read_blotted(word, &with_byte(map, Some((address, byte))), 63);
            }
            for (blot, high) in [(0, 64), (1, 64), (0, 255), (1, 255)] {
                self.read_blotted(&with_byte(word, Some((address, high))), &with_byte(map, Some((address, blot))), 63);
            }
        }
    }

    /// All that can be refused at once: three lengths, a character that is too high, in a blot or seen, a byte of the map that is too high, and twelve blots.
    fn blotted_refusals(&mut self) {
        // the last address is left out by a length of 62
        let addresses: Vec<usize> = random_addresses(&mut self.random, 63).into_iter().filter(|&a| a != 62).collect();
        for count in [MOST, MOST + 1] {
            let (line, map) = (random_line(&self.code, &mut self.random), map_of(&addresses[..count]));
            for high in [None, Some((addresses[0], 64)), Some((addresses[60], 255))] {
                for over in [None, Some((addresses[1], 2)), Some((addresses[61], 255))] {
                    for way in 0..64 {
                        let [length, map_length, room] = [way / 16, way / 4 % 4, way % 4].map(|i| LENGTHS[i]);
                        self.read_blotted(&of_length(&with_byte(&line, high), length), &of_length(&with_byte(&map, over), map_length), room);
                    }
                }
            }
        }
    }

    /// All that is tried once.
    pub fn blots(&mut self) {
        let readable = planted(&self.code, &mut self.random, 5, 3, 3);
        self.blotted_lengths(&readable);
        self.blotted_bytes(&readable);
        self.blotted_refusals();
        for (blots, wrong) in counts().flat_map(|two| [two; TIMES]) {
            self.planted(blots, wrong);
        }
        self.scratches();
        for count in 0..=63 {
            self.blots_anywhere(count);
        }
        for count in 0..=MOST {
            self.blots_twice(count);
        }
        for length in LENGTHS {
            let word = self.random.bytes(length, 64);
            self.read_unblotted(&word, 63);
            self.read_unblotted(&self.code.line(&[0; 52]), length);
        }
    }

    /// Any counts, any map, about as many blots as can be read, a root twice, and a word of any kind with no blot.
    pub fn any_blots(&mut self) {
        let all: Vec<_> = counts().collect();
        let (blots, wrong) = all[self.random.below(all.len())];
        self.planted(blots, wrong);
        for count in [self.random.below(64), MOST - 1, MOST, MOST + 1] {
            self.blots_anywhere(count);
        }
        let count = self.random.below(MOST + 1);
        self.blots_twice(count);
        let word = self.word(5);
        self.read_unblotted(&word, 63);
    }
}
