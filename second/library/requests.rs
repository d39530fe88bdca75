//! The parts of the comparison that the change requests speak of: lines merged by exclusive or, undamaged rings, blocks whose columns are even, words
//! whose locator has a root twice, two scans of one line, and products looked up on the page.

use crate::interface::film_product;
use crate::line::{number, random_line};
use crate::{adding, even, false_starts, finger, ring, scans, twice, Comparison};
use std::fs;

/// Where the table of products is written: as the code has it, and as a page.
const TABLES: [&str; 2] = ["crates/field/src/table.rt", "docs/PRODUCTS.md"];

impl Comparison {
    /// Lines merged, and a clean word turned or reversed: each word is read, and the line that it is read as is encoded.
    pub fn lines_added(&mut self) {
        let count = 2 + self.random.below(4);
        let wrong = self.random.below(if count % 2 == 0 { 3 } else { 6 });
        let scans = adding::random_scans(&self.code, &mut self.random, count, wrong);
        let line = random_line(&self.code, &mut self.random);
        let (start, place) = (self.random.below(126), self.random.below(63));
        for tried in [
            adding::merged(&self.code, &scans),
            adding::moved(&self.code, &line, start),
            adding::reversed_twice(&self.code, &line, place),
        ] {
            for radius in 0..=5 {
                self.read_line(&tried.word, radius, None, 63);
                self.read_line(&tried.word, radius, Some(number(&tried.line)), 63);
            }
            self.encode_line(&tried.line[..50], number(&tried.line), 63);
        }
    }

    /// Undamaged rings, and one whose direction is known.
    pub fn starts_counted(&mut self) {
        let (start, other, small) = (self.random.below(126), self.random.below(126), self.random.below(4) as u8);
        let line = random_line(&self.code, &mut self.random);
        let undamaged = |radius| (radius, false_starts::undamaged(&self.code, &line, start, radius));
        let mut rings = vec![undamaged(small), undamaged(4), undamaged(5)];
        let wrong = self.random.below(3);
        let radius = (wrong + self.random.below(5 - 2 * wrong)) as u8;
        rings.push((radius, false_starts::known_way(&self.code, &mut self.random, other, wrong, radius)));
        for (radius, ring) in rings {
            self.list_ring(&ring, radius, 126);
            self.read_ring(&ring, radius, 63);
        }
    }

    /// Dark film and bright film, cut to every number of rows.
    pub fn dark_and_bright(&mut self) {
        for count in 0..=66 {
            for row in [even::DARK, even::BRIGHT] {
                self.read_block(&even::uniform(row, count), count);
            }
        }
    }

    /// A block whose columns are even, dark at times: with wrong bits, and with its last row inverted; and its data rows encoded.
    pub fn even_columns(&mut self) {
        let random = &mut self.random;
        let count = 2 + random.below(63);
        let even = if random.below(4) == 0 { vec![even::DARK; count] } else { even::even_block(random, count) };
        let (wrong, row, one) = (random.below(even::MOST_WRONG + 1), random.below(count), random.below(2));
        for rows in [even::refused(random, &even, wrong), even::too_many_wrong(random, &even, row), even::inverted(random, &even, one)] {
            self.read_block(&rows, count);
        }
        self.encode_block(&even::data_of(&even), count);
    }

    /// A word whose locator has a root twice, read at every radius, and recorded on a ring.
    pub fn roots_twice(&mut self) {
        let roots = 2 + self.random.below(4);
        let word = twice::random_word(&self.code, &mut self.random, roots);
        for radius in 0..=5 {
            self.read_line(&word, radius, None, 63);
        }
        let recorded = ring::recorded(&word, self.random.below(126));
        self.list_ring(&recorded, 5, 126);
        self.read_ring(&recorded, 5, 63);
    }

    /// Two scans of one line, with about as many wrong characters, at every radius; and two words of any kind.
    pub fn two_scans(&mut self) {
        let (wrong, more) = (self.random.below(7), self.random.below(3));
        let [one, other] = scans::random_two(&self.code, &mut self.random, wrong, wrong + more);
        for radius in 0..=6 {
            self.better_scan(&one, &other, radius);
            self.better_scan(&other, &one, radius);
        }
        self.better_scan(&one, &one, 5);
        let radius = self.below(6, 256) as u8;
        let [word, another] = [(); 2].map(|()| self.word(radius));
        self.better_scan(&word, &another, radius);
    }

    /// Every product as a finger finds it in the written table, held against the library's.
    pub fn looked_up(&mut self) {
        for path in TABLES {
            let text = fs::read_to_string(path).expect("run this from the project's root");
            let entries = finger::entries(&text);
            for (u, v) in (0..64).flat_map(|u| (0..64).map(move |v| (u, v))) {
                let r = unsafe { film_product(u, v) };
                self.hold("product", &(path, u, v), (vec![r.answer as usize], Some(r.value)), (vec![0], entries.get(&(u, v)).copied()));
            }
        }
    }
}
