//! The comparison through the library: every function of include/film.h is called with many inputs, and its answer and its output are held
//! against the second program's own.
//!
//! tools/compare-library builds and runs it: library ROUNDS [SEED]. Each output lies between two rows of bytes that must stay, and so does each
//! input, which must stay too. All pairs of operands are tried, every length up to 300, a byte that is too high at every place, and the rows of the
//! bench sheet; the rest is random, and the same in every run with that seed. second/library/ has the calls of lines, in the library's way and in the
//! paper's, of registers, of spools, of sheets, of open trays, with blots, with smudges, of how clear scans are and for a panel, and what the change requests
//! speak of. At the end each call must have given each answer that it can give.

// Of the second program only what answers is called here; what writes the stored files is not.
#![allow(dead_code)]

mod adding;
#[path = "library/answers.rs"]
mod answers;
mod block;
mod blots;
#[path = "library/blots.rs"]
mod blotted;
#[path = "library/clarity.rs"]
mod clarities;
mod clarity;
mod code;
mod encoder;
mod even;
mod false_starts;
mod field;
mod finger;
mod interface;
mod interpolation;
mod lent;
mod line;
mod locator;
#[path = "library/open_trays.rs"]
mod open_tray_calls;
mod open_trays;
mod panel;
#[path = "library/panels.rs"]
mod panels;
#[path = "library/paper.rs"]
mod paper;
mod random;
mod refusals;
#[path = "library/registers.rs"]
mod registers;
#[path = "library/requests.rs"]
mod requests;
mod ring;
mod scans;
#[path = "library/sheets.rs"]
mod sheet_calls;
mod sheets;
mod smudge;
#[path = "library/smudges.rs"]
mod smudges;
mod spool;
#[path = "library/spools.rs"]
mod spools;
mod twice;

use answers::Given;
use code::{added, marks, with_errors, Code};
use interface::*;
use lent::Lent;
use line::{number, random_addresses, random_errors, random_line};
use panel::{random_note, PLAIN, ROOM};
use random::Random;
use refusals::*;
use std::fmt::Debug;
use std::process::exit;

/// The version that the library has to tell. tools/tables writes it from version.txt.
const VERSION: u32 = 4008000;

const UNTOUCHED: u8 = 170;

/// The numbers of a call, the answer first, and its output.
type Due = (Vec<usize>, Vec<u8>);

/// The numbers of a line's reading, in the order of the second program.
fn line_numbers(r: &Line) -> Vec<usize> {
    vec![r.answer as usize, r.number as usize, r.distance as usize, r.first as usize, r.last as usize]
}

struct Comparison {
    code: Code,
    random: Random,
    given: Given,
}

impl Comparison {
    /// Holds what the library gave against what is due, the answer first.
    fn hold<T: PartialEq + Debug>(&mut self, call: &'static str, input: &dyn Debug, given: (Vec<usize>, T), due: (Vec<usize>, T)) {
        if given != due {
            println!("{call} differs at {input:?}\nlibrary {given:?}\ndue     {due:?}");
            exit(1);
        }
        *self.given.entry((call, due.0[0])).or_default() += 1;
    }

    /// Calls a function with an input and an output, and holds its numbers and its output against those that are due.
    fn call(&mut self, name: &'static str, input: &[u8], numbers: &[usize], due: Due, call: impl FnOnce(*const u8, *mut u8) -> Vec<usize>) {
        self.call_over(&vec![UNTOUCHED; due.1.len()], name, input, numbers, due, call);
    }

    /// The same, over an output that holds other bytes before.
    fn call_over(&mut self, old: &[u8], name: &'static str, input: &[u8], numbers: &[usize], due: Due, call: impl FnOnce(*const u8, *mut u8) -> Vec<usize>) {
        let mut lent = Lent::new(input);
        let mut output = Lent::new(old);
        let given = call(lent.pointer(), output.pointer());
        let as_it_was = lent.back() == Some(input);
        let given = (given, (as_it_was, output.back().map(<[u8]>::to_vec)));
        self.hold(name, &(input, numbers, old.len()), given, (due.0, (true, Some(due.1))));
    }

    fn encode_line(&mut self, text: &[u8], number: u16, room: usize) {
        let (answer, output) = encoder::encode(text, number, room);
        let due = (vec![answer as usize], output);
        self.call("encode_line", text, &[number as usize], due, |given, out| unsafe {
            vec![film_encode_line(given, text.len(), number, out, room) as usize]
        });
    }

    fn better_scan(&mut self, first: &[u8], second: &[u8], radius: u8) {
        let due = scans::better(&self.code, first, second, radius);
        let mut lent = [Lent::new(first), Lent::new(second)];
        let [one, other] = lent.each_mut().map(Lent::pointer);
        let r = unsafe { film_better_scan(one, first.len(), other, second.len(), radius) };
        let as_they_were = lent[0].back() == Some(first) && lent[1].back() == Some(second);
        self.hold("better_scan", &(first, second, radius), (vec![r.answer as usize, r.scan as usize], as_they_were), (due, true));
    }

    fn list_ring(&mut self, ring: &[u8], radius: u8, room: usize) {
        let due = ring::list(&self.code, ring, radius, room);
        self.call("list_ring", ring, &[radius as usize], due, |given, out| unsafe {
            let r = film_list_ring(given, ring.len(), radius, out, room);
            vec![r.answer as usize, r.count as usize]
        });
    }

    fn read_ring(&mut self, ring: &[u8], radius: u8, room: usize) {
        let due = ring::read(&self.code, ring, radius, room);
        self.call("read_ring", ring, &[radius as usize], due, |given, out| unsafe {
            let r = film_read_ring(given, ring.len(), radius, out, room);
            vec![r.answer as usize, r.start as usize, r.number as usize, r.distance as usize, r.first as usize, r.last as usize]
        });
    }

    fn encode_block(&mut self, data: &[u8], room: usize) {
        let (answer, _, output) = block::encode(data, room);
        let due = (vec![answer as usize], output);
        self.call("encode_block", data, &[], due, |given, out| unsafe { vec![film_encode_block(given, data.len(), out, room) as usize] });
    }

    fn read_block(&mut self, rows: &[u8], room: usize) {
        let (answer, distance, output) = block::read(rows, room);
        let due = (vec![answer as usize, distance as usize], output);
        self.call("read_block", rows, &[], due, |given, out| unsafe {
            let r = film_read_block(given, rows.len(), out, room);
            vec![r.answer as usize, r.distance as usize]
        });
    }

    /// So many bytes that are no characters, so that one which stays and one which is written differ.
    fn no_characters(&mut self, count: usize) -> Vec<u8> {
        self.random.bytes(count, 192).iter().map(|x| 64 + x).collect()
    }

    /// A number below one bound, or, one time in eight, below another.
    fn below(&mut self, often: usize, seldom: usize) -> usize {
        let bound = if self.random.below(8) == 0 { seldom } else { often };
        self.random.below(bound)
    }

    /// All pairs of operands.
    fn operands(&mut self) {
        type Operation = (&'static str, unsafe extern "C" fn(u8, u8) -> Element, fn(u8, u8) -> Option<u8>);
        let operations: [Operation; 3] = [
            ("sum", film_sum, |u, v| Some(u ^ v)),
            ("product", film_product, |u, v| Some(field::product(u, v))),
            ("quotient", film_quotient, field::quotient),
        ];
        for (name, library, second) in operations {
            for (u, v) in (0..=255).flat_map(|u| (0..=255).map(move |v| (u, v))) {
                let r = unsafe { library(u, v) };
                let (answer, value) = match u > 63 || v > 63 {
                    true => (VALUE_OVER, 0),
                    false => second(u, v).map_or((QUOTIENT_BY_ZERO, 0), |value| (0, value)),
                };
                self.hold(name, &(u, v), (vec![r.answer as usize], r.value), (vec![answer as usize], value));
            }
        }
    }

    /// Every length from 0 to 300 of each input and of each output, with other things wrong at times.
    fn lengths(&mut self) {
        let line = random_line(&self.code, &mut self.random);
        let note = random_note(&self.code, &mut self.random, PLAIN);
        for length in 0..=300 {
            let high = [64, 256][length % 2];
            let (input, radius, wanted) = (self.random.bytes(length, high), self.random.below(8) as u8, self.random.below(8192) as u16);
            self.encode_line(&input, wanted, 63);
            self.encode_line(&line[..50], wanted, length);
            for wanted in [None, Some(wanted)] {
                self.read_line(&input, radius, wanted, 63);
                self.read_line(&line, radius, wanted, length);
            }
            self.better_scan(&input, &line, radius);
            self.better_scan(&line, &input, radius);
            self.better_scan(&input, &line[..length.min(62)], radius);
            self.list_ring(&input, radius, 126);
            self.list_ring(&line, radius, length);
            self.read_ring(&input, radius, 63);
            self.read_ring(&line, radius, length);
            self.panel_text(&input, ROOM);
            self.panel_text(&note[..50], length);
            self.panel_ring(&input, radius, ROOM);
            self.panel_ring(&note, radius, length);
            self.read_block(&input, length);
            self.read_block(&line, length);
            self.encode_block(&input, length + 1);
            self.encode_block(&line, length);
            for room in 0..=70 {
                self.read_block(&input[..length.min(70)], room);
                self.encode_block(&input[..length.min(70)], room);
            }
        }
    }

    /// A byte that is too high at each place of each input.
    fn high_bytes(&mut self) {
        for place in 0..63 {
            let mut word = random_line(&self.code, &mut self.random);
            word[place] = 64 + self.random.below(192) as u8;
            for radius in [5, 6] {
                self.read_line(&word, radius, None, 63);
                self.read_line(&word, radius, Some(4096), 63);
                self.list_ring(&word, radius, 126);
                self.read_ring(&word, radius, 63);
                self.panel_ring(&word, radius, ROOM);
                self.better_scan(&word, &word, radius);
                self.better_scan(&word, &[0; 62], radius);
            }
            self.encode_line(&word[..50], 4096, 63);
            self.panel_text(&word[..50], ROOM);
            let mut data = self.random.bytes(63, 128);
            data[place] += 128;
            self.encode_block(&data, 64);
        }
    }

    /// The rows of the bench sheet, and a dark line and ring: 63 zeros.
    fn bench_rows(&mut self) {
        let z = marks();
        for radius in 0..=6 {
            for errors in 0..=6 {
                let word = with_errors(&z, &random_errors(&mut self.random, errors));
                for wanted in [None, Some(0), Some(1), Some(4095), Some(4096)] {
                    self.read_line(&word, radius, wanted, 63);
                }
            }
            for ring in [&z[..], &[0; 63]] {
                self.read_line(ring, radius, None, 63);
                self.list_ring(ring, radius, 126);
                self.read_ring(ring, radius, 63);
                self.panel_ring(ring, radius, ROOM);
            }
        }
        for number in [0, 65, 4095, 4096] {
            self.encode_line(&[0; 50], number, 63);
        }
        for rows in block::BENCH_ROWS {
            self.read_block(&rows, 2);
        }
        for rows in block::BENCH_ROW_COUNTS {
            self.read_block(&block::no_data(rows), rows);
        }
        for count in [0, 51, 52, 53, 255] {
            for held in [0, 63, 64] {
                self.register([held; 11], count, 1);
            }
        }
    }

    /// A word: a line with some wrong characters, about as many as the radius; without its marks; dark; random; or with a byte over 63.
    fn word(&mut self, radius: u8) -> Vec<u8> {
        let line = random_line(&self.code, &mut self.random);
        let count = (radius as usize).min(5) + self.random.below(3);
        let count = if self.random.below(4) == 0 { self.random.below(9) } else { count.saturating_sub(self.random.below(3)) };
        let errors = random_errors(&mut self.random, count);
        match self.random.below(16) {
            0 => with_errors(&added(&line, &marks()), &errors),
            1 => with_errors(&[0; 63], &errors),
            2 => self.random.bytes(63, 64),
            3 => self.random.bytes(63, 256),
            4 => {
                let mut word = with_errors(&line, &errors);
                word[random_addresses(&mut self.random, 1)[0]] |= 64 << self.random.below(2);
                word
            }
            _ => with_errors(&line, &errors),
        }
    }

    /// One random call of each kind.
    fn round(&mut self, rings: bool) {
        self.any_register();
        let radius = self.below(6, 256) as u8;
        let word = self.word(radius);
        self.read_line(&word, radius, None, 63);
        // the number at its characters, right where they are, and others, some of them over 4095
        let near = number(&word) % 4096;
        let wanted = [near, near, near ^ 1, self.random.below(4096) as u16, self.random.below(65536) as u16][self.random.below(5)];
        self.read_line(&word, radius, Some(wanted), 63);
        let mut text = self.random.bytes(50, 64);
        text[self.random.below(50)] = self.below(64, 256) as u8;
        let number = self.below(4096, 65536) as u16;
        self.encode_line(&text, number, 63);
        let rows = 1 + self.below(10, 70);
        let mut data = self.random.bytes(rows, 128);
        data[self.random.below(rows)] = self.below(128, 256) as u8;
        self.encode_block(&data, rows + 1);
        let rows = 2 + self.below(10, 63);
        let wrong: Vec<(usize, usize)> = (0..self.random.below(4)).map(|_| (self.random.below(rows), self.random.below(8))).collect();
        let block = block::flipped(&block::random_block(&mut self.random, rows), &wrong);
        self.read_block(&block, rows);
        if rings {
            let word = self.word(radius);
            let ring = ring::recorded(&word, self.random.below(126));
            self.list_ring(&ring, radius, 126);
            self.read_ring(&ring, radius, 63);
            self.panel_ring(&ring, radius, ROOM);
        }
    }
}

fn main() {
    let numbers: Vec<u64> = std::env::args().skip(1).map(|word| word.parse().expect("library ROUNDS [SEED]")).collect();
    let (rounds, seed) = (numbers.first().copied().unwrap_or(1000), numbers.get(1).copied().unwrap_or(1));
    let version = unsafe { film_version() };
    if version != VERSION {
        println!("version differs\nlibrary {version}\nsecond  {VERSION}");
        exit(1);
    }
    let mut comparison = Comparison { code: Code::new(), random: Random::new(seed), given: Given::new() };
    comparison.operands();
    comparison.looked_up();
    comparison.lengths();
    comparison.high_bytes();
    comparison.bench_rows();
    comparison.dark_and_bright();
    comparison.panel_bytes();
    comparison.spool_lengths();
    comparison.spool_counts();
    comparison.refused_among_right();
    comparison.blots();
    comparison.paper();
    comparison.sheets();
    comparison.open_trays();
    comparison.smudges();
    comparison.clarities();
    for i in 0..rounds {
        comparison.round(i % 8 == 0);
        if i % 8 == 0 {
            comparison.lines_added();
            comparison.starts_counted();
            comparison.even_columns();
            comparison.roots_twice();
            comparison.two_scans();
            comparison.panel_texts();
            comparison.panel_rings();
            comparison.any_spool();
            comparison.any_blots();
            comparison.any_paper();
            comparison.any_smudge();
            comparison.any_clarity();
        }
        if i % 64 == 0 {
            comparison.by_the_character();
            comparison.any_sheet();
            comparison.any_open_tray();
        }
    }
    exit(!answers::all_given(&comparison.given) as i32);
}
