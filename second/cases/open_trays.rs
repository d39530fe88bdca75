//! Cases of open trays: runs from an empty tray, filled, full and emptied again, which refusal comes first, and trays whose bytes are written by hand.

use super::{two_bytes, Case, Cases, OPEN_TRAY};
use crate::code::{marks, with_errors, Code};
use crate::line::{random_addresses, random_line, with_values, UNTOUCHED};
use crate::open_trays::{is_wrong, mending, operate, random_characters, Afresh, Operation, COUNT, HELD, LINE, ROOM, ROOMS, SUMS, TRAY};
use crate::random::Random;
use crate::refusals::{ADDRESS_OVER, INPUT_LENGTH, LINE_NOT_HELD, TRAY_UNFIT, VALUE_OVER};

/// What the first byte of a step says.
const ADD: u8 = 1;
const REPLACE: u8 = 2;
const DROP: u8 = 3;
const ASK: u8 = 4;
const WRITE: u8 = 5;

/// The answer of an operation that was accepted.
const DONE: u8 = 0;

/// The steps of a run.
const STEPS: usize = 200;

/// A case so far: the tray, the lines that are added, the steps, and what they print.
struct Steps {
    code: Code,
    byte: u8,
    tray: Vec<u8>,
    lines: Vec<u8>,
    steps: Vec<u8>,
    printed: String,
    /// What the tray must hold, up to the first byte that is written by hand.
    afresh: Option<Afresh>,
}

impl Steps {
    /// An empty tray with one byte all over its rooms.
    fn new(byte: u8) -> Steps {
        let tray = [vec![byte; HELD], vec![0, 0]].concat();
        Steps { code: Code::new(), byte, tray, lines: Vec::new(), steps: Vec::new(), printed: String::new(), afresh: Some(Afresh::new()) }
    }

    /// A step as the program reads it. What is added stands behind all that was.
    fn step(&mut self, operation: &Operation) {
        let step = match operation {
            Operation::Add(line) => {
                let [high, low] = two_bytes(self.lines.len());
                self.lines.extend(line);
                [ADD, high, low, u8::try_from(line.len()).expect("a length of one byte")]
            }
            Operation::Replace { line, address, character } => [REPLACE, *line, *address, *character],
            Operation::Drop => [DROP, 0, 0, 0],
            Operation::Count => [ASK, 0, 0, 0],
        };
        self.steps.extend(step);
    }

    /// Prints an operation's name, its numbers, and what it changes.
    fn print(&mut self, operation: &Operation, numbers: &[usize], after: &[u8]) {
        let name = match operation {
            Operation::Add(_) => "add",
            Operation::Replace { .. } => "replace",
            Operation::Drop => "drop",
            Operation::Count => "count",
        };
        let numbers: String = numbers.iter().map(|n| format!(" {n}")).collect();
        let changed = after.iter().enumerate().filter(|&(place, &x)| self.tray[place] != x);
        let changes: String = changed.map(|(place, x)| format!(" {place:04x}:{x:02x}")).collect();
        self.printed.push_str(&format!("\ntray_{name}{numbers}{changes}"));
    }

    /// An operation, whatever it answers.
    fn operate(&mut self, operation: Operation) -> u8 {
        let (numbers, after) = operate(&self.code, &self.tray, &operation);
        self.step(&operation);
        self.print(&operation, &numbers, &after);
        self.tray = after;
        if let Some(afresh) = &mut self.afresh {
            if numbers[0] == DONE as usize {
                afresh.accept(&operation);
            }
            assert!(afresh.is_held(&self.code, &self.tray));
        }
        numbers[0] as u8
    }

    /// An operation that has to answer this.
    fn due(&mut self, answer: u8, operation: Operation) {
        assert_eq!(self.operate(operation), answer);
    }

    /// A byte that is written by hand.
    fn write(&mut self, place: usize, byte: u8) {
        let [high, low] = two_bytes(place);
        self.steps.extend([WRITE, high, low, byte]);
        self.tray[place] = byte;
        self.afresh = None;
    }

    /// What a tray claims, written by hand.
    fn claim(&mut self, held: usize, count: usize) {
        self.write(HELD, held as u8);
        self.write(COUNT, count as u8);
    }

    /// The lines and the steps stand one after the other in the input.
    fn end(self, cases: &mut Cases) {
        let both = [&self.lines[..], &self.steps].concat();
        let case = Case { small: self.byte, number: self.lines.len() as u16, ..Case::new(OPEN_TRAY, &both) };
        cases.add_line(case, &self.printed);
    }
}

fn replace(line: usize, address: usize, character: u8) -> Operation {
    Operation::Replace { line: line as u8, address: address as u8, character }
}

/// All four operations, whatever they answer.
fn all_four(steps: &mut Steps) {
    for operation in [Operation::Count, Operation::Add(marks()), replace(0, 5, 9), Operation::Drop] {
        steps.operate(operation);
    }
}

/// All four operations on a tray that claims too much, with what is refused later and without: 17 comes first.
fn all_unfit(steps: &mut Steps) {
    let wrong = [Operation::Add(vec![64; LINE - 1]), Operation::Add(vec![64; LINE]), replace(255, 255, 255), replace(0, 0, 0)];
    for operation in wrong.into_iter().chain([Operation::Add(marks()), Operation::Drop, Operation::Count]) {
        steps.due(TRAY_UNFIT, operation);
    }
}

/// Lines and no lines, added over every kind of byte: the line of zeros, zeros alone, the highest characters, any line, and one with a wrong character at
/// either end.
fn added(cases: &mut Cases, random: &mut Random) {
    for byte in [0, 63, UNTOUCHED, 255] {
        let mut steps = Steps::new(byte);
        let line = random_line(&cases.code, random);
        let ends = [0, LINE - 1].map(|address| with_errors(&line, &with_values(random, &[address])));
        for line in [marks(), vec![0; LINE], vec![63; LINE], line].into_iter().chain(ends) {
            steps.due(DONE, Operation::Add(line));
            steps.due(DONE, Operation::Count);
        }
        steps.end(cases);
    }
}

/// 64 lines; the 65th is refused after its length and its characters are. One is dropped and its room used again; then all are, and one more.
fn full(cases: &mut Cases, random: &mut Random) {
    let mut steps = Steps::new(UNTOUCHED);
    for _ in 0..ROOMS {
        steps.due(DONE, Operation::Add(random_characters(&cases.code, random)));
    }
    let other = random_characters(&cases.code, random);
    steps.due(INPUT_LENGTH, Operation::Add(vec![64; LINE + 1]));
    steps.due(VALUE_OVER, Operation::Add(vec![64; LINE]));
    steps.due(TRAY_UNFIT, Operation::Add(other.clone()));
    steps.due(DONE, replace(ROOMS - 1, 0, other[0]));
    steps.due(DONE, Operation::Drop);
    steps.due(LINE_NOT_HELD, replace(ROOMS - 1, 0, 0));
    steps.due(DONE, Operation::Add(other));
    for _ in 0..ROOMS {
        steps.due(DONE, Operation::Drop);
        steps.due(DONE, Operation::Count);
    }
    steps.due(LINE_NOT_HELD, Operation::Drop);
    steps.due(DONE, Operation::Add(marks()));
    steps.end(cases);
}

/// A change at every address, of one line that was right.
fn every_address(cases: &mut Cases, random: &mut Random) {
    let mut steps = Steps::new(UNTOUCHED);
    let line = random_line(&cases.code, random);
    steps.due(DONE, Operation::Add(line.clone()));
    for address in random_addresses(random, LINE) {
        let change = 1 + random.below(63) as u8;
        steps.due(DONE, replace(0, address, line[address] ^ change));
    }
    steps.due(DONE, Operation::Count);
    steps.end(cases);
}

/// A right line is made wrong and right again, a wrong one right and wrong again; a character is replaced by itself, in a right line and in a wrong one.
fn made_right(cases: &mut Cases, random: &mut Random) {
    for wrong in 1..=3 {
        let mut steps = Steps::new(UNTOUCHED);
        let line = random_line(&cases.code, random);
        let errors = random_addresses(random, wrong);
        let damaged = with_errors(&line, &with_values(random, &errors));
        steps.due(DONE, Operation::Add(line.clone()));
        steps.due(DONE, Operation::Add(damaged.clone()));
        for (place, from, to) in [(0, &line, &damaged), (1, &damaged, &line), (0, &damaged, &line), (1, &line, &damaged)] {
            for &address in &errors {
                steps.due(DONE, replace(place, address, from[address]));
                steps.due(DONE, replace(place, address, to[address]));
            }
            steps.due(DONE, Operation::Count);
        }
        steps.end(cases);
    }
}

/// Steps of every kind, with refused ones among them, from an empty tray: more are added than dropped, then the other way.
fn runs(cases: &mut Cases, random: &mut Random) {
    for byte in [0, UNTOUCHED, 255] {
        let mut steps = Steps::new(byte);
        for step in 0..STEPS {
            let held = steps.tray[HELD] as usize;
            let (line, address, character) = (random.below(held + 1), random.below(LINE + 1), random.below(65) as u8);
            let (any, length) = (replace(line, address, character), LINE - 1 + random.below(2));
            let operation = match random.below(8) {
                0 | 1 if step < STEPS / 2 => Operation::Add(random_characters(&cases.code, random)),
                0 | 1 => Operation::Drop,
                2 if step < STEPS / 2 => Operation::Drop,
                2 => Operation::Add(random.bytes(length, 65)),
                3 => Operation::Count,
                4 | 5 if line < held => mending(&cases.code, &steps.tray, line).unwrap_or(any),
                _ => any,
            };
            steps.operate(operation);
        }
        steps.end(cases);
    }
}

/// Replacing in trays of few lines and of none: 18 before 19 and 2, 19 before 2, and 2.
fn replacing_refused(cases: &mut Cases, random: &mut Random) {
    for held in [0, 1, 3] {
        let mut steps = Steps::new(0);
        for _ in 0..held {
            steps.due(DONE, Operation::Add(random_characters(&cases.code, random)));
        }
        for (address, character) in [(0, 0), (LINE - 1, 63), (LINE, 64), (255, 255), (0, 64)] {
            steps.due(LINE_NOT_HELD, replace(held, address, character));
            steps.due(LINE_NOT_HELD, replace(255, address, character));
        }
        for line in 0..held {
            for (address, character) in [(LINE, 64), (LINE, 63), (LINE + 1, 0), (255, 255)] {
                steps.due(ADDRESS_OVER, replace(line, address, character));
            }
            for (address, character) in [(0, 64), (LINE - 1, 64), (7, 128), (8, 255)] {
                steps.due(VALUE_OVER, replace(line, address, character));
            }
            steps.due(DONE, replace(line, LINE - 1, 63));
        }
        steps.end(cases);
    }
}

/// Lines of other lengths and with a character that is too high, which leave the room as it is.
fn adding_refused(cases: &mut Cases, random: &mut Random) {
    let mut steps = Steps::new(UNTOUCHED);
    for length in [0, 1, LINE - 1, LINE + 1, 2 * LINE, 255] {
        steps.due(INPUT_LENGTH, Operation::Add(random.bytes(length, 64)));
        steps.due(INPUT_LENGTH, Operation::Add(vec![255; length]));
    }
    for (address, high) in [(0, 64), (LINE - 1, 64), (30, 128), (52, 255)] {
        let line = random_line(&cases.code, random);
        steps.due(VALUE_OVER, Operation::Add(with_errors(&line, &[(address, line[address] ^ high)])));
    }
    steps.due(LINE_NOT_HELD, Operation::Drop);
    steps.due(DONE, Operation::Count);
    steps.end(cases);
}

/// Trays that claim over 64 lines, or a count above them, by one and by the most; and what is just not too much.
fn claims(cases: &mut Cases, _: &mut Random) {
    let mut steps = Steps::new(0);
    for (held, count) in [(65, 0), (65, 65), (255, 0), (255, 255), (0, 1), (0, 255), (1, 2), (63, 64), (64, 65), (64, 255)] {
        steps.claim(held, count);
        all_unfit(&mut steps);
    }
    for (held, count) in [(64, 64), (64, 0), (63, 63), (1, 1), (1, 0), (0, 0)] {
        steps.claim(held, count);
        all_four(&mut steps);
    }
    steps.end(cases);
}

/// A character and a sum over 63, at either end, and a sum that is not 0 at count 0: replacing and dropping answer 17, after all else. One count more, and
/// that sum is no cause. What other lines hold is none.
fn unsound(cases: &mut Cases, _: &mut Random) {
    let held = 3;
    let high = [0, LINE - 1, LINE, ROOM - 1].into_iter().flat_map(|place| [64, 128, 255].map(|byte| (place, byte, 1)));
    let uncounted = [LINE, LINE + 5, ROOM - 1].into_iter().flat_map(|place| [1, 63].map(|byte| (place, byte, 0)));
    for (place, byte, count) in high.chain(uncounted) {
        let mut steps = Steps::new(0);
        steps.claim(held, count);
        steps.write((held - 1) * ROOM + place, byte);
        steps.due(LINE_NOT_HELD, replace(held, LINE, 64));
        steps.due(ADDRESS_OVER, replace(held - 1, LINE, 64));
        steps.due(VALUE_OVER, replace(held - 1, 0, 64));
        for address in [0, LINE - 1] {
            steps.due(TRAY_UNFIT, replace(held - 1, address, 0));
            steps.due(TRAY_UNFIT, replace(held - 1, address, 63));
        }
        steps.due(TRAY_UNFIT, Operation::Drop);
        steps.due(DONE, Operation::Count);
        steps.due(DONE, replace(held - 2, 0, 1));
        steps.due(DONE, Operation::Add(marks()));
        steps.due(DONE, Operation::Drop);
        if byte < 64 {
            steps.due(DONE, replace(held - 1, 3, 3));
            steps.due(DONE, Operation::Drop);
        }
        steps.end(cases);
    }
}

/// Held sums that are not those of the characters: the share of one change, any, and zeros. Replacing adds its share to what is held, and where that leaves
/// no sum but 0 the line is taken for right.
fn other_sums(cases: &mut Cases, random: &mut Random) {
    let (address, change) = (20, 5);
    let mut steps = Steps::new(0);
    let held_sums = [cases.code.error_sums(&[(address, change)]).to_vec(), random.bytes(SUMS, 64), vec![0; SUMS]];
    steps.claim(held_sums.len(), held_sums.iter().filter(|sums| is_wrong(sums)).count());
    for (line, sums) in held_sums.iter().enumerate() {
        let characters = random_characters(&cases.code, random);
        for (place, &byte) in characters.iter().chain(sums).enumerate() {
            steps.write(line * ROOM + place, byte);
        }
        let own = characters[address];
        for character in [own, own ^ change, own, own ^ 1, own] {
            steps.due(DONE, replace(line, address, character));
            steps.due(DONE, Operation::Count);
        }
    }
    for _ in held_sums {
        steps.due(DONE, Operation::Drop);
    }
    steps.end(cases);
}

/// All lines are counted, and one with no sum but 0 is replaced: the count is above them, and whatever is asked next is refused.
fn above_held(cases: &mut Cases, _: &mut Random) {
    for held in [1, 2, ROOMS] {
        let mut steps = Steps::new(0);
        steps.claim(held, held);
        steps.due(DONE, replace(held - 1, 0, 0));
        steps.due(DONE, replace(held - 1, 0, 1));
        assert_eq!(steps.tray[COUNT] as usize, held + 1);
        all_unfit(&mut steps);
        steps.end(cases);
    }
}

pub fn add_all(cases: &mut Cases) {
    let random = &mut Random::new(TRAY as u64);
    let sections = [
        added,
        full,
        every_address,
        made_right,
        runs,
        replacing_refused,
        adding_refused,
        claims,
        unsound,
        other_sums,
        above_held,
    ];
    for add_some in sections {
        add_some(cases, random);
    }
}
