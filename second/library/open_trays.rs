//! The parts of the comparison that keep trays open: long runs from an empty tray, each step held against its lines worked out afresh, trays made by hand,
//! every change at every address, and each refusal before the next.

use crate::blotted::address_of;
use crate::code::{with_errors, Code};
use crate::interface::{film_tray_add, film_tray_count, film_tray_drop, film_tray_replace, Tray};
use crate::lent::Lent;
use crate::line::random_line;
use crate::open_trays::{claims_too_much, is_wrong, mending, operate, random_characters, room, Afresh, Answer, Operation};
use crate::open_trays::{COUNT, HELD, LINE, ROOM, ROOMS, SUMS, TRAY};
use crate::random::Random;
use crate::refusals::{LINE_NOT_HELD, TRAY_UNFIT};
use crate::Comparison;

const _: () = assert!(size_of::<Tray>() == TRAY);

/// The names of replacing and dropping a line that is unsound, by the cause.
const REPLACE_UNSOUND: [&str; 3] = ["tray_replace, high character", "tray_replace, high sum", "tray_replace, sum at count 0"];
const DROP_UNSOUND: [&str; 3] = ["tray_drop, high character", "tray_drop, high sum", "tray_drop, sum at count 0"];

/// How many long runs there are, of how many steps: enough that each tray is full, empty and full again.
const RUNS: usize = 8;
const LONG: usize = 700;

/// The steps of a run in a round, and of one from a tray made by hand.
const SHORT: usize = 50;
const BY_HAND: usize = 8;

/// How many trays made by hand there are before the rounds.
const TIMES: usize = 500;

/// Why a line is unsound: a character over 63, else a sum over 63, else a sum that is not 0 at count 0.
fn cause(room: &[u8]) -> usize {
    room.iter().position(|&x| x > 63).map_or(2, |place| (place >= LINE) as usize)
}

/// The name of an operation by what becomes of it, so that each cause of 17 is counted by itself, and each way that the count goes.
fn name(tray: &[u8], operation: &Operation, (numbers, after): &Answer) -> &'static str {
    let (claimed, unfit) = (claims_too_much(tray), numbers[0] == TRAY_UNFIT as usize);
    let (up, down) = (after[COUNT] > tray[COUNT], after[COUNT] < tray[COUNT]);
    match operation {
        Operation::Add(_) if claimed => "tray_add, too much claimed",
        Operation::Add(_) if unfit => "tray_add, full",
        Operation::Add(_) if up => "tray_add, count up",
        Operation::Add(_) => "tray_add",
        Operation::Replace { .. } if claimed => "tray_replace, too much claimed",
        Operation::Replace { line, .. } if unfit => REPLACE_UNSOUND[cause(room(tray, *line as usize))],
        Operation::Replace { .. } if up && after[COUNT] > after[HELD] => "tray_replace, count above held",
        Operation::Replace { .. } if up => "tray_replace, count up",
        Operation::Replace { .. } if down => "tray_replace, count down",
        Operation::Replace { .. } => "tray_replace",
        Operation::Drop if claimed => "tray_drop, too much claimed",
        Operation::Drop if unfit => DROP_UNSOUND[cause(room(tray, tray[HELD] as usize - 1))],
        Operation::Drop if down => "tray_drop, count down",
        Operation::Drop => "tray_drop",
        Operation::Count => "tray_count",
    }
}

/// Asks the library.
fn ask(tray: *mut Tray, operation: &Operation, line: *const u8) -> Vec<usize> {
    let answer = match operation {
        Operation::Add(characters) => unsafe { film_tray_add(tray, line, characters.len()) },
        Operation::Replace { line, address, character } => unsafe { film_tray_replace(tray, *line, *address, *character) },
        Operation::Drop => unsafe { film_tray_drop(tray) },
        Operation::Count => {
            let r = unsafe { film_tray_count(tray) };
            return vec![r.answer as usize, r.count as usize];
        }
    };
    vec![answer as usize]
}

fn replace(line: u8, address: u8, character: u8) -> Operation {
    Operation::Replace { line, address, character }
}

/// The tray with other claims.
fn claiming(tray: &[u8], held: u8, count: u8) -> Vec<u8> {
    [&tray[..HELD], &[held, count]].concat()
}

/// The tray with another byte.
fn with_byte(tray: &[u8], place: usize, byte: u8) -> Vec<u8> {
    [&tray[..place], &[byte], &tray[place + 1..]].concat()
}

/// An empty tray whose rooms hold any bytes.
fn empty(random: &mut Random) -> Vec<u8> {
    [random.bytes(HELD, 256), vec![0, 0]].concat()
}

/// A tray that so many lines were added to, of any characters.
fn random_tray(code: &Code, random: &mut Random, held: usize) -> Vec<u8> {
    (0..held).fold(empty(random), |tray, _| operate(code, &tray, &Operation::Add(random_characters(code, random))).1)
}

/// A room as one makes it by hand: its sums are those of its characters, or any, or all 0, and at times a byte is over 63, or any byte is.
fn random_room(code: &Code, random: &mut Random) -> Vec<u8> {
    let line = random_characters(code, random);
    let right = [&line[..], &code.to_mend(&line)].concat();
    match random.below(8) {
        0 => random.bytes(ROOM, 256),
        1 => random.bytes(ROOM, 64),
        2 => [line, vec![0; SUMS]].concat(),
        3 => with_errors(&right, &[(random.below(ROOM), 64 << random.below(2))]),
        _ => right,
    }
}

/// How many lines a tray made by hand claims: any number, often about the most, or very few.
fn random_held(random: &mut Random) -> u8 {
    let (any, most) = (random.below(256), ROOMS - 2 + random.below(5));
    [any, most, most, random.below(3), random.below(ROOMS + 1)][random.below(5)] as u8
}

/// A tray made by hand: its count is any, or 0, or as many as its lines, one fewer or one more.
fn made_by_hand(code: &Code, random: &mut Random) -> Vec<u8> {
    let rooms: Vec<u8> = (0..ROOMS).flat_map(|_| random_room(code, random)).collect();
    let (held, any) = (random_held(random), random.below(256) as u8);
    let count = [any, any % 65, 0, held.wrapping_sub(1), held, held, held.wrapping_add(1)][random.below(7)];
    [rooms, vec![held, count]].concat()
}

impl Comparison {
    /// An operation on a tray, whose every byte is held against the due one; what it leaves is given back.
    fn operate(&mut self, tray: &[u8], operation: &Operation) -> Answer {
        let due = operate(&self.code, tray, operation);
        let line: &[u8] = if let Operation::Add(line) = operation { line } else { &[] };
        let mut lent = [tray, line].map(Lent::new);
        let [one, other] = &mut lent;
        let numbers = ask(one.pointer() as *mut Tray, operation, address_of(other, line.len()));
        let back = lent.each_ref().map(Lent::back);
        self.hold(name(tray, operation, &due), &(tray, operation), (numbers, back), (due.0.clone(), [&due.1[..], line].map(Some)));
        due
    }

    /// 63 characters to add, or, one time in eight, with one that is too high or of another length.
    fn addition(&mut self) -> Operation {
        let mut line = random_characters(&self.code, &mut self.random);
        match self.random.below(16) {
            0 => line[self.random.below(LINE)] |= 64 << self.random.below(2),
            1 => line.resize(self.random.below(2 * LINE), 0),
            _ => {}
        }
        Operation::Add(line)
    }

    /// A replacement in a tray: any, of a character by itself, or one that puts a character right.
    fn replacement(&mut self, tray: &[u8]) -> Operation {
        let held = (tray[HELD] as usize).clamp(1, ROOMS);
        let (line, address, character) = (self.below(held, 256) as u8, self.below(LINE, 256) as u8, self.below(64, 256) as u8);
        let (place, own) = (self.random.below(held), self.random.below(LINE));
        match self.random.below(8) {
            0 => replace(place as u8, own as u8, room(tray, place)[own]),
            1..=3 => mending(&self.code, tray, place).unwrap_or(replace(line, address, character)),
            _ => replace(line, address, character),
        }
    }

    /// An operation on a tray that fills, or on one that is emptied.
    fn any_operation(&mut self, tray: &[u8], filling: bool) -> Operation {
        match self.random.below(16) {
            0 => Operation::Count,
            1..=7 if !filling => Operation::Drop,
            1..=7 => self.addition(),
            8 if filling => Operation::Drop,
            8 => self.addition(),
            _ => self.replacement(tray),
        }
    }

    /// So many steps from a tray of so many lines, filled until it is full and emptied until no line is left, by turns. After each step the tray holds what
    /// its accepted operations give, worked out afresh.
    fn run_of_tray(&mut self, held: usize, steps: usize) {
        let (mut tray, mut lines, mut filling) = (empty(&mut self.random), Afresh::new(), true);
        for step in 0..held + steps {
            let operation = if step < held { Operation::Add(random_characters(&self.code, &mut self.random)) } else { self.any_operation(&tray, filling) };
            let (numbers, after) = self.operate(&tray, &operation);
            if numbers[0] == 0 {
                lines.accept(&operation);
            }
            assert!(lines.is_held(&self.code, &after));
            filling = match operation {
                Operation::Add(_) => filling && numbers[0] != TRAY_UNFIT as usize,
                Operation::Drop => filling || numbers[0] == LINE_NOT_HELD as usize,
                _ => filling,
            };
            tray = after;
        }
    }

    /// Some steps from a tray made by hand.
    fn by_hand(&mut self) {
        let mut tray = made_by_hand(&self.code, &mut self.random);
        for step in 0..BY_HAND {
            let operation = self.any_operation(&tray, step % 2 == 0);
            tray = self.operate(&tray, &operation).1;
        }
    }

    /// Every operation, and adding and replacing with all that is refused later too.
    fn all_operations(&mut self, tray: &[u8], line: u8) {
        let characters = random_characters(&self.code, &mut self.random);
        let (address, character) = (self.random.below(LINE) as u8, self.random.below(64) as u8);
        let wrong = [Operation::Add(vec![64; LINE - 1]), replace(255, 255, 255)];
        let right = [Operation::Add(characters), replace(line, address, character), Operation::Drop, Operation::Count];
        for operation in wrong.into_iter().chain(right) {
            self.operate(tray, &operation);
        }
    }

    /// Every number of lines that a tray can claim, with counts about it, about the most and about none.
    fn claims(&mut self, full: &[u8]) {
        for held in 0..=255u8 {
            for count in [0, 1, held.wrapping_sub(1), held, held.wrapping_add(1), 63, 64, 65, 128, 255] {
                self.all_operations(&claiming(full, held, count), held.wrapping_sub(1));
            }
        }
    }

    /// Every line asked for, of every number of lines held.
    fn every_line(&mut self, full: &[u8]) {
        for (held, line) in (0..=ROOMS as u8).flat_map(|held| (0..=255).map(move |line| (held, line))) {
            let (address, character) = (self.random.below(LINE) as u8, self.random.below(64) as u8);
            self.operate(&claiming(full, held, held), &replace(line, address, character));
        }
    }

    /// Every change at every address, one after another in one tray.
    fn every_change(&mut self, full: &[u8]) {
        let mut tray = full.to_vec();
        for (address, change) in (0..LINE).flat_map(|address| (0..64).map(move |change| (address, change))) {
            let line = self.random.below(ROOMS);
            let character = room(&tray, line)[address] ^ change;
            tray = self.operate(&tray, &replace(line as u8, address as u8, character)).1;
        }
    }

    /// Every byte of a line over 63, and every sum alone that is not 0, at count 0 and at 1, in a tray of zeros.
    fn every_byte(&mut self) {
        for (place, byte) in (0..ROOM).flat_map(|place| [1, 63, 64, 128, 255].map(|byte| (place, byte))) {
            let line = self.random.below(ROOMS);
            let tray = with_byte(&[0; TRAY], line * ROOM + place, byte);
            for (held, count) in [(line + 1, 0), (line + 1, 1), (line, 0), (ROOMS, 1)] {
                self.all_operations(&claiming(&tray, held as u8, count), line as u8);
            }
        }
    }

    /// Every length of what is added, with a character that is too high and without, to a tray with room and to one that is full.
    fn added_lengths(&mut self, full: &[u8]) {
        for (length, held) in (0..=300).flat_map(|length| [0, 1, ROOMS - 1, ROOMS].map(|held| (length, held))) {
            for bound in [64, 256] {
                let line = self.random.bytes(length, bound);
                self.operate(&claiming(full, held as u8, held as u8), &Operation::Add(line));
            }
        }
        for (place, byte) in (0..LINE).flat_map(|place| [64, 128, 255].map(|byte| (place, byte))) {
            let line = with_byte(&random_line(&self.code, &mut self.random), place, byte);
            for held in [ROOMS - 1, ROOMS] {
                self.operate(&claiming(full, held as u8, 0), &Operation::Add(line.clone()));
            }
        }
    }

    /// Replacing with some of these wrong: the line, the address, the character, and what the line holds.
    fn replacing_refused(&mut self, full: &[u8]) {
        let (held, place) = (ROOMS as u8 - 1, (ROOMS - 2) * ROOM);
        let right = [&full[..place + LINE], &[0; SUMS], &full[place + ROOM..]].concat();
        let (character, sum, wrong) = (with_byte(&right, place, 64), with_byte(&right, place + LINE, 64), with_byte(&right, place + ROOM - 1, 1));
        for (tray, count) in [right, character, sum, wrong].iter().flat_map(|tray| [0, 1, held].map(|count| (tray, count))) {
            let tray = claiming(tray, held, count);
            for (line, address) in [held - 1, held, 255].into_iter().flat_map(|line| [0, 62, 63, 64, 255].map(|address| (line, address))) {
                for character in [0, 63, 64, 255] {
                    self.operate(&tray, &replace(line, address, character));
                }
            }
        }
    }

    /// A line with no sum but 0 in a tray that counts all its lines: replaced, the count is above them, and whatever is asked next is refused.
    fn above_held(&mut self, full: &[u8]) {
        for held in 1..=ROOMS {
            let mut tray = claiming(full, held as u8, held as u8);
            let line = self.random.below(held);
            tray[line * ROOM + LINE..][..SUMS].fill(0);
            let change = replace(line as u8, 7, tray[line * ROOM + 7] ^ 1);
            let (_, after) = self.operate(&tray, &change);
            assert!(is_wrong(&room(&after, line)[LINE..]) && after[COUNT] as usize == held + 1);
            self.all_operations(&after, line as u8);
        }
    }

    /// All that is tried once.
    pub fn open_trays(&mut self) {
        let full = random_tray(&self.code, &mut self.random, ROOMS);
        self.claims(&full);
        self.every_line(&full);
        self.every_change(&full);
        self.every_byte();
        self.added_lengths(&full);
        self.replacing_refused(&full);
        self.above_held(&full);
        for _ in 0..RUNS {
            self.run_of_tray(0, LONG);
        }
        for _ in 0..TIMES {
            self.by_hand();
        }
    }

    /// Some steps from a tray of any number of lines, and from one made by hand.
    pub fn any_open_tray(&mut self) {
        let held = self.random.below(ROOMS + 1);
        self.run_of_tray(held, SHORT);
        self.by_hand();
    }
}
