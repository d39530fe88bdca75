//! Trays kept open: what a tray holds may differ from what is worked out afresh, and an operation leaves that difference as it is.
//!
//! Replacing works out the sums of the line before and of the line after, by the check matrix, and no share of a change; what the held sums differed in is
//! added to the new ones. After every operation all lines are counted again, and the count differs from that by as much as before. A tray that was empty once
//! differs in nothing: `Afresh` has its lines alone and works out the rest, the sums by Horner's rule.

use crate::code::{added, marks, with_errors, Code, Sums};
use crate::field::powers;
use crate::line::{random_errors, random_line};
use crate::random::Random;
use crate::refusals;
use std::array::from_fn;

/// The characters of a line.
pub const LINE: usize = 63;

/// The power sums of a line.
pub const SUMS: usize = 11;

/// The room of a line: its characters, then its sums.
pub const ROOM: usize = LINE + SUMS;

/// The rooms of a tray.
pub const ROOMS: usize = 64;

/// Where a tray has how many lines it holds, and where its count.
pub const HELD: usize = ROOMS * ROOM;
pub const COUNT: usize = HELD + 1;

/// The length of a tray.
pub const TRAY: usize = COUNT + 1;

/// What is asked of a tray.
#[derive(Clone, Debug)]
pub enum Operation {
    Add(Vec<u8>),
    Replace { line: u8, address: u8, character: u8 },
    Drop,
    Count,
}

/// The answer and, for the count, this; and the tray after.
pub type Answer = (Vec<usize>, Vec<u8>);

/// The room of a line.
pub fn room(tray: &[u8], line: usize) -> &[u8] {
    &tray[line * ROOM..][..ROOM]
}

/// Whether a tray claims more lines than there is room for, or a count above them.
pub fn claims_too_much(tray: &[u8]) -> bool {
    tray[HELD] as usize > ROOMS || tray[COUNT] > tray[HELD]
}

/// Whether some sum is not 0.
pub fn is_wrong(sums: &[u8]) -> bool {
    sums.iter().any(|&sum| sum != 0)
}

/// Whether a line of the tray has a character or a sum over 63, or a sum that is not 0 while the count is 0.
fn is_unsound(tray: &[u8], line: usize) -> bool {
    let room = room(tray, line);
    room.iter().any(|&x| x > 63) || tray[COUNT] == 0 && is_wrong(&room[LINE..])
}

/// The number of the first refusal that there is cause for, and else 0.
fn refusal(tray: &[u8], operation: &Operation) -> u8 {
    let held = tray[HELD] as usize;
    match operation {
        _ if claims_too_much(tray) => refusals::TRAY_UNFIT,
        Operation::Add(line) if line.len() != LINE => refusals::INPUT_LENGTH,
        Operation::Add(line) if line.iter().any(|&c| c > 63) => refusals::VALUE_OVER,
        Operation::Add(_) if held == ROOMS => refusals::TRAY_UNFIT,
        Operation::Replace { line, .. } if *line as usize >= held => refusals::LINE_NOT_HELD,
        Operation::Replace { address, .. } if *address as usize >= LINE => refusals::ADDRESS_OVER,
        Operation::Replace { character, .. } if *character > 63 => refusals::VALUE_OVER,
        Operation::Replace { line, .. } if is_unsound(tray, *line as usize) => refusals::TRAY_UNFIT,
        Operation::Drop if held == 0 => refusals::LINE_NOT_HELD,
        Operation::Drop if is_unsound(tray, held - 1) => refusals::TRAY_UNFIT,
        _ => 0,
    }
}

/// How many of the lines held have a sum that is not 0.
fn wrong_lines(tray: &[u8]) -> i32 {
    (0..tray[HELD] as usize).filter(|&line| is_wrong(&room(tray, line)[LINE..])).count() as i32
}

/// A room with another character: its sums differ from those worked out afresh in what they differed before.
fn replaced(code: &Code, room: &[u8], address: usize, character: u8) -> Vec<u8> {
    let (line, sums) = room.split_at(LINE);
    let other = [&line[..address], &[character], &line[address + 1..]].concat();
    let difference = added(&code.to_mend(line), sums);
    let after = added(&code.to_mend(&other), &difference);
    [other, after].concat()
}

/// The tray after an operation that is accepted: the count differs from that of its wrong lines in what it differed before.
fn after(code: &Code, tray: &[u8], operation: &Operation) -> Vec<u8> {
    let mut after = tray.to_vec();
    let held = tray[HELD] as usize;
    match operation {
        Operation::Add(line) => {
            after[held * ROOM..][..ROOM].copy_from_slice(&[&line[..], &code.to_mend(line)].concat());
            after[HELD] += 1;
        }
        Operation::Replace { line, address, character } => {
            let place = *line as usize;
            after[place * ROOM..][..ROOM].copy_from_slice(&replaced(code, room(tray, place), *address as usize, *character));
        }
        Operation::Drop => after[HELD] -= 1,
        Operation::Count => {}
    }
    let difference = tray[COUNT] as i32 - wrong_lines(tray);
    after[COUNT] = u8::try_from(wrong_lines(&after) + difference).expect("a sum that is not 0 was counted");
    after
}

/// Does what is asked of a tray of any bytes.
pub fn operate(code: &Code, tray: &[u8], operation: &Operation) -> Answer {
    let refusal = refusal(tray, operation);
    let after = if refusal == 0 { after(code, tray, operation) } else { tray.to_vec() };
    match operation {
        Operation::Count => (vec![refusal as usize, if refusal == 0 { tray[COUNT] as usize } else { 0 }], after),
        _ => (vec![refusal as usize], after),
    }
}

/// The lines that the accepted operations give, from an empty tray on, and nothing else.
pub struct Afresh(Vec<Vec<u8>>);

impl Afresh {
    pub fn new() -> Afresh {
        Afresh(Vec::new())
    }

    /// Takes an operation that was accepted.
    pub fn accept(&mut self, operation: &Operation) {
        let lines = &mut self.0;
        match operation {
            Operation::Add(line) => lines.push(line.clone()),
            Operation::Replace { line, address, character } => lines[*line as usize][*address as usize] = *character,
            Operation::Drop => drop(lines.pop().expect("a line that was held")),
            Operation::Count => {}
        }
    }

    /// The values of a line without its marks, as a polynomial, at α^-5 to α^5.
    fn sums(code: &Code, line: &[u8]) -> Sums {
        let (powers, mut polynomial) = (powers(), added(line, &marks()));
        polynomial.reverse();
        from_fn(|k| code.value(&polynomial, powers[(58 + k) % 63]))
    }

    /// Whether a tray holds these lines, their sums, and the count of those that are no lines of the code.
    pub fn is_held(&self, code: &Code, tray: &[u8]) -> bool {
        let rooms: Vec<u8> = self.0.iter().flat_map(|line| [&line[..], &Afresh::sums(code, line)].concat()).collect();
        let count = self.0.iter().filter(|line| !code.is_line(line)).count();
        tray[..rooms.len()] == rooms && tray[HELD] as usize == self.0.len() && tray[COUNT] as usize == count
    }
}

/// 63 characters: a line, one with a few wrong characters, or any.
pub fn random_characters(code: &Code, random: &mut Random) -> Vec<u8> {
    let (line, wrong) = (random_line(code, random), 1 + random.below(3));
    match random.below(4) {
        0 => random.bytes(LINE, 64),
        1 => line,
        _ => with_errors(&line, &random_errors(random, wrong)),
    }
}

/// The replacement that puts right the first wrong character of a line, where it can be read.
pub fn mending(code: &Code, tray: &[u8], line: usize) -> Option<Operation> {
    let word = Some(&room(tray, line)[..LINE]).filter(|word| word.iter().all(|&c| c < 64))?;
    let right = code.nearest(word)?;
    let address = (0..LINE).find(|&a| word[a] != right[a])?;
    Some(Operation::Replace { line: line as u8, address: address as u8, character: right[address] })
}
