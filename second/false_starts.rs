//! The starts of an undamaged ring, and rings whose direction is known: what is due is worked out from the marks alone, which are turned and reversed, and the
//! words at all starts are read besides.

use crate::code::{added, distance, marks, with_errors, Code};
use crate::line::{random_errors, random_line};
use crate::random::Random;
use crate::ring::{entries, recorded, word_at};

/// How many starts the list of an undamaged ring has, at each radius.
const COUNTS: [usize; 6] = [1, 1, 1, 1, 7, 13];

/// The addresses of a line at which a false start begins: in the other direction from radius 4 on, in the same direction at radius 5.
const OTHER_WAY: [usize; 6] = [41, 44, 47, 51, 54, 61];
const SAME_WAY: [usize; 6] = [3, 7, 10, 53, 56, 60];

/// How many wrong characters, with which radius, leave room for a second start: in either direction, and in the direction of the true one.
pub const EITHER_WAY_TIGHT: [(usize, u8); 3] = [(2, 2), (1, 3), (0, 4)];
pub const ONE_WAY_TIGHT: [(usize, u8); 3] = [(2, 3), (1, 4), (0, 5)];

fn is_forward(start: usize) -> bool {
    start < 63
}

/// The start of a ring that begins at an address of the word at a start, in the same direction or in the other: it is found by trying all, on a ring
/// of 63 different characters.
fn beginning_at(start: usize, address: usize, same_way: bool) -> usize {
    let ring: Vec<u8> = (0..63).collect();
    let mut word = word_at(&ring, start);
    word.rotate_left(address);
    if !same_way {
        word[1..].reverse();
    }
    (0..126).find(|&k| word_at(&ring, k) == word).expect("one of the 126 starts")
}

/// The starts at which the marks, recorded at a start, lie within the radius of the marks.
fn starts_of_marks(start: usize, radius: u8) -> Vec<usize> {
    let ring = recorded(&marks(), start);
    (0..126).filter(|&k| distance(&word_at(&ring, k), &marks()) <= radius as usize).collect()
}

/// The same starts by the addresses at which they begin.
fn starts_by_address(start: usize, radius: u8) -> Vec<usize> {
    let of = |addresses: &[usize], same_way| -> Vec<usize> { addresses.iter().map(|&a| beginning_at(start, a, same_way)).collect() };
    let mut starts = vec![start];
    if radius >= 4 {
        starts.extend(of(&OTHER_WAY, false));
    }
    if radius >= 5 {
        starts.extend(of(&SAME_WAY, true));
    }
    starts.sort();
    starts
}

/// The starts listed, by reading the word at each.
fn starts_read(code: &Code, ring: &[u8], radius: u8) -> Vec<usize> {
    entries(code, ring, radius as usize).into_iter().map(|(start, _)| start).collect()
}

/// An undamaged ring: a line recorded at a start. Its list is that of the marks, and each start lies where it should.
pub fn undamaged(code: &Code, line: &[u8], start: usize, radius: u8) -> Vec<u8> {
    let ring = recorded(line, start);
    let due = starts_of_marks(start, radius);
    assert_eq!(due.len(), COUNTS[radius as usize]);
    assert_eq!(due, starts_by_address(start, radius));
    assert_eq!(due, starts_read(code, &ring, radius));
    ring
}

/// A line recorded at a start with so many wrong characters that, of the starts of its direction, the true one alone is listed.
pub fn known_way(code: &Code, random: &mut Random, start: usize, wrong: usize, radius: u8) -> Vec<u8> {
    assert!(wrong <= radius as usize && wrong + radius as usize <= 4);
    let ring = with_errors(&recorded(&random_line(code, random), start), &random_errors(random, wrong));
    let one_way = |k: &usize| is_forward(*k) == is_forward(start);
    assert_eq!(starts_read(code, &ring, radius).into_iter().filter(one_way).collect::<Vec<_>>(), [start]);
    ring
}

/// What the marks and the marks at another start differ in.
pub fn marks_apart(turn: usize) -> Vec<(usize, u8)> {
    let between = added(&marks(), &recorded(&marks(), turn));
    (0..63).filter(|&a| between[a] != 0).map(|a| (a, between[a])).collect()
}

/// A line recorded at a start with so many wrong characters that a line at another start, `turn` counted from the true one, is within the radius too.
pub fn tight(code: &Code, line: &[u8], start: usize, turn: usize, wrong: usize, radius: u8) -> Vec<u8> {
    let ring = recorded(&with_errors(line, &marks_apart(turn)[..wrong]), start);
    let listed = starts_read(code, &ring, radius);
    let other = beginning_at(start, turn % 63, is_forward(turn));
    assert!(other != start && listed.contains(&start) && listed.contains(&other));
    assert_eq!(is_forward(other) == is_forward(start), is_forward(turn));
    ring
}

/// Those starts, counted from the true one, at which the marks lie so many characters from the marks.
pub fn turns_apart(apart: usize) -> Vec<usize> {
    (0..126).filter(|&turn| marks_apart(turn).len() == apart).collect()
}
