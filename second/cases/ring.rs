//! Cases of rings: each ring is listed and read. Some of the words at its starts are read by trial too.

use super::{Case, Cases, LIST_RING, READ_RING};
use crate::code::{added, marks, with_errors};
use crate::false_starts::marks_apart;
use crate::line::{random_addresses, random_errors, random_line};
use crate::random::Random;
use crate::ring::{self, entries, recorded, word_at};

/// A ring is listed and read.
pub fn add(cases: &mut Cases, ring: &[u8], radius: u8, list_room: usize, read_room: usize) {
    let (numbers, output) = ring::list(&cases.code, ring, radius, list_room);
    cases.add(Case { small: radius, room: list_room, ..Case::new(LIST_RING, ring) }, &numbers, &output);
    let (numbers, output) = ring::read(&cases.code, ring, radius, read_room);
    cases.add(Case { small: radius, room: read_room, ..Case::new(READ_RING, ring) }, &numbers, &output);
}

/// A ring of 63 characters. Of its words some are also read by trial, others for each ring.
pub(super) fn both(cases: &mut Cases, ring: &[u8], radius: u8) {
    let rings_before = cases.count / 2; // a ring is listed and read
    for start in (0..126).filter(|start| start % 16 == rings_before % 16) {
        let word = word_at(ring, start);
        assert_eq!(cases.code.trial(&cases.code.to_mend(&word)).is_some(), cases.code.nearest(&word).is_some());
    }
    add(cases, ring, radius, 126, 63);
}

/// A line recorded at a start, with wrong characters. Where they and the radius are three at most, the list is that start alone.
fn near(cases: &mut Cases, line: &[u8], start: usize, errors: &[(usize, u8)], radius: u8) {
    let ring = with_errors(&recorded(line, start), errors);
    if errors.len() <= radius as usize && errors.len() + radius as usize <= 3 {
        assert_eq!(entries(&cases.code, &ring, radius as usize), [(start, line.to_vec())]);
    }
    both(cases, &ring, radius);
}

/// The rows of the bench sheet: the ring Z, at every radius.
fn bench_rows(cases: &mut Cases, _: &mut Random) {
    let starts = |radius| -> Vec<usize> { entries(&cases.code, &marks(), radius).into_iter().map(|(start, _)| start).collect() };
    assert_eq!(starts(3), [0]);
    assert_eq!(starts(4), [0, 104, 107, 110, 114, 117, 124]);
    assert_eq!(starts(5), [0, 3, 7, 10, 53, 56, 60, 104, 107, 110, 114, 117, 124]);
    for radius in [3, 4, 5, 0, 1, 2, 6] {
        both(cases, &marks(), radius);
    }
}

/// Every start once, at the radii at which it is the only one.
fn every_start(cases: &mut Cases, random: &mut Random) {
    for start in 0..126 {
        let line = random_line(&cases.code, random);
        let errors = random_errors(random, start / 4 % 2);
        near(cases, &line, start, &errors, 1 + start as u8 % 2);
    }
}

/// Lines turned and reversed, with 0 to 6 wrong characters, at every radius.
fn errors_at_every_radius(cases: &mut Cases, random: &mut Random) {
    for errors in 0..=6 {
        for radius in 0..=5 {
            for backward in [0, 63] {
                for _ in 0..2 {
                    let line = random_line(&cases.code, random);
                    let errors = random_errors(random, errors);
                    let start = backward + random.below(63);
                    near(cases, &line, start, &errors, radius);
                }
            }
        }
    }
}

/// Rings half way between a line at one start and a line at another, which differ in the marks alone.
fn between_two_starts(cases: &mut Cases, random: &mut Random) {
    for turn in (1..126).filter(|&turn| turn % 5 == 0 || [3, 7, 53, 56, 104, 107, 114, 117, 124].contains(&turn)) {
        let line = random_line(&cases.code, random);
        let apart = marks_apart(turn);
        assert!((4..=6).contains(&apart.len()));
        let half = apart.len().div_ceil(2);
        let ring = with_errors(&line, &apart[..half]);
        let listed: Vec<usize> = entries(&cases.code, &ring, half).into_iter().map(|(start, _)| start).collect();
        assert!(listed.contains(&0) && listed.contains(&turn));
        let start = random.below(126);
        for radius in [half - 1, half] {
            both(cases, &recorded(&ring, start), radius as u8);
        }
    }
}

/// Dark rings, rings of one character, and lines whose marks are gone, which a line is near at every start.
fn rings_without_marks(cases: &mut Cases, random: &mut Random) {
    for radius in 0..=5 {
        both(cases, &[0; 63], radius);
        let clean = added(&random_line(&cases.code, random), &marks());
        for errors in 0..=2 {
            let ring = with_errors(&clean, &random_errors(random, errors));
            both(cases, &ring, radius);
        }
    }
    assert_eq!(entries(&cases.code, &[0; 63], 3).len(), 126);
    for c in [1, 32, 63] {
        both(cases, &[c; 63], 5);
    }
}

/// Two lines on one ring: cut together, taken in turn, a few characters of the second, and added.
fn two_lines_mixed(cases: &mut Cases, random: &mut Random) {
    for i in 0..8 {
        let start = random.below(126);
        let (one, other) = (recorded(&random_line(&cases.code, random), start), random_line(&cases.code, random));
        let cut = 1 + random.below(62);
        both(cases, &[&one[..cut], &other[cut..]].concat(), 5);
        let in_turn: Vec<u8> = (0..63).map(|a| if a % 2 == 0 { one[a] } else { other[a] }).collect();
        both(cases, &in_turn, 5);
        let few = random_addresses(random, i);
        let mostly_one: Vec<u8> = (0..63).map(|a| if few.contains(&a) { other[a] } else { one[a] }).collect();
        both(cases, &mostly_one, 5 - i as u8 % 2);
        both(cases, &added(&one, &other), 5);
    }
}

fn bytes_over_63(cases: &mut Cases, random: &mut Random) {
    for value in [64, 65, 127, 128, 255] {
        for at in [0, 62, random.below(63)] {
            let mut ring = random_line(&cases.code, random);
            ring[at] = value;
            add(cases, &ring, 3, 126, 63);
        }
    }
}

/// Rings and outputs of other lengths, and radii over 5.
fn wrong_lengths_and_radii(cases: &mut Cases, random: &mut Random) {
    let long: Vec<u8> = (0..5).flat_map(|_| random_line(&cases.code, random)).collect();
    for length in [0, 1, 62, 64, 126, 255] {
        add(cases, &long[..length], 3, 126, 63);
    }
    for (list_room, read_room) in [(0, 0), (1, 1), (13, 62), (63, 126), (125, 64), (127, 65), (255, 255)] {
        add(cases, &long[..63], 3, list_room, read_room);
    }
    for radius in [6, 7, 128, 255] {
        add(cases, &long[..63], radius, 126, 63);
    }
}

/// Everything that is refused, with everything else that is refused: which comes first.
fn order_of_refusals(cases: &mut Cases, random: &mut Random) {
    for faults in 0..16 {
        let has = |fault: u8| faults >> fault & 1 == 1;
        for mut ring in [random_line(&cases.code, random), random.bytes(63, 64), vec![0; 63]] {
            if has(2) {
                ring[random.below(62)] = 64;
            }
            ring.truncate(if has(0) { 62 } else { 63 });
            let (list_room, read_room) = if has(1) { (63, 126) } else { (126, 63) };
            add(cases, &ring, if has(3) { 6 } else { 3 }, list_room, read_room);
        }
    }
}

fn noise(cases: &mut Cases, random: &mut Random) {
    for _ in 0..30 {
        let ring = random.bytes(63, 64);
        both(cases, &ring, 5);
    }
}

pub fn add_all(cases: &mut Cases) {
    let random = &mut Random::new(126);
    for add_some in [
        bench_rows,
        every_start,
        errors_at_every_radius,
        between_two_starts,
        rings_without_marks,
        two_lines_mixed,
        bytes_over_63,
        wrong_lengths_and_radii,
        order_of_refusals,
        noise,
    ] {
        add_some(cases, random);
    }
}
