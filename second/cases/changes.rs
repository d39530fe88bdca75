//! Cases of the first and the last changed address: in words, and in words at the starts of rings, where an address is no place on the ring.

use super::{line, ring, Cases};
use crate::code::{changed, with_errors};
use crate::line::random_line;
use crate::random::Random;
use crate::ring::recorded;

/// So many wrong characters: the first and the last address, and what is left at addresses between.
fn between(random: &mut Random, first: usize, last: usize, count: usize) -> Vec<(usize, u8)> {
    let mut inside: Vec<usize> = (first + 1..last).collect();
    let ends = if first == last { vec![first] } else { vec![first, last] };
    let others = (ends.len()..count).map(|_| inside.swap_remove(random.below(inside.len()))).collect();
    [ends, others].concat().into_iter().map(|a| (a, 1 + random.below(63) as u8)).collect()
}

fn add(cases: &mut Cases, random: &mut Random, first: usize, last: usize, count: usize) {
    let line = random_line(&cases.code, random);
    let word = with_errors(&line, &between(random, first, last, count));
    assert_eq!(changed(&word, &line), [first, last]);
    line::read(cases, &word, 5, None);
}

/// Every address as the first, with the last at the end; as the last, with the first at 0; and as both.
fn every_address(cases: &mut Cases, random: &mut Random) {
    for address in 0..63 {
        add(cases, random, address, address, 1);
        for count in 2..=5 {
            if 62 - address >= count - 1 {
                add(cases, random, address, 62, count);
            }
            if address >= count - 1 {
                add(cases, random, 0, address, count);
            }
        }
    }
}

/// Lines, of which nothing is changed.
fn nothing_changed(cases: &mut Cases, random: &mut Random) {
    for radius in 0..=5 {
        let line = random_line(&cases.code, random);
        assert_eq!(changed(&line, &line), [63, 63]);
        line::read(cases, &line, radius, None);
    }
}

/// One wrong character on a ring, at every start: now at the first address of the line, now at the last, now between.
fn rings(cases: &mut Cases, random: &mut Random) {
    for start in 0..126 {
        let line = random_line(&cases.code, random);
        let address = [0, 62, 1 + random.below(61)][start % 3];
        let word = with_errors(&line, &[(address, 1 + random.below(63) as u8)]);
        ring::both(cases, &recorded(&word, start), 2);
        ring::both(cases, &recorded(&line, start), 1);
    }
}

pub fn add_all(cases: &mut Cases) {
    let random = &mut Random::new(7);
    for add_some in [every_address, nothing_changed, rings] {
        add_some(cases, random);
    }
}
