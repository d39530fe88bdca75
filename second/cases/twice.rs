//! Cases of words whose locator has a root twice, read as lines and recorded on rings: no line lies within five characters of one.

use super::{line, ring, Cases};
use crate::random::Random;
use crate::ring::recorded;
use crate::twice::{random_word, word};

/// Each address as the root that comes twice, alone and with one to three others.
fn every_address(cases: &mut Cases, random: &mut Random) {
    for address in 0..63 {
        for others in 0..=3 {
            let addresses: Vec<usize> = (0..=others).map(|i| (address + i * (1 + address % 20)) % 63).collect();
            let word = word(&cases.code, random, &addresses);
            line::read(cases, &word, 5, None);
        }
    }
}

/// Every number of roots at every radius.
fn every_radius(cases: &mut Cases, random: &mut Random) {
    for roots in 2..=5 {
        for radius in 0..=5 {
            let word = random_word(&cases.code, random, roots);
            line::read(cases, &word, radius, None);
        }
    }
}

/// Rings, at random starts.
fn rings(cases: &mut Cases, random: &mut Random) {
    for roots in 2..=5 {
        let word = random_word(&cases.code, random, roots);
        let ring = recorded(&word, random.below(126));
        ring::both(cases, &ring, 5);
    }
}

pub fn add_all(cases: &mut Cases) {
    let random = &mut Random::new(15);
    for add_some in [every_address, every_radius, rings] {
        add_some(cases, random);
    }
}
