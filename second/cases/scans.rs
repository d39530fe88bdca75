//! Cases of two scans: every two counts of wrong characters at every radius, ties, scans that are refused, and which refusal is told.

use super::{Case, Cases, BETTER_SCAN};
use crate::code::marks;
use crate::line::random_line;
use crate::random::Random;
use crate::scans::{better, random_two};

/// The two scans stand one after the other in the input. What is printed is the choice, the answer that comes with the part handed back, and the part.
fn add(cases: &mut Cases, first: &[u8], second: &[u8], radius: u8) {
    let choice = better(&cases.code, first, second, radius);
    let kept = [&[], first, second][choice[1]];
    let both = [first, second].concat();
    let case = Case { small: radius, number: first.len() as u16, ..Case::new(BETTER_SCAN, &both) };
    cases.add(case, &[choice[0], choice[1], choice[0]], kept);
}

/// 0 to 6 wrong characters in each, at every radius.
fn every_two_counts(cases: &mut Cases, random: &mut Random) {
    for wrong in 0..=6 {
        for more in 0..=6 {
            for radius in 0..=6 {
                let [one, other] = random_two(&cases.code, random, wrong, more);
                add(cases, &one, &other, radius);
            }
        }
    }
}

/// The same bytes twice, two lines, and lines beside words that are near none.
fn ties(cases: &mut Cases, random: &mut Random) {
    for wrong in 0..=6 {
        let [one, other] = random_two(&cases.code, random, wrong, wrong);
        add(cases, &one, &one, 5);
        add(cases, &one, &random_line(&cases.code, random), 5);
        add(cases, &random.bytes(63, 64), &other, 5);
        add(cases, &marks(), &other, 5);
    }
}

/// Every kind of scan beside every kind: read, with a character over 63, of other lengths, and near no line.
fn refused(cases: &mut Cases, random: &mut Random) {
    for radius in [0, 1, 5, 6, 255] {
        let [one, far] = random_two(&cases.code, random, 1, 6);
        let mut high = one.clone();
        high[random.below(63)] = 64 + random.below(192) as u8;
        let long = [&one[..], &[0]].concat();
        let scans = [&one[..], &far, &high, &long, &one[..62], &[]];
        for first in scans {
            for second in scans {
                add(cases, first, second, radius);
            }
        }
    }
}

pub fn add_all(cases: &mut Cases) {
    let random = &mut Random::new(2);
    for add_some in [every_two_counts, ties, refused] {
        add_some(cases, random);
    }
}
