//! Cases of undamaged rings at every start, of rings whose direction is known, and of rings with just one wrong character too many, or a radius one too large.

use super::{ring, Cases};
use crate::false_starts::{known_way, tight, turns_apart, undamaged, EITHER_WAY_TIGHT, ONE_WAY_TIGHT};
use crate::line::random_line;
use crate::random::Random;

fn add(cases: &mut Cases, given: &[u8], radius: u8) {
    ring::add(cases, given, radius, 126, 63);
}

/// A random line at every start, at radius 4, at 5 and at a smaller one.
fn undamaged_rings(cases: &mut Cases, random: &mut Random) {
    for start in 0..126 {
        for radius in [random.below(4) as u8, 4, 5] {
            let line = random_line(&cases.code, random);
            let given = undamaged(&cases.code, &line, start, radius);
            add(cases, &given, radius);
        }
    }
}

/// Forward and backward, with as many wrong characters as leave the true start alone in its direction.
fn known_ways(cases: &mut Cases, random: &mut Random) {
    for radius in 0..=4 {
        for wrong in 0..=radius.min(4 - radius) as usize {
            for direction in [0, 63, 0, 63] {
                let start = direction + random.below(63);
                let given = known_way(&cases.code, random, start, wrong, radius);
                add(cases, &given, radius);
            }
        }
    }
}

/// The bounds of both rules passed by one, of lines that run forward and backward: there is a second start, of the other direction or of the same.
fn tight_rings(cases: &mut Cases, random: &mut Random) {
    for (pairs, apart) in [(EITHER_WAY_TIGHT, 4), (ONE_WAY_TIGHT, 5)] {
        for (wrong, radius) in pairs {
            for turn in turns_apart(apart) {
                for direction in [0, 63] {
                    let line = random_line(&cases.code, random);
                    let given = tight(&cases.code, &line, direction + random.below(63), turn, wrong, radius);
                    add(cases, &given, radius);
                }
            }
        }
    }
}

pub fn add_all(cases: &mut Cases) {
    let random = &mut Random::new(13);
    for add_some in [undamaged_rings, known_ways, tight_rings] {
        add_some(cases, random);
    }
}
