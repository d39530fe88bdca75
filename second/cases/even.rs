//! Cases of dark rows and bright rows of every count, and of blocks whose columns are even: refused with up to six wrong bits, read with the last row inverted.

use super::block::{encode, read};
use super::Cases;
use crate::even::{data_of, even_block, inverted, refused, too_many_wrong, uniform, BRIGHT, DARK, MOST_WRONG};
use crate::random::Random;

/// Dark film and bright film, cut to every number of rows.
fn of_one_row(cases: &mut Cases, _: &mut Random) {
    for count in 0..=66 {
        for row in [DARK, BRIGHT] {
            read(cases, &uniform(row, count));
        }
    }
}

/// Dark film and an even number of bright rows with stray bits: up to six, anywhere, and seven in one row.
fn stray_bits(cases: &mut Cases, random: &mut Random) {
    for count in [2, 3, 8, 9, 16, 33, 64] {
        for row in [DARK, BRIGHT] {
            if row == BRIGHT && count % 2 == 1 {
                continue;
            }
            let rows = uniform(row, count);
            for wrong in 1..=MOST_WRONG {
                read(cases, &refused(random, &rows, wrong));
            }
            read(cases, &too_many_wrong(random, &rows, count - 1));
        }
    }
}

/// Blocks whose columns are even, as they are, with wrong bits, with the last row inverted, and their data rows encoded.
fn even_columns(cases: &mut Cases, random: &mut Random) {
    for count in 2..=64 {
        let even = even_block(random, count);
        read(cases, &even);
        let wrong = 1 + random.below(MOST_WRONG);
        read(cases, &refused(random, &even, wrong));
        let row = random.below(count);
        read(cases, &too_many_wrong(random, &even, row));
        for wrong in 0..=1 {
            read(cases, &inverted(random, &even, wrong));
        }
        encode(cases, &data_of(&even));
    }
}

pub fn add_all(cases: &mut Cases) {
    let random = &mut Random::new(14);
    for add_some in [of_one_row, stray_bits, even_columns] {
        add_some(cases, random);
    }
}
