//! Cases of how clear scans are: some that are known, thresholds over one scan, counts of dark cells, ratios next to the middle of two doubles, spools up to
//! one scan too many, and which refusal comes first.

use super::{Case, Cases, SCAN_CLARITY, SPOOL_CLARITY};
use crate::clarity::{about, any_scan, are_doubles_right, near_halfway, of_groups, scan, shuffled, spool, spool_of};
use crate::clarity::{Group, Told, BRIGHTEST, CELLS, EXTREMES, LONGEST, NEAR_HALFWAY, NO_SPREAD, RATIO, SCANS, WAYS};
use crate::random::Random;

/// A threshold, the groups of a scan, and what is due: the kind, and the bits of the ratio, of the mean of the dark cells and of that of the bright ones.
type Known<'a> = (u8, &'a [Group], usize, [u64; 3]);

/// Means of 10 and 200 with variances of 2/3, so that the ratio is 27,075; a dark cell of 0 and a mean of 378/377, where it is 142,884/376; and no spread.
const KNOWN: [Known; 3] = [
    (100, &[(9, 63), (10, 63), (11, 63), (199, 63), (200, 63), (201, 63)], RATIO, [0x40da70c000000000, 0x4024000000000000, 0x4069000000000000]),
    (1, &[(0, 1), (1, 376), (2, 1)], RATIO, [0x4077c02b93105726, 0, 0x3ff00add5e6323fd]),
    (128, &[(127, 189), (128, 189)], NO_SPREAD, [0, 0x405fc00000000000, 0x4060000000000000]),
];

/// Counts of dark cells, none, all, and those about a third, a half and two thirds of them.
const DARK_COUNTS: [usize; 12] = [0, 1, 2, 3, 126, 188, 189, 190, 252, CELLS - 2, CELLS - 1, CELLS];

/// Every so many thresholds are tried over one scan, the lowest and the highest among them.
const STEP: usize = 5;

/// How many of a kind there are where chance makes them.
const TIMES: usize = 12;

/// The bytes that are printed are those of the three doubles, each from its highest byte on.
fn add_scan(cases: &mut Cases, cells: &[u8], threshold: u8) -> Told {
    let told = scan(cells, threshold);
    cases.add(Case { small: threshold, ..Case::new(SCAN_CLARITY, cells) }, &told.0, &told.1.map(u64::to_be_bytes).concat());
    told
}

/// The spool is the bytes, and after them the first of them again, so many.
fn add_spool(cases: &mut Cases, bytes: &[u8], again: usize, threshold: u8) {
    let cells = [bytes, &bytes[..again.min(bytes.len())]].concat();
    let number = u16::try_from(again).expect("a number of two bytes");
    cases.add(Case { small: threshold, number, ..Case::new(SPOOL_CLARITY, bytes) }, &spool(&cells, threshold), &[]);
}

fn known(cases: &mut Cases, random: &mut Random) {
    for (threshold, groups, kind, bits) in KNOWN {
        let cells = shuffled(random, of_groups(groups));
        assert_eq!(add_scan(cases, &cells, threshold), (vec![0, kind], bits));
    }
}

/// Some thresholds over a scan that has every brightness, so that each of them is one of its cells.
fn thresholds(cases: &mut Cases, _: &mut Random) {
    let cells: Vec<u8> = (0..=BRIGHTEST).cycle().take(CELLS).collect();
    for threshold in (0..=BRIGHTEST).step_by(STEP) {
        add_scan(cases, &cells, threshold);
    }
}

/// The extremes, and ratios next to the middle of two doubles.
fn extremes(cases: &mut Cases, _: &mut Random) {
    for (threshold, groups) in EXTREMES {
        add_scan(cases, &of_groups(groups), threshold);
    }
    for which in 0..NEAR_HALFWAY.len() {
        let (cells, threshold) = near_halfway(which);
        add_scan(cases, &cells, threshold);
    }
}

/// Counts of dark cells, where each side is of one brightness, of two, or of all that there are.
fn dark_counts(cases: &mut Cases, random: &mut Random) {
    for dark in DARK_COUNTS {
        for spans in [[1, 1], [1, 2], [2, 1], [256, 256]] {
            let threshold = 1 + random.below(BRIGHTEST as usize) as u8;
            add_scan(cases, &about(random, threshold, dark, spans), threshold);
        }
    }
}

/// A cell at the first place, the last and between, that is alone on its side, or unlike the others on its own.
fn places(cases: &mut Cases, _: &mut Random) {
    for place in [0, CELLS / 2, CELLS - 1] {
        let mut cells = [100; CELLS];
        for (threshold, other) in [(100, 99), (101, 255)] {
            cells[place] = other;
            add_scan(cases, &cells, threshold);
        }
        let mut cells = of_groups(&[(99, CELLS / 2), (100, CELLS / 2)]);
        cells[place] = 20;
        add_scan(cases, &cells, 100);
    }
}

/// Any scans, and cells that are one below the threshold, at it, or one above.
fn any(cases: &mut Cases, random: &mut Random) {
    for _ in 0..3 * TIMES {
        let (cells, threshold) = any_scan(random);
        add_scan(cases, &cells, threshold);
    }
    for threshold in [1, 2, 128, 254] {
        let cells: Vec<u8> = random.bytes(CELLS, 3).iter().map(|above| threshold - 1 + above).collect();
        add_scan(cases, &cells, threshold);
        add_scan(cases, &cells, threshold - 1);
    }
}

/// Other lengths, with thresholds at which some cells are dark, none and all: 1 comes before 20.
fn lengths(cases: &mut Cases, random: &mut Random) {
    let cells = random.bytes(2 * CELLS, BRIGHTEST as usize);
    for length in [0, 1, 2, CELLS - 1, CELLS + 1, 2 * CELLS] {
        for threshold in [0, 128, BRIGHTEST] {
            add_scan(cases, &cells[..length], threshold);
        }
    }
    for threshold in [0, BRIGHTEST] {
        add_scan(cases, &cells[..CELLS], threshold);
    }
}

/// Spools of no scan, one, two and three, counted in several ways, with a threshold at which none is dark too; lengths that are no multiple; and the first
/// bytes again, also more than there are.
fn spools(cases: &mut Cases, random: &mut Random) {
    let threshold = 77;
    add_spool(cases, &[], 0, threshold);
    add_spool(cases, &[], CELLS, threshold);
    for way in 0..WAYS {
        let one = spool_of(random, threshold, &[way]);
        add_spool(cases, &one, 0, threshold);
        add_spool(cases, &one, u16::MAX as usize, threshold);
        add_spool(cases, &spool_of(random, threshold, &[way, (way + 1) % WAYS, (way + 2) % WAYS]), 0, threshold);
        add_spool(cases, &spool_of(random, threshold, &[way, (way + 2) % WAYS]), CELLS, threshold);
    }
    let cells = spool_of(random, threshold, &[0, 1]);
    add_spool(cases, &cells, 0, 0);
    for length in [1, CELLS / 6, CELLS / 2, CELLS - 1, CELLS + 1, 3 * CELLS / 2, 2 * CELLS - 1] {
        add_spool(cases, &cells[..length], 0, threshold);
    }
    for again in [1, CELLS - 1, CELLS + 1] {
        add_spool(cases, &cells, again, threshold);
    }
}

/// As many scans as there may be, and one more.
fn most_scans(cases: &mut Cases, random: &mut Random) {
    let threshold = 130;
    let ways: Vec<usize> = random.bytes(SCANS / 2 + 1, WAYS).iter().map(|&way| way as usize).collect();
    let cells = spool_of(random, threshold, &ways);
    for again in [LONGEST - cells.len(), cells.len()] {
        add_spool(cases, &cells, again, threshold);
    }
}

pub fn add_all(cases: &mut Cases) {
    assert!(are_doubles_right());
    let random = &mut Random::new(378);
    for add_some in [known, thresholds, extremes, dark_counts, places, any, lengths, spools, most_scans] {
        add_some(cases, random);
    }
}
