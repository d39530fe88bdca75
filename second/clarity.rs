//! How clear a scan is, by exact fractions: each side is a list of its cells, its variance the mean of their squared distances from the mean, and the double
//! that is nearest to a fraction is found by long division to 53 digits. No floating point number is worked with.

use crate::random::Random;
use crate::refusals;

/// The cells of a scan.
pub const CELLS: usize = 378;

/// The most scans of a spool.
pub const SCANS: usize = 255;

/// The length of the longest spool.
pub const LONGEST: usize = SCANS * CELLS;

/// The kinds of an answer that is no refusal.
pub const RATIO: usize = 0;
pub const NO_SPREAD: usize = 1;

/// The highest brightness.
pub const BRIGHTEST: u8 = 255;

/// The digits of a double after its first, which is not stored, and the lowest whole number that has as many after it.
const STORED: u64 = 52;
const LEAST: u128 = 1 << STORED;

/// What is stored for the exponent of 1.0.
const BIAS: u64 = 1023;

/// The answer and the kind; and the bits of three doubles, the ratio, the mean of the dark cells and that of the bright ones.
pub type Told = (Vec<usize>, [u64; 3]);

/// A fraction in lowest terms. Of a scan a mean stays below 2^17 / 2^9, a variance below 2^43 / 2^26 and the sum of two below 2^70 / 2^52; the squared distance
/// of two means below 2^52 / 2^36, and its quotient by such a sum below 2^104 / 2^106: each fits, twice its rest too.
#[derive(Clone, Copy)]
struct Fraction {
    above: u128,
    below: u128,
}

/// Euclid's greatest common divisor.
fn common(one: u128, other: u128) -> u128 {
    if other == 0 { one } else { common(other, one % other) }
}

impl Fraction {
    fn new(above: u128, below: u128) -> Fraction {
        let common = common(above, below);
        Fraction { above: above / common, below: below / common }
    }

    fn plus(self, other: Fraction) -> Fraction {
        Fraction::new(self.above * other.below + other.above * self.below, self.below * other.below)
    }

    /// How far apart two fractions are.
    fn distance(self, other: Fraction) -> Fraction {
        Fraction::new((self.above * other.below).abs_diff(other.above * self.below), self.below * other.below)
    }

    fn squared(self) -> Fraction {
        Fraction { above: self.above * self.above, below: self.below * self.below }
    }

    /// The quotient by a fraction that is not 0.
    fn over(self, other: Fraction) -> Fraction {
        Fraction::new(self.above * other.below, self.below * other.above)
    }
}

/// The first 53 digits of a fraction as a whole number, how many of them stand after the point, and what is left over `below` beyond the last.
struct Divided {
    digits: u128,
    places: u64,
    rest: u128,
}

/// Long division of a fraction that is above 0 and below 2^53.
fn divided(Fraction { above, below }: Fraction) -> Divided {
    let mut given = Divided { digits: above / below, places: 0, rest: above % below };
    assert!(above > 0 && given.digits < 2 * LEAST);
    while given.digits < LEAST {
        let next = 2 * given.rest >= below;
        given.rest = if next { 2 * given.rest - below } else { 2 * given.rest };
        given.digits = 2 * given.digits + next as u128;
        given.places += 1;
    }
    given
}

/// The bits of the double that is nearest to a fraction, and of two that are as near of the one whose last digit is 0. Where rounding up makes a digit more, it
/// carries into the exponent, as it should.
fn nearest_double(fraction: Fraction) -> u64 {
    if fraction.above == 0 {
        return 0;
    }
    let Divided { digits, places, rest } = divided(fraction);
    let up = 2 * rest > fraction.below || 2 * rest == fraction.below && digits % 2 == 1;
    ((BIAS + STORED - places) << STORED) + (digits - LEAST) as u64 + up as u64
}

/// Fractions and the bits of the doubles that are nearest to them: whole ones, periodic ones, halfway between two doubles, and a little beside that.
const KNOWN_DOUBLES: [(u128, u128, u64); 15] = [
    (0, 1, 0),
    (1, 1, 0x3ff0000000000000),
    (255, 1, 0x406fe00000000000),
    (1, 2, 0x3fe0000000000000),
    (1, 3, 0x3fd5555555555555),
    (2, 3, 0x3fe5555555555555),
    (1, 10, 0x3fb999999999999a),
    (3, 10, 0x3fd3333333333333),
    (2 * LEAST - 1, 1, 0x433fffffffffffff),
    (2 * LEAST + 1, 2, 0x4330000000000000),
    (2 * LEAST + 3, 2, 0x4330000000000002),
    (4 * LEAST - 1, 2, 0x4340000000000000),
    (4 * LEAST + 3, 4, 0x4330000000000001),
    (8 * LEAST + 5, 8, 0x4330000000000001),
    (8 * LEAST + 3, 8, 0x4330000000000000),
];

/// Whether the nearest doubles are those that are known.
pub fn are_doubles_right() -> bool {
    KNOWN_DOUBLES.iter().all(|&(above, below, bits)| nearest_double(Fraction::new(above, below)) == bits)
}

/// The cells of each side, the dark ones first.
fn sides(cells: &[u8], threshold: u8) -> [Vec<u8>; 2] {
    let (dark, bright) = cells.iter().partition(|&&cell| cell < threshold);
    [dark, bright]
}

fn mean(side: &[u8]) -> Fraction {
    Fraction::new(side.iter().map(|&cell| cell as u128).sum(), side.len() as u128)
}

/// The mean of the squared distances from the mean; the distances have the mean's `below`.
fn variance(side: &[u8]) -> Fraction {
    let Fraction { above, below } = mean(side);
    let distances = side.iter().map(|&cell| (cell as u128 * below).abs_diff(above));
    Fraction::new(distances.map(|distance| distance * distance).sum(), below * below * side.len() as u128)
}

fn are_alike(side: &[u8]) -> bool {
    side.iter().all(|&cell| cell == side[0])
}

/// The squared distance of the means over the sum of the variances; nothing where each side is all alike.
fn ratio([dark, bright]: &[Vec<u8>; 2]) -> Option<Fraction> {
    let spread = variance(dark).plus(variance(bright));
    assert_eq!(spread.above == 0, are_alike(dark) && are_alike(bright));
    (spread.above > 0).then(|| mean(dark).distance(mean(bright)).squared().over(spread))
}

/// How clear a scan is.
pub fn scan(cells: &[u8], threshold: u8) -> Told {
    let refused = |number: u8| (vec![number as usize, 0], [0; 3]);
    if cells.len() != CELLS {
        return refused(refusals::INPUT_LENGTH);
    }
    let sides = sides(cells, threshold);
    if sides.iter().any(Vec::is_empty) {
        return refused(refusals::ONE_SIDED);
    }
    let [dark, bright] = sides.each_ref().map(|side| nearest_double(mean(side)));
    match ratio(&sides) {
        Some(ratio) => (vec![0, RATIO], [nearest_double(ratio), dark, bright]),
        None => (vec![0, NO_SPREAD], [0, dark, bright]),
    }
}

/// The answer for a spool, and how many of its scans have a ratio, have no spread and are refused.
pub fn spool(cells: &[u8], threshold: u8) -> Vec<usize> {
    let scans = cells.chunks_exact(CELLS);
    if !scans.remainder().is_empty() || scans.len() > SCANS {
        return vec![refusals::INPUT_LENGTH as usize, 0, 0, 0];
    }
    let told: Vec<Vec<usize>> = scans.map(|cells| scan(cells, threshold).0).collect();
    let count = |due: [usize; 2]| told.iter().filter(|&numbers| *numbers == due).count();
    let counts = [count([0, RATIO]), count([0, NO_SPREAD]), count([refusals::ONE_SIDED as usize, 0])];
    assert_eq!(counts.iter().sum::<usize>(), told.len());
    [&[0], &counts[..]].concat()
}

/// A brightness, and how many cells have it.
pub type Group = (u8, usize);

/// The cells of groups, one group after the other.
pub fn of_groups(groups: &[Group]) -> Vec<u8> {
    groups.iter().flat_map(|&(brightness, count)| vec![brightness; count]).collect()
}

/// Thresholds and scans at the ends: the brightest cells against the darkest, as many of each, with one beside them, and with the least denominator that is not
/// 0; some of the least ratios; one cell against all others; and the greatest denominator, at either end.
pub const EXTREMES: [(u8, &[Group]); 12] = [
    (128, &[(0, 189), (255, 189)]),
    (128, &[(0, 188), (1, 1), (255, 189)]),
    (128, &[(0, 189), (254, 1), (255, 188)]),
    (128, &[(0, 376), (1, 1), (255, 1)]),
    (128, &[(0, 1), (254, 1), (255, 376)]),
    (1, &[(0, 1), (1, 376), (255, 1)]),
    (255, &[(0, 1), (254, 376), (255, 1)]),
    (1, &[(0, 1), (1, 377)]),
    (1, &[(0, 377), (1, 1)]),
    (255, &[(254, 377), (255, 1)]),
    (255, &[(0, 94), (254, 95), (255, 189)]),
    (1, &[(0, 189), (1, 95), (255, 94)]),
];

/// Thresholds and scans whose ratio lies next to the middle of two doubles, by less than a part in NEARNESS of half their distance. None can lie at the middle
/// itself, since the numerator would have 54 digits. Those of the first half lie below it, the others above.
pub const NEAR_HALFWAY: [(u8, [Group; 4]); 12] = [
    (134, [(11, 21), (53, 8), (140, 282), (247, 67)]),
    (66, [(40, 8), (46, 21), (231, 276), (250, 73)]),
    (131, [(21, 19), (125, 122), (208, 120), (217, 117)]),
    (10, [(2, 129), (7, 187), (191, 1), (204, 61)]),
    (119, [(52, 57), (110, 2), (248, 179), (249, 140)]),
    (252, [(123, 29), (147, 15), (252, 301), (254, 33)]),
    (175, [(143, 58), (151, 132), (202, 26), (238, 162)]),
    (31, [(19, 2), (21, 269), (238, 97), (239, 10)]),
    (74, [(23, 35), (44, 14), (80, 158), (158, 171)]),
    (223, [(94, 47), (112, 105), (246, 186), (254, 40)]),
    (66, [(45, 86), (54, 20), (240, 120), (242, 152)]),
    (60, [(52, 80), (53, 12), (66, 190), (71, 96)]),
];
const NEARNESS: u128 = 1 << 23;

/// The cells of such a scan and its threshold, where the ratio lies on its side of the middle, and as near.
pub fn near_halfway(which: usize) -> (Vec<u8>, u8) {
    let (threshold, groups) = NEAR_HALFWAY[which];
    let cells = of_groups(&groups);
    let ratio = ratio(&sides(&cells, threshold)).expect("a spread");
    let twice = 2 * divided(ratio).rest;
    assert_eq!(twice < ratio.below, which < NEAR_HALFWAY.len() / 2);
    assert!(twice.abs_diff(ratio.below) * NEARNESS < ratio.below);
    (cells, threshold)
}

/// Cells in any order.
pub fn shuffled(random: &mut Random, mut cells: Vec<u8>) -> Vec<u8> {
    (0..cells.len()).map(|_| cells.swap_remove(random.below(cells.len()))).collect()
}

/// So many cells within a span of brightnesses, the lowest and how many.
fn heap(random: &mut Random, count: usize, lowest: usize, span: usize) -> Vec<u8> {
    random.bytes(count, span).iter().map(|above| lowest as u8 + above).collect()
}

/// Cells about a threshold that is not 0, in any order: so many dark ones, of as many brightnesses below it as the first span has, and else bright ones, of as
/// many from it on as the second has.
pub fn about(random: &mut Random, threshold: u8, dark: usize, spans: [usize; 2]) -> Vec<u8> {
    let threshold = threshold as usize;
    let below = spans[0].min(threshold);
    let above = spans[1].min(BRIGHTEST as usize + 1 - threshold);
    let heaps = [heap(random, dark, threshold - below, below), heap(random, CELLS - dark, threshold, above)];
    shuffled(random, heaps.concat())
}

/// Any scan and a threshold: any cells, any with one of them for the threshold, and cells about it, one of them dark, one bright or some, each side of one
/// brightness, of two or of some.
pub fn any_scan(random: &mut Random) -> (Vec<u8>, u8) {
    let threshold = 1 + random.below(BRIGHTEST as usize) as u8;
    match random.below(8) {
        0 => (random.bytes(CELLS, 256), threshold),
        1 => {
            let cells = random.bytes(CELLS, 256);
            let threshold = cells[random.below(CELLS)];
            (cells, threshold)
        }
        _ => {
            let dark = [1, CELLS - 1, random.below(CELLS + 1)][random.below(3)];
            let spans = [(); 2].map(|()| [1, 2, 1 + random.below(256)][random.below(3)]);
            (about(random, threshold, dark, spans), threshold)
        }
    }
}

/// How many ways there are for a scan to be counted.
pub const WAYS: usize = 3;

/// A scan that is counted in one of these ways, 0 as a ratio, 1 as no spread, 2 as a refusal, at a threshold that has two brightnesses on either side.
pub fn counted_as(random: &mut Random, threshold: u8, way: usize) -> Vec<u8> {
    let dark = 1 + random.below(CELLS - 1);
    let spans = [2 + random.below(254), 2 + random.below(254)];
    match way {
        0 => about(random, threshold, dark, spans),
        1 => {
            let low = random.below(threshold as usize) as u8;
            let high = BRIGHTEST - random.below(256 - threshold as usize) as u8;
            shuffled(random, of_groups(&[(low, dark), (high, CELLS - dark)]))
        }
        _ => {
            let none_or_all = [0, CELLS][random.below(2)];
            about(random, threshold, none_or_all, spans)
        }
    }
}

/// Scans that are counted in these ways, one after the other. What is due for them follows, and working each out has to say the same.
pub fn spool_of(random: &mut Random, threshold: u8, ways: &[usize]) -> Vec<u8> {
    let cells: Vec<u8> = ways.iter().flat_map(|&way| counted_as(random, threshold, way)).collect();
    if ways.len() <= SCANS {
        let count = |way| ways.iter().filter(|&&other| other == way).count();
        assert_eq!(spool(&cells, threshold), [0, count(0), count(1), count(2)]);
    }
    cells
}
