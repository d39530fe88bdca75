//! Tests of how clear scans are: ratios and means bit for bit, against doubles that are written down and, on scans of several kinds and at every threshold,
//! against a division in whole numbers; spools against their scans one by one; and the refusals in their order.

use film::{Clarities, Clarity, Means, Refusal, Scan, CELLS, PLACES, SCANS};

/// A threshold between the dark and the bright cells of the scans that are laid out by runs.
const MIDDLE: u8 = 128;

/// How many scans of each kind are tried.
const TRIES: usize = 200;

/// So many cells of each brightness, one after the other.
type Runs = &'static [(u8, usize)];

/// A scan of each answer, with threshold [`MIDDLE`].
const RATIO: Runs = &[(40, 126), (41, 63), (200, 126), (203, 63)];
const NO_SPREAD: Runs = &[(3, 100), (200, 278)];
const REFUSED: Runs = &[(127, 378)];
const ANSWERS: [Runs; 3] = [RATIO, NO_SPREAD, REFUSED];

/// What scans have to give, each double as its 64 bits: a threshold, the scan, the ratio, or none where there is no spread, and the means of the dark and the
/// bright cells.
const KNOWN: [(u8, Runs, Option<u64>, u64, u64); 17] = [
    // by hand: means 20 and 210, variances 100 and 100, ratio 180.5
    (128, &[(10, 100), (30, 100), (200, 89), (220, 89)], Some(0x4066900000000000), 0x4034000000000000, 0x406a400000000000),
    // the ratio is 11616.2, and no double: with means and variances that are rounded themselves its last digit is 8, and cut off it is 9
    (128, RATIO, Some(0x40c6b0199999999a), 0x40442aaaaaaaaaab, 0x4069200000000000),
    // ratios that come out as another double where they are rounded to 64 digits first: to one less, and to one more
    (128, &[(42, 115), (87, 5), (144, 128), (240, 130)], Some(0x40227e6fc3812c51), 0x4045f00000000000, 0x40680be82fa0be83),
    (128, &[(16, 178), (110, 79), (176, 25), (177, 96)], Some(0x40227e8240b7c979), 0x4046728d728d728d, 0x406619637021d9eb),
    // the greatest distance of the means, without spread and with the least
    (128, &[(0, 189), (255, 189)], None, 0, 0x406fe00000000000),
    (128, &[(0, 189), (254, 1), (255, 188)], Some(0x41679082e572620b), 0, 0x406fdfd4a7f529fd),
    (255, &[(0, 188), (1, 1), (255, 189)], Some(0x41679082e572620b), 0x3f75ac056b015ac0, 0x406fe00000000000),
    // the greatest spread
    (1, &[(0, 189), (1, 94), (255, 95)], Some(0x3ff06caceba6d071), 0, 0x40601580ad602b58),
    (255, &[(0, 94), (254, 95), (255, 189)], Some(0x3ff0154d780768cf), 0x405feb015ac056b0, 0x406fe00000000000),
    // one dark cell, and one bright
    (1, &[(0, 1), (254, 1), (255, 376)], Some(0x417770c2795c9883), 0, 0x406fdfea454339b8),
    (90, &[(89, 1), (90, 100), (91, 100), (255, 177)], Some(0x3fed6e1f402c90c9), 0x4056400000000000, 0x4064f76d5385c59a),
    (255, &[(0, 376), (1, 1), (255, 1)], Some(0x417770c2795c9883), 0x3f65babcc647fa91, 0x406fe00000000000),
    // all equal but one cell, and a step of 1
    (7, &[(6, 1), (7, 377)], None, 0x4018000000000000, 0x401c000000000000),
    (7, &[(6, 377), (7, 1)], None, 0x4018000000000000, 0x401c000000000000),
    (1, &[(0, 200), (1, 178)], None, 0, 0x3ff0000000000000),
    (255, &[(254, 9), (255, 369)], None, 0x406fc00000000000, 0x406fe00000000000),
    // cells at the threshold are bright
    (100, &[(99, 200), (100, 177), (101, 1)], Some(0x4066a0b92143fa37), 0x4058c00000000000, 0x4059005c0b81702e),
];

fn laid_out(runs: Runs) -> Vec<u8> {
    let cells: Vec<u8> = runs.iter().flat_map(|&(brightness, count)| vec![brightness; count]).collect();
    assert_eq!(cells.len(), CELLS);
    cells
}

/// Numbers that look like chance, the same in every run.
struct Chance(u32);

impl Chance {
    fn below(&mut self, bound: usize) -> usize {
        self.0 = self.0.wrapping_mul(1664525).wrapping_add(1013904223);
        (self.0 >> 8) as usize % bound
    }

    fn byte(&mut self) -> u8 {
        self.below(256) as u8
    }

    /// Dark cells about one brightness and bright ones about another; a threshold between them.
    fn two_bells(&mut self) -> (Vec<u8>, u8) {
        let (low, high, width, darks) = (20 + self.below(90), 120 + self.below(120), 1 + self.below(20), 1 + self.below(CELLS - 1));
        let mut about = |middle: usize| (0..3).fold(middle, |sum, _| sum + self.below(2 * width + 1)).saturating_sub(3 * width).min(255) as u8;
        ((0..CELLS).map(|i| about(if i < darks { low } else { high })).collect(), ((low + high) / 2) as u8)
    }

    fn uniform(&mut self) -> (Vec<u8>, u8) {
        ((0..CELLS).map(|_| self.byte()).collect(), self.byte())
    }

    /// All cells of one brightness, but for a few that are one more or one less; a threshold near it.
    fn nearly_flat(&mut self) -> (Vec<u8>, u8) {
        let flat = 1 + self.below(254) as u8;
        let mut cells = vec![flat; CELLS];
        for _ in 0..self.below(5) {
            cells[self.below(CELLS)] = if self.below(2) == 0 { flat - 1 } else { flat + 1 };
        }
        (cells, flat + self.below(2) as u8)
    }

    /// One to four brightnesses; a threshold that is one of them.
    fn few_brightnesses(&mut self) -> (Vec<u8>, u8) {
        let some: Vec<u8> = (0..=self.below(4)).map(|_| self.byte()).collect();
        ((0..CELLS).map(|_| some[self.below(some.len())]).collect(), some[0])
    }
}

/// The kinds of scans that are made by chance, each with a threshold, which often leaves a side without cells.
const KINDS: [fn(&mut Chance) -> (Vec<u8>, u8); 4] = [Chance::two_bells, Chance::uniform, Chance::nearly_flat, Chance::few_brightnesses];

/// The double nearest to a quotient of whole numbers, the even one of two: 54 digits or more of the quotient, and whether anything is left over.
fn nearest(numerator: u128, denominator: u128) -> u64 {
    const DIGITS: u32 = f64::MANTISSA_DIGITS;
    const BIAS: u32 = f64::MAX_EXP as u32 - 1;
    if numerator == 0 {
        return 0;
    }
    let shift = DIGITS + 1 + denominator.ilog2() - numerator.ilog2();
    let (quotient, left) = ((numerator << shift) / denominator, (numerator << shift) % denominator);
    let over = quotient.ilog2() + 1 - DIGITS;
    let (digits, cut, half) = (quotient >> over, quotient % (1 << over), 1 << (over - 1));
    let up = cut > half || cut == half && (left > 0 || digits % 2 == 1);
    // the first digit is not written: it adds 1 to the exponent
    (u64::from(BIAS + DIGITS + over - 2 - shift) << (DIGITS - 1)) + (digits as u64) + u64::from(up)
}

/// How many cells a side has, their sum, and the sum of the squares of the differences of every two, which is the count times the sum of squares less the
/// square of the sum.
fn side(cells: &[u8]) -> (u128, u128, u128) {
    let differences = cells.iter().enumerate().flat_map(|(i, &one)| cells[..i].iter().map(move |&other| u64::from(one.abs_diff(other))));
    (cells.len() as u128, cells.iter().map(|&c| u128::from(c)).sum(), differences.map(|difference| difference * difference).sum::<u64>().into())
}

/// What a scan has to give, as [`in_bits`] writes it.
fn worked_out(cells: &[u8], threshold: u8) -> Result<(Option<u64>, u64, u64), Refusal> {
    let (dark, bright): (Vec<u8>, Vec<u8>) = cells.iter().partition(|&&c| c < threshold);
    let ((n1, s1, spread1), (n2, s2, spread2)) = (side(&dark), side(&bright));
    if n1 == 0 || n2 == 0 {
        return Err(Refusal::OneSided);
    }
    let (numerator, denominator) = ((s2 * n1 - s1 * n2).pow(2), n2 * n2 * spread1 + n1 * n1 * spread2);
    let ratio = (denominator != 0).then(|| nearest(numerator, denominator));
    Ok((ratio, nearest(s1, n1), nearest(s2, n2)))
}

/// What scanning gave: the ratio, where there is one, and the two means, each as its 64 bits.
fn in_bits(given: Result<Scan, Refusal>) -> Result<(Option<u64>, u64, u64), Refusal> {
    given.map(|scan| {
        let ratio = match scan.clarity {
            Clarity::Ratio(ratio) => Some(ratio.to_bits()),
            Clarity::NoSpread => None,
        };
        assert_eq!(scan.ratio().map(f64::to_bits), ratio);
        (ratio, scan.means.dark.to_bits(), scan.means.bright.to_bits())
    })
}

/// A scan gives what is worked out for it.
fn is_due(cells: &[u8], threshold: u8) {
    assert_eq!(in_bits(film::scan_clarity(cells, threshold)), worked_out(cells, threshold));
}

#[test]
fn known() {
    for (threshold, runs, ratio, dark, bright) in KNOWN {
        let mut cells = laid_out(runs);
        for _ in 0..2 {
            assert_eq!(in_bits(film::scan_clarity(&cells, threshold)), Ok((ratio, dark, bright)));
            is_due(&cells, threshold);
            cells.reverse();
        }
    }
}

/// What a program writes down of a scan.
#[test]
fn by_hand() {
    let scan = |runs, threshold| film::scan_clarity(&laid_out(runs), threshold);
    let clear = Scan { means: Means { dark: 20.0, bright: 210.0 }, clarity: Clarity::Ratio(180.5) };
    assert_eq!(scan(&[(10, 100), (30, 100), (200, 89), (220, 89)], MIDDLE), Ok(clear));
    assert_eq!(clear.ratio(), Some(180.5));
    let flat = Scan { means: Means { dark: 3.0, bright: 200.0 }, clarity: Clarity::NoSpread };
    assert_eq!(scan(NO_SPREAD, MIDDLE), Ok(flat));
    assert_eq!(flat.ratio(), None);
}

#[test]
fn by_chance() {
    let mut chance = Chance(1);
    let mut met = [0; 3];
    for kind in KINDS {
        for _ in 0..TRIES {
            let (cells, threshold) = kind(&mut chance);
            is_due(&cells, threshold);
            met[match film::scan_clarity(&cells, threshold).map(|scan| scan.clarity) {
                Ok(Clarity::Ratio(_)) => 0,
                Ok(Clarity::NoSpread) => 1,
                Err(_) => 2,
            }] += 1;
        }
    }
    assert!(met.iter().all(|&scans| scans > TRIES / 10), "{met:?}");
}

#[test]
fn every_threshold() {
    let cells = Chance(2).uniform().0;
    for threshold in 0..=255 {
        is_due(&cells, threshold);
    }
}

/// Flat scans at every threshold, any scan at threshold 0, and one with no cell as bright as the threshold.
#[test]
fn one_sided() {
    let refused = |cells: &[u8], threshold| assert_eq!(film::scan_clarity(cells, threshold), Err(Refusal::OneSided));
    for (brightness, threshold) in [0, 1, 127, 254, 255].into_iter().flat_map(|brightness| (0..=255).map(move |threshold| (brightness, threshold))) {
        refused(&[brightness; CELLS], threshold);
    }
    for kind in KINDS {
        refused(&kind(&mut Chance(3)).0, 0);
    }
    refused(&laid_out(&[(0, 200), (254, 178)]), 255);
}

/// The counts of what scans give one by one.
fn one_by_one(cells: &[u8], threshold: u8) -> Clarities {
    let mut counts = Clarities { ratios: 0, no_spreads: 0, refusals: 0 };
    for scan in cells.chunks(CELLS) {
        match film::scan_clarity(scan, threshold) {
            Ok(Scan { clarity: Clarity::Ratio(_), .. }) => counts.ratios += 1,
            Ok(Scan { clarity: Clarity::NoSpread, .. }) => counts.no_spreads += 1,
            Err(why) => {
                assert_eq!(why, Refusal::OneSided);
                counts.refusals += 1;
            }
        }
    }
    counts
}

#[test]
fn spools() {
    let mut chance = Chance(4);
    let cells: Vec<u8> = (0..PLACES).flat_map(|i| KINDS[i % KINDS.len()](&mut chance).0).collect();
    for scans in [0, 1, 2, 3, 20, PLACES - 1, PLACES] {
        for threshold in [0, 1, 60, MIDDLE, 200, 255] {
            let spool = &cells[..CELLS * scans];
            assert_eq!(film::spool_clarity(spool, threshold), Ok(one_by_one(spool, threshold)));
        }
    }
}

/// Each answer alone, as often as there is room for, all in every order, and three different counts.
#[test]
fn counts() {
    let spool = |ratios: usize, no_spreads: usize, refusals: usize| {
        let cells = [laid_out(RATIO).repeat(ratios), laid_out(NO_SPREAD).repeat(no_spreads), laid_out(REFUSED).repeat(refusals)].concat();
        let due = Clarities { ratios: ratios as u8, no_spreads: no_spreads as u8, refusals: refusals as u8 };
        assert_eq!(film::spool_clarity(&cells, MIDDLE), Ok(due));
    };
    for (ratios, no_spreads, refusals) in [(0, 0, 0), (PLACES, 0, 0), (0, PLACES, 0), (0, 0, PLACES), (100, 90, 65), (1, 2, 3)] {
        spool(ratios, no_spreads, refusals);
    }
    for order in 0..27 {
        let cells = [order % 3, order / 3 % 3, order / 9].map(|answer| laid_out(ANSWERS[answer])).concat();
        assert_eq!(film::spool_clarity(&cells, MIDDLE), Ok(one_by_one(&cells, MIDDLE)));
    }
}

/// The length comes before the cells, whatever these would give.
#[test]
fn lengths() {
    for (runs, threshold) in ANSWERS.into_iter().flat_map(|runs| [0, MIDDLE, 255].map(|threshold| (runs, threshold))) {
        let cells = laid_out(runs).repeat(PLACES + 1);
        for length in [0, 1, 63, 189, CELLS - 1, CELLS + 1, 2 * CELLS, SCANS] {
            assert_eq!(film::scan_clarity(&cells[..length], threshold), Err(Refusal::InputLength));
        }
        for length in [1, 63, CELLS - 1, CELLS + 1, 2 * CELLS - 1, 2 * CELLS + 1, SCANS - 1, SCANS + 1, SCANS + CELLS] {
            assert_eq!(film::spool_clarity(&cells[..length], threshold), Err(Refusal::InputLength));
        }
    }
    assert_eq!((CELLS, SCANS, Refusal::OneSided.number()), (378, 96390, 20));
}
