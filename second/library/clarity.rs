//! The parts of the comparison that tell how clear scans are: every threshold, every count of dark cells, ratios next to the middle of two doubles, every count
//! of scans in a spool, and each refusal before the next. Doubles are held bit for bit.

use crate::blotted::address_of;
use crate::clarity::{self, about, any_scan, are_doubles_right, near_halfway, of_groups, shuffled, spool_of};
use crate::clarity::{BRIGHTEST, CELLS, EXTREMES, LONGEST, NEAR_HALFWAY, NO_SPREAD, RATIO, SCANS, WAYS};
use crate::interface::{film_scan_clarity, film_spool_clarity};
use crate::lent::Lent;
use crate::Comparison;

/// The names of asking how clear a scan is, by what comes of it.
pub const ANOTHER_LENGTH: &str = "scan_clarity, another length";
pub const NONE_DARK: &str = "scan_clarity, none dark";
pub const NONE_BRIGHT: &str = "scan_clarity, none bright";
pub const HAS_RATIO: &str = "scan_clarity, ratio";
pub const HAS_NO_SPREAD: &str = "scan_clarity, no spread";

/// Every length up to this one is tried: more than two scans.
const EVERY_LENGTH: usize = 800;

/// Lengths that sixteen bits would take for none and for a scan, and those about the longest spool and about one scan more, whose scans eight bits would not
/// count.
const LONG: [usize; 11] = [
    1 << 16,
    (1 << 16) + CELLS,
    LONGEST - CELLS,
    LONGEST - 1,
    LONGEST,
    LONGEST + 1,
    LONGEST + CELLS - 1,
    LONGEST + CELLS,
    LONGEST + CELLS + 1,
    LONGEST + 2 * CELLS,
    2 * LONGEST,
];

/// Brightnesses about the lowest, the highest and the middle.
const SOME: [u8; 12] = [0, 1, 2, 3, 63, 64, 127, 128, 129, 253, 254, BRIGHTEST];

/// How many scans are tried with every threshold, and how many of any kind there are in a round.
const TIMES: usize = 4;
const IN_A_ROUND: usize = 12;

/// How many scans stand in a spool in each way of counting them.
const FEW: usize = 4;

/// The ways in which the scans of a spool are counted, from a number.
fn ways_of(number: usize) -> Vec<usize> {
    (0..FEW as u32).map(|scan| number / WAYS.pow(scan) % WAYS).collect()
}

impl Comparison {
    /// Asks how clear a scan is.
    fn scan_clarity(&mut self, cells: &[u8], threshold: u8) {
        let (numbers, doubles) = clarity::scan(cells, threshold);
        let name = match numbers[..] {
            [0, RATIO] => HAS_RATIO,
            [0, NO_SPREAD] => HAS_NO_SPREAD,
            _ if cells.len() != CELLS => ANOTHER_LENGTH,
            _ if cells[0] < threshold => NONE_BRIGHT,
            _ => NONE_DARK,
        };
        let mut lent = Lent::new(cells);
        let r = unsafe { film_scan_clarity(address_of(&mut lent, cells.len()), cells.len(), threshold) };
        let bits = [r.ratio, r.dark, r.bright].map(f64::to_bits);
        let given = (vec![r.answer as usize, r.kind as usize], (bits, lent.back()));
        self.hold(name, &(cells, threshold), given, (numbers, (doubles, Some(cells))));
    }

    /// Counts how clear the scans of a spool are.
    fn spool_clarity(&mut self, cells: &[u8], threshold: u8) {
        let due = clarity::spool(cells, threshold);
        let mut lent = Lent::new(cells);
        let r = unsafe { film_spool_clarity(address_of(&mut lent, cells.len()), cells.len(), threshold) };
        let given = [r.answer, r.ratios, r.no_spreads, r.refusals].map(|number| number as usize).to_vec();
        self.hold("spool_clarity", &(cells, threshold), (given, lent.back()), (due, Some(cells)));
    }

    /// Lengths of a scan and of a spool, with thresholds at which some cells are dark and at which none is.
    fn clarity_lengths(&mut self) {
        let cells = self.random.bytes(2 * LONGEST, 256);
        for length in (0..=EVERY_LENGTH).chain(LONG) {
            for threshold in [0, 128, self.random.below(256) as u8] {
                self.scan_clarity(&cells[..length], threshold);
                self.spool_clarity(&cells[..length], threshold);
            }
        }
    }

    /// Every threshold with any cells, cells that hold every brightness, and cells of two brightnesses or one.
    fn every_threshold(&mut self) {
        let every: Vec<u8> = (0..=BRIGHTEST).cycle().take(CELLS).collect();
        let mut scans = vec![every, vec![0; CELLS], vec![BRIGHTEST; CELLS], vec![128; CELLS], of_groups(&[(0, CELLS / 2), (BRIGHTEST, CELLS / 2)])];
        for _ in 0..TIMES {
            let any = [self.random.below(256) as u8, self.random.below(256) as u8];
            scans.push(self.random.bytes(CELLS, 256));
            scans.push(self.random.bytes(CELLS, 2).iter().map(|&which| any[which as usize]).collect());
        }
        for (cells, threshold) in scans.iter().flat_map(|cells| (0..=BRIGHTEST).map(move |threshold| (cells, threshold))) {
            self.scan_clarity(cells, threshold);
        }
    }

    /// Every count of dark cells, where each side is of one brightness, of two, or of all that there are.
    fn every_dark_count(&mut self) {
        for dark in 0..=CELLS {
            for spans in [[1, 1], [1, 2], [2, 1], [2, 2], [1, 256], [256, 1], [256, 256]] {
                let threshold = 1 + self.random.below(BRIGHTEST as usize) as u8;
                let cells = about(&mut self.random, threshold, dark, spans);
                self.scan_clarity(&cells, threshold);
            }
            for (threshold, dim, lit) in [(1, 0, 1), (128, 0, BRIGHTEST), (BRIGHTEST, 0, BRIGHTEST), (BRIGHTEST, 254, BRIGHTEST)] {
                self.scan_clarity(&of_groups(&[(dim, dark), (lit, CELLS - dark)]), threshold);
            }
        }
    }

    /// One cell at every place that is alone on its side, or unlike the others on its own.
    fn every_place(&mut self) {
        for place in 0..CELLS {
            let mut cells = about(&mut self.random, 100, 0, [1, 1]);
            for (threshold, other) in [(100, 99), (101, 101), (101, 255), (100, 0)] {
                cells[place] = other;
                self.scan_clarity(&cells, threshold);
            }
            let mut cells = about(&mut self.random, 100, CELLS / 2, [1, 1]);
            cells[place] = 20;
            self.scan_clarity(&cells, 100);
            cells[place] = 200;
            self.scan_clarity(&cells, 100);
        }
    }

    /// Two brightnesses, with the threshold below both, between them, at either and above both, in any number of each; and with one cell of a third.
    fn two_brightnesses(&mut self) {
        for (dim, lit) in SOME.into_iter().flat_map(|dim| SOME.map(|lit| (dim, lit))).filter(|(dim, lit)| dim < lit) {
            for threshold in [dim, dim + 1, lit, lit.saturating_add(1)] {
                let dims = 1 + self.random.below(CELLS - 1);
                let mut cells = shuffled(&mut self.random, of_groups(&[(dim, dims), (lit, CELLS - dims)]));
                self.scan_clarity(&cells, threshold);
                cells[self.random.below(CELLS)] = self.random.below(256) as u8;
                self.scan_clarity(&cells, threshold);
            }
        }
    }

    /// The extremes, and ratios next to the middle of two doubles, each in the order of its groups and in another.
    fn hardest_ratios(&mut self) {
        for (threshold, groups) in EXTREMES {
            self.in_two_orders(of_groups(groups), threshold);
        }
        for which in 0..NEAR_HALFWAY.len() {
            let (cells, threshold) = near_halfway(which);
            self.in_two_orders(cells, threshold);
        }
    }

    /// Cells as they are, and in any order: what is due is the same.
    fn in_two_orders(&mut self, cells: Vec<u8>, threshold: u8) {
        let others = shuffled(&mut self.random, cells.clone());
        assert_eq!(clarity::scan(&cells, threshold), clarity::scan(&others, threshold));
        self.scan_clarity(&cells, threshold);
        self.scan_clarity(&others, threshold);
    }

    /// A threshold with two brightnesses on either side.
    fn middle_threshold(&mut self) -> u8 {
        2 + self.random.below(BRIGHTEST as usize - 2) as u8
    }

    /// Every count of scans, one more than the most too, and two more, each counted in any way; a few in every way; and the most in one way, all of them, and
    /// all but the first, the last or any one.
    fn counted_scans(&mut self) {
        for count in 0..=SCANS + 2 {
            let (threshold, ways) = (self.middle_threshold(), self.random.bytes(count, WAYS).iter().map(|&way| way as usize).collect::<Vec<_>>());
            let cells = spool_of(&mut self.random, threshold, &ways);
            self.spool_clarity(&cells, threshold);
        }
        for number in 0..WAYS.pow(FEW as u32) {
            let threshold = self.middle_threshold();
            let cells = spool_of(&mut self.random, threshold, &ways_of(number));
            self.spool_clarity(&cells, threshold);
        }
        for way in 0..WAYS {
            for other in [None, Some(0), Some(SCANS - 1), Some(self.random.below(SCANS))] {
                let (threshold, mut ways) = (self.middle_threshold(), vec![way; SCANS]);
                if let Some(place) = other {
                    ways[place] = (way + 1) % WAYS;
                }
                let cells = spool_of(&mut self.random, threshold, &ways);
                self.spool_clarity(&cells, threshold);
            }
        }
    }

    /// All that is tried once.
    pub fn clarities(&mut self) {
        assert!(are_doubles_right());
        self.clarity_lengths();
        self.every_threshold();
        self.every_dark_count();
        self.every_place();
        self.two_brightnesses();
        self.hardest_ratios();
        self.counted_scans();
    }

    /// Some scans of any kind, and all of them as a spool with the threshold of the last.
    pub fn any_clarity(&mut self) {
        let mut spool = Vec::new();
        let mut last = 0;
        for _ in 0..IN_A_ROUND {
            let (cells, threshold) = any_scan(&mut self.random);
            self.scan_clarity(&cells, threshold);
            spool.extend(cells);
            last = threshold;
        }
        self.spool_clarity(&spool, last);
    }
}
