//! The parts of the comparison that encode and read blocks that outlast a smudge: every filling of every window, around the edge too, every set of rows and
//! columns that can fail, and each refusal before the next.

use crate::block::{flipped, random_block};
use crate::even::{even_block, BRIGHT, DARK};
use crate::interface::{film_encode_smudge, film_read_smudge};
use crate::locator::{located_in_no_window, mislocated};
use crate::smudge::{self, random_cells, random_smudge, random_stored, smudged, staggered, straightened, turned_by, window, windows};
use crate::smudge::{Cell, CELLS, DATA, FILLINGS, SERVED, SIDE};
use crate::Comparison;

/// The name of reading where it is refused, and else by how many cells were wrong.
pub const REFUSED_SMUDGE: &str = "read_smudge, refused";
pub const READ_SMUDGE: [&str; CELLS + 1] = [
    "read_smudge, as it was",
    "read_smudge, 1 cell",
    "read_smudge, 2 cells",
    "read_smudge, 3 cells",
    "read_smudge, 4 cells",
];

/// The longest input, and the longest output, that is tried with every length of the other.
const LONGEST: usize = 70;

/// How many blocks have every filling of every window.
const BLOCKS: usize = 3;

impl Comparison {
    /// Encodes data rows over any bytes.
    fn encode_smudge(&mut self, data: &[u8], room: usize) {
        let old = self.random.bytes(room, 256);
        let due = smudge::encode(data, &old);
        self.call_over(&old, "encode_smudge", data, &[], due, |given, out| unsafe { vec![film_encode_smudge(given, data.len(), out, room) as usize] });
    }

    /// Reads rows over any bytes, and tells the answer.
    fn read_smudge(&mut self, rows: &[u8], room: usize) -> usize {
        let old = self.random.bytes(room, 256);
        let due = smudge::read(rows, &old);
        let (answer, distance) = (due.0[0], due.0[1]);
        let name = if answer == 0 { READ_SMUDGE[distance] } else { REFUSED_SMUDGE };
        self.call_over(&old, name, rows, &[], due, |given, out| unsafe {
            let r = film_read_smudge(given, rows.len(), out, room);
            vec![r.answer as usize, r.distance as usize]
        });
        answer
    }

    /// Lengths of the rows, of the data rows and of the output, two of them wrong at once, and of the output alone, where a block would be read.
    fn smudge_lengths(&mut self) {
        for (length, room) in (0..=LONGEST).flat_map(|length| (0..=LONGEST).map(move |room| (length, room))) {
            for high in [128, 256] {
                let input = self.random.bytes(length, high);
                self.encode_smudge(&input, room);
                self.read_smudge(&input, room);
            }
        }
        for room in 0..=300 {
            let block = random_stored(&mut self.random);
            self.read_smudge(&block, room);
        }
    }

    /// Every byte at every place of the data rows.
    fn smudge_data(&mut self) {
        for (place, row) in (0..DATA).flat_map(|place| (0..=255).map(move |row| (place, row))) {
            let mut data = self.random.bytes(DATA, 128);
            data[place] = row;
            self.encode_smudge(&data, SIDE);
        }
    }

    /// Every filling of every window, around the edge too, in one block.
    fn every_filling(&mut self) {
        let block = random_stored(&mut self.random);
        let (within, around) = windows();
        for (corner, filling) in within.into_iter().chain(around).flat_map(|corner| (0..FILLINGS).map(move |filling| (corner, filling))) {
            self.read_smudge(&smudged(&block, &turned_by(filling, &window(corner))), SIDE);
        }
    }

    /// Every set of rows and columns that can fail, once: those of any cells in the first row and the first column of a straight block.
    fn every_failure(&mut self) {
        let straight = straightened(&random_stored(&mut self.random));
        let cells: Vec<Cell> = (0..SIDE).map(|column| (0, column)).chain((1..SIDE).map(|row| (row, 0))).collect();
        let mut is_read = |turned: usize| self.read_smudge(&staggered(&flipped(&straight, &turned_by(turned, &cells))), SIDE) == 0;
        assert_eq!((0..1 << cells.len()).filter(|&turned| is_read(turned)).count(), SERVED);
    }

    /// All that 000's locator takes and no window serves.
    fn every_mislocation(&mut self) {
        for cells in located_in_no_window() {
            let block = random_stored(&mut self.random);
            self.read_smudge(&mislocated(&block, &cells), SIDE);
        }
    }

    /// Dark film, bright film, and each mixture of dark rows and bright ones.
    fn dark_and_bright_rows(&mut self) {
        for bits in 0..1 << SIDE {
            let rows: Vec<u8> = (0..SIDE).map(|row| if bits >> row & 1 == 1 { BRIGHT } else { DARK }).collect();
            self.read_smudge(&rows, SIDE);
        }
    }

    /// All that is tried once.
    pub fn smudges(&mut self) {
        self.smudge_lengths();
        self.smudge_data();
        for _ in 0..BLOCKS {
            self.every_filling();
        }
        self.every_failure();
        self.every_mislocation();
        self.dark_and_bright_rows();
    }

    /// Random data rows encoded; a block with one smudge, with two, and with some scattered cells; any rows; a block that is not staggered, and one whose
    /// columns are even, with a smudge too.
    pub fn any_smudge(&mut self) {
        let mut data = self.random.bytes(DATA, 128);
        data[self.random.below(DATA)] = self.below(128, 256) as u8;
        self.encode_smudge(&data, SIDE);
        let random = &mut self.random;
        let (block, wrong) = (random_stored(random), 1 + random.below(CELLS));
        let one = smudged(&block, random_smudge(random));
        let two = flipped(&one, random_smudge(random));
        let scattered = flipped(&block, &random_cells(random, wrong));
        let even = flipped(&staggered(&even_block(random, SIDE)), random_smudge(random));
        for rows in [one, two, scattered, random.bytes(SIDE, 256), random_block(random, SIDE), even] {
            self.read_smudge(&rows, SIDE);
        }
    }
}
