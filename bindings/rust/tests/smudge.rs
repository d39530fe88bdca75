//! Tests of blocks that outlast a smudge: what is encoded straightens to what `encode_block` gives, every window with every filling is read back, two cells
//! that are far apart are read or refused by their wrong rows and columns, and the refusals come in their order.

use film::{Refusal, SMUDGE};
use std::collections::HashMap;

/// Eight rows of eight cells, as blocks are and as sets of cells are.
type Rows = [u8; SMUDGE];

const CELLS: usize = 8;

/// What stands in each byte of an output that is lent.
const OLD: u8 = 170;

/// The top left cell of a window that does not go around the edge has a row and a column below this.
const EDGE: usize = 7;

/// Which cells of a window are wrong: two bits for the upper row, two for the lower one; and the two of each of its rows and columns.
const FILLINGS: u8 = 16;
const UPPER: u8 = 0b0011;
const LOWER: u8 = 0b1100;
const LEFT: u8 = 0b0101;
const RIGHT: u8 = 0b1010;

/// The example that has its stored form written down.
const DATA: [u8; 7] = [1, 2, 3, 4, 5, 6, 7];
const STORED: Rows = [131, 170, 129, 26, 7, 18, 5, 93];

fn encoded(data: &[u8; 7]) -> Rows {
    let mut block = [OLD; SMUDGE];
    film::encode_smudge(data, &mut block).unwrap();
    block
}

/// The data of several blocks: no ones, all ones, the example, and others.
fn several() -> impl Iterator<Item = [u8; 7]> {
    let others = (0..20).map(|k| core::array::from_fn(|i| ((k + 1) * (37 * i + 11) % 128) as u8));
    [[0; 7], [127; 7], DATA].into_iter().chain(others)
}

/// Every cell: its row and its column.
fn cells() -> impl Iterator<Item = (usize, usize)> {
    (0..SMUDGE * CELLS).map(|n| (n / CELLS, n % CELLS))
}

/// Every window whose top left cell has a row and a column below the edge, with every filling.
fn windows(edge: usize) -> impl Iterator<Item = (usize, usize, u8)> {
    (0..edge * edge).flat_map(move |n| (0..FILLINGS).map(move |filling| (n / edge, n % edge, filling)))
}

/// The wrong cells of a window, which may go around the edge.
fn window(top: usize, left: usize, filling: u8) -> Rows {
    let mut wrong = [0; SMUDGE];
    for bit in (0..4).filter(|bit| filling >> bit & 1 == 1) {
        wrong[(top + bit / 2) % SMUDGE] |= 1 << ((left + bit % 2) % CELLS);
    }
    wrong
}

fn added(rows: &Rows, wrong: &Rows) -> Rows {
    core::array::from_fn(|i| rows[i] ^ wrong[i])
}

fn count(rows: &Rows) -> u8 {
    rows.iter().map(|row| row.count_ones() as u8).sum()
}

/// Each cell of an odd column goes two rows up, and each of an odd row two columns toward 0: a row stays odd or even when it goes up.
fn straightened(stored: &Rows) -> Rows {
    let mut block = [0; SMUDGE];
    for (i, j) in cells() {
        let (row, column) = ((i + SMUDGE - 2 * (j % 2)) % SMUDGE, (j + CELLS - 2 * (i % 2)) % CELLS);
        block[row] |= (stored[i] >> j & 1) << column;
    }
    block
}

/// The wrong rows and the wrong columns of what these rows straighten to, a bit for each: a row that is odd, a column that is even.
fn wrong_of(stored: &Rows) -> (u8, u8) {
    let block = straightened(stored);
    let rows = (0..SMUDGE).map(|i| (block[i].count_ones() as u8 % 2) << i).sum();
    (rows, !block.iter().fold(0, |sum, row| sum ^ row))
}

/// What reading gives, and leaves in an output.
fn read(scan: &Rows) -> (Result<u8, Refusal>, Rows) {
    let mut out = [OLD; SMUDGE];
    (film::read_smudge(scan, &mut out), out)
}

const REFUSED: (Result<u8, Refusal>, Rows) = (Err(Refusal::NoBlock), [OLD; SMUDGE]);

#[test]
fn encoding() {
    assert_eq!(encoded(&DATA), STORED);
    for data in several() {
        let mut block = [OLD; SMUDGE];
        film::encode_block(&data, &mut block).unwrap();
        assert_eq!(straightened(&encoded(&data)), block);
        assert_eq!(read(&encoded(&data)), (Ok(0), encoded(&data)));
    }
    assert_eq!(SMUDGE, 8);
}

#[test]
fn every_window() {
    for block in several().map(|data| encoded(&data)) {
        for (top, left, filling) in windows(EDGE) {
            let wrong = window(top, left, filling);
            assert_eq!(read(&added(&block, &wrong)), (Ok(filling.count_ones() as u8), block));
        }
    }
}

/// The worked example of 000: all four cells of the window at row 4 and column 3 come to the cells (3, 1), (5, 2), (2, 3) and (4, 4).
#[test]
fn worked_example() {
    let wrong = window(4, 3, UPPER | LOWER);
    assert_eq!(straightened(&wrong), [0, 0, 1 << 3, 1 << 1, 1 << 4, 1 << 2, 0, 0]);
    for block in several().map(|data| encoded(&data)) {
        let scan = added(&block, &wrong);
        assert_eq!(wrong_of(&scan), (0b111100, 0b11110));
        assert_eq!(read(&scan), (Ok(4), block));
    }
}

/// Windows around the edge, below, to the side and at the corner: they are refused, but for wrong cells that lie in another window too.
#[test]
fn around_the_edge() {
    for block in several().map(|data| encoded(&data)) {
        for (top, left, filling) in windows(EDGE + 1) {
            let is_below = top == EDGE && filling & UPPER != 0 && filling & LOWER != 0;
            let is_beside = left == EDGE && filling & LEFT != 0 && filling & RIGHT != 0;
            let due = if is_below || is_beside { REFUSED } else { (Ok(filling.count_ones() as u8), block) };
            assert_eq!(read(&added(&block, &window(top, left, filling))), due);
        }
    }
}

/// Every two cells: they are taken for the cells of a window that have the same wrong rows and columns, which are others where the two are far apart, and
/// are refused where there are none.
#[test]
fn two_cells() {
    let in_a_window = windows(EDGE).map(|(top, left, filling)| window(top, left, filling));
    let smudges: HashMap<(u8, u8), Rows> = in_a_window.map(|wrong| (wrong_of(&added(&STORED, &wrong)), wrong)).collect();
    assert_eq!(smudges.len(), 520);
    for (one, other) in cells().flat_map(|one| cells().map(move |other| (one, other))).filter(|(one, other)| one < other) {
        let mut scan = STORED;
        scan[one.0] ^= 1 << one.1;
        scan[other.0] ^= 1 << other.1;
        let due = smudges.get(&wrong_of(&scan)).map_or(REFUSED, |wrong| (Ok(count(wrong)), added(&scan, wrong)));
        assert_eq!(read(&scan), due);
    }
    let far = [1, 0, 0, 0, 1 << 5, 0, 0, 0];
    assert_eq!(read(&added(&STORED, &far)), REFUSED);
}

/// Dark and bright film, and a block that is not staggered.
#[test]
fn no_blocks() {
    let mut straight = [OLD; SMUDGE];
    film::encode_block(&DATA, &mut straight).unwrap();
    for rows in [[0; SMUDGE], [255; SMUDGE], straight] {
        assert_eq!(read(&rows), REFUSED);
    }
}

/// Reading is refused, and an output of a length is left alone.
fn reading_refused(due: Refusal, rows: &[u8], room: usize) {
    let mut out = vec![OLD; room];
    assert_eq!(film::read_smudge(rows, &mut out), Err(due));
    assert_eq!(out, vec![OLD; room]);
}

/// Encoding is refused, and an output of a length is left alone.
fn encoding_refused(due: Refusal, data: &[u8], room: usize) {
    let mut out = vec![OLD; room];
    assert_eq!(film::encode_smudge(data, &mut out), Err(due));
    assert_eq!(out, vec![OLD; room]);
}

/// The count of rows comes before the output's length, and that before the rows themselves: a block, dark film, or data rows that are too large.
#[test]
fn lengths() {
    for room in [0, 1, 7, 8, 9, 64] {
        for length in [0, 1, 2, 7, 9, 64] {
            reading_refused(Refusal::RowCount, &vec![0; length], room);
            reading_refused(Refusal::RowCount, &STORED.repeat(8)[..length], room);
        }
        for length in [0, 1, 6, 8, 63, 64] {
            encoding_refused(Refusal::RowCount, &vec![0; length], room);
            encoding_refused(Refusal::RowCount, &vec![255; length], room);
        }
        if room != SMUDGE {
            reading_refused(Refusal::OutputLength, &[0; SMUDGE], room);
            reading_refused(Refusal::OutputLength, &STORED, room);
            encoding_refused(Refusal::OutputLength, &[255; 7], room);
            encoding_refused(Refusal::OutputLength, &DATA, room);
        }
    }
}

/// A data row that is too large, at any place.
#[test]
fn values() {
    for (i, over) in (0..DATA.len()).flat_map(|i| (128..=255).map(move |over| (i, over))) {
        let mut data = DATA;
        data[i] = over;
        encoding_refused(Refusal::ValueOver, &data, SMUDGE);
    }
}
