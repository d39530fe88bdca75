//! Cases of blocks that outlast a smudge: 000's example, every window, windows around the edge, what 000's locator would take, film that holds no block, and
//! which refusal comes first.

use super::{Case, Cases, ENCODE_SMUDGE, READ_SMUDGE};
use crate::block::{flipped, places};
use crate::even::{even_block, BRIGHT, DARK};
use crate::line::UNTOUCHED;
use crate::locator::{located_in_no_window, mislocated, turned_for};
use crate::random::Random;
use crate::refusals::NO_BLOCK;
use crate::smudge::{encode, random_cells, random_smudge, random_stored, read, smudged, staggered, straight_place, straightened, turned_by, window, windows};
use crate::smudge::{Cell, ALL_CELLS, CELLS, DATA, FILLINGS, SIDE};

/// Data rows, and the block that is stored for them.
const KNOWN_DATA: [u8; DATA] = [1, 2, 3, 4, 5, 6, 7];
const KNOWN_STORED: [u8; SIDE] = [131, 170, 129, 26, 7, 18, 5, 93];

/// The window of 000's example, and where its cells come to, in the order in which 000 finds them.
const EXAMPLE: Cell = (4, 3);
const EXAMPLE_STRAIGHT: [Cell; CELLS] = [(3, 1), (5, 2), (2, 3), (4, 4)];

/// Windows around the edge in their rows, in their columns, and in both.
const AROUND: [Cell; 3] = [(SIDE - 1, 3), (2, SIDE - 1), (SIDE - 1, SIDE - 1)];

/// How many of a kind there are where chance makes them.
const TIMES: usize = 12;

fn encode_into(cases: &mut Cases, data: &[u8], room: usize) {
    let (numbers, output) = encode(data, &vec![UNTOUCHED; room]);
    cases.add(Case { room, ..Case::new(ENCODE_SMUDGE, data) }, &numbers, &output);
}

fn read_into(cases: &mut Cases, rows: &[u8], room: usize) {
    let (numbers, output) = read(rows, &vec![UNTOUCHED; room]);
    cases.add(Case { room, ..Case::new(READ_SMUDGE, rows) }, &numbers, &output);
}

fn read_all(cases: &mut Cases, rows: &[u8]) {
    read_into(cases, rows, SIDE);
}

/// Rows that no window serves.
fn read_none(cases: &mut Cases, rows: &[u8]) {
    assert_eq!(read(rows, &[UNTOUCHED; SIDE]).0, [NO_BLOCK as usize, 0]);
    read_all(cases, rows);
}

/// Where cells of a stored block come to, in rising order.
fn straight(cells: &[Cell]) -> Vec<Cell> {
    rising(cells.iter().copied().map(straight_place).collect())
}

fn rising(mut cells: Vec<Cell>) -> Vec<Cell> {
    cells.sort();
    cells
}

/// Data rows encoded, and what is stored read as it is: one that is known, the lowest, the highest, and any.
fn encoded(cases: &mut Cases, random: &mut Random) {
    assert_eq!(encode(&KNOWN_DATA, &[0; SIDE]), (vec![0], KNOWN_STORED.to_vec()));
    let any = (0..TIMES).map(|_| random.bytes(DATA, 128));
    for data in [KNOWN_DATA.to_vec(), vec![0; DATA], vec![127; DATA]].into_iter().chain(any) {
        encode_into(cases, &data, SIDE);
        read_all(cases, &smudged(&encode(&data, &[0; SIDE]).1, &[]));
    }
}

/// 000's example on several blocks, with every filling.
fn example(cases: &mut Cases, random: &mut Random) {
    let cells = window(EXAMPLE);
    assert_eq!(straight(&cells), rising(EXAMPLE_STRAIGHT.to_vec()));
    assert_eq!(turned_for(&straight(&cells)).as_deref(), Some(&EXAMPLE_STRAIGHT[..]));
    for block in [KNOWN_STORED.to_vec(), random_stored(random), random_stored(random)] {
        for filling in 0..FILLINGS {
            read_all(cases, &smudged(&block, &turned_by(filling, &cells)));
        }
    }
}

/// Every cell alone, and in every window all four cells and some.
fn every_window(cases: &mut Cases, random: &mut Random) {
    for cell in places(SIDE) {
        read_all(cases, &smudged(&random_stored(random), &[cell]));
    }
    for corner in windows().0 {
        for filling in [ALL_CELLS, 1 + random.below(ALL_CELLS - 1)] {
            read_all(cases, &smudged(&random_stored(random), &turned_by(filling, &window(corner))));
        }
    }
}

/// A smudge around the edge, which 000's locator finds; it is read where a window that is not around it has its cells too.
fn add_around(cases: &mut Cases, random: &mut Random, corner: Cell, filling: usize) {
    let cells = turned_by(filling, &window(corner));
    assert_eq!(turned_for(&straight(&cells)).map(rising), Some(straight(&cells)));
    read_all(cases, &smudged(&random_stored(random), &cells));
}

/// All four cells of every window around the edge, and every filling of some.
fn around_the_edge(cases: &mut Cases, random: &mut Random) {
    for corner in windows().1 {
        add_around(cases, random, corner, ALL_CELLS);
    }
    for corner in AROUND {
        for filling in 0..ALL_CELLS {
            add_around(cases, random, corner, filling);
        }
    }
}

/// What 000's locator would take and no window serves: some of it.
fn mislocated_cells(cases: &mut Cases, random: &mut Random) {
    let all = located_in_no_window();
    for _ in 0..3 * TIMES {
        let cells = &all[random.below(all.len())];
        read_all(cases, &mislocated(&random_stored(random), cells));
    }
}

/// Two smudges, scattered cells, and any rows.
fn too_much(cases: &mut Cases, random: &mut Random) {
    for _ in 0..TIMES {
        let one = flipped(&random_stored(random), random_smudge(random));
        read_all(cases, &flipped(&one, random_smudge(random)));
    }
    for wrong in 2..=5 {
        for _ in 0..TIMES / 3 {
            read_all(cases, &flipped(&random_stored(random), &random_cells(random, wrong)));
        }
    }
    for _ in 0..2 * TIMES {
        read_all(cases, &random.bytes(SIDE, 256));
    }
}

/// Two cells that come to one row, and two that come to one column: what of the other kind fails then has to tell.
fn in_one_line(cases: &mut Cases, random: &mut Random) {
    for line in 0..SIDE {
        for cells in [[(line, 2), (line, 5)], [(1, line), (6, line)]] {
            let straight = straightened(&random_stored(random));
            read_none(cases, &staggered(&flipped(&straight, &cells)));
        }
    }
}

/// Dark film and bright film, with a smudge too, blocks that are not staggered, and blocks whose columns are even.
fn no_block(cases: &mut Cases, random: &mut Random) {
    for row in [DARK, BRIGHT] {
        read_none(cases, &[row; SIDE]);
        read_none(cases, &flipped(&[row; SIDE], random_smudge(random)));
    }
    for _ in 0..TIMES / 3 {
        read_all(cases, &straightened(&random_stored(random)));
        read_none(cases, &staggered(&even_block(random, SIDE)));
    }
}

/// Reading refused: the rows before the output, and both before 9.
fn reading_refused(cases: &mut Cases, random: &mut Random) {
    let block = random_stored(random);
    let long = [&block[..], &[0]].concat();
    for length in [0, 1, SIDE - 1, SIDE + 1] {
        for room in [0, length, SIDE, SIDE + 1] {
            read_into(cases, &long[..length], room);
        }
    }
    for length in [2 * SIDE, 64] {
        read_into(cases, &random.bytes(length, 256), SIDE);
    }
    for room in [0, 1, SIDE - 1, SIDE + 1, 2 * SIDE] {
        for rows in [&block, &smudged(&block, &window(EXAMPLE)), &vec![DARK; SIDE]] {
            read_into(cases, rows, room);
        }
    }
}

/// Encoding refused: the data rows before the output, both before a row that is too high, and such a row at every place.
fn encoding_refused(cases: &mut Cases, random: &mut Random) {
    let data = random.bytes(DATA, 128);
    let high = [&data[..DATA - 1], &[128, 0, 255]].concat();
    for length in [0, 1, DATA - 1, DATA + 1, DATA + 2] {
        for room in [0, length + 1, SIDE] {
            encode_into(cases, &high[..length], room);
        }
    }
    for room in [0, DATA, SIDE + 1, 2 * SIDE] {
        encode_into(cases, &data, room);
        encode_into(cases, &high[..DATA], room);
    }
    for place in 0..DATA {
        for row in [127, 128, 255] {
            let mut data = random.bytes(DATA, 128);
            data[place] = row;
            encode_into(cases, &data, SIDE);
        }
    }
}

pub fn add_all(cases: &mut Cases) {
    let random = &mut Random::new(49);
    let sections = [
        encoded,
        example,
        every_window,
        around_the_edge,
        mislocated_cells,
        too_much,
        in_one_line,
        no_block,
        reading_refused,
        encoding_refused,
    ];
    for add_some in sections {
        add_some(cases, random);
    }
}
