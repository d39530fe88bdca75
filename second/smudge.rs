//! Blocks that outlast a smudge, by trial: cells are moved one by one, and a block is read by trying every filling of every window.

use crate::block::{bit, encoded, flipped, is_proper, places};
use crate::line::UNTOUCHED;
use crate::random::Random;
use crate::refusals;
use std::collections::BTreeSet;
use std::sync::OnceLock;

/// The rows of a block, and the cells of a row.
pub const SIDE: usize = 8;

/// The data rows of a block.
pub const DATA: usize = SIDE - 1;

/// The rows of a window, its columns, and how far a cell is moved in either direction.
pub const WINDOW: usize = 2;

/// The cells of a window.
pub const CELLS: usize = WINDOW * WINDOW;

/// How many fillings a window has, and the one that turns all its cells.
pub const FILLINGS: usize = 1 << CELLS;
pub const ALL_CELLS: usize = FILLINGS - 1;

/// How many sets of cells the fillings of all windows turn. Each leaves other rows and columns to fail.
pub const SERVED: usize = 520;

/// A cell, by row and column.
pub type Cell = (usize, usize);

/// The numbers, the answer first, and the output.
type Answer = (Vec<usize>, Vec<u8>);

/// Two rows up, or two cells toward bit 0, around the edge.
fn moved(place: usize) -> usize {
    (place + SIDE - WINDOW) % SIDE
}

/// Where a cell of a stored block comes to: from an odd column it is moved up, and then in an odd row toward bit 0.
pub fn straight_place((row, column): Cell) -> Cell {
    let row = if column % WINDOW == 1 { moved(row) } else { row };
    let column = if row % WINDOW == 1 { moved(column) } else { column };
    (row, column)
}

/// The rows that have ones in these cells alone.
fn with_ones(cells: impl Iterator<Item = Cell>) -> Vec<u8> {
    flipped(&[0; SIDE], &cells.collect::<Vec<_>>())
}

fn is_one(rows: &[u8], (row, column): Cell) -> bool {
    bit(rows, row, column) == 1
}

/// Stored rows with every cell moved to its straight place.
pub fn straightened(rows: &[u8]) -> Vec<u8> {
    with_ones(places(SIDE).into_iter().filter(|&cell| is_one(rows, cell)).map(straight_place))
}

/// Straight rows with every cell moved back to where it is stored.
pub fn staggered(rows: &[u8]) -> Vec<u8> {
    with_ones(places(SIDE).into_iter().filter(|&cell| is_one(rows, straight_place(cell))))
}

/// The cells of the window with this one at its top left, around the edge if need be.
pub fn window((top, left): Cell) -> Vec<Cell> {
    let steps = (0..WINDOW).flat_map(|down| (0..WINDOW).map(move |along| (down, along)));
    steps.map(|(down, along)| ((top + down) % SIDE, (left + along) % SIDE)).collect()
}

fn is_within((top, left): &Cell) -> bool {
    top + WINDOW <= SIDE && left + WINDOW <= SIDE
}

/// The windows that do not go around the edge, and those that do, by the cell at their top left.
pub fn windows() -> (Vec<Cell>, Vec<Cell>) {
    places(SIDE).into_iter().partition(is_within)
}

/// The cells of a window that a filling turns, a bit for each.
pub fn turned_by(filling: usize, window: &[Cell]) -> Vec<Cell> {
    (0..window.len()).filter(|cell| filling >> cell & 1 == 1).map(|cell| window[cell]).collect()
}

/// Cells that a filling turns, as they are stored, and where they come to.
pub struct Turned {
    pub stored: Vec<Cell>,
    pub straight: Vec<Cell>,
}

/// All that fillings turn of the windows that do not go around the edge, each set of cells once.
pub fn fillings() -> &'static [Turned] {
    static ALL: OnceLock<Vec<Turned>> = OnceLock::new();
    ALL.get_or_init(|| {
        let of_window = |corner| (0..FILLINGS).map(move |filling| turned_by(filling, &window(corner)));
        let sets: BTreeSet<Vec<Cell>> = windows().0.into_iter().flat_map(of_window).collect();
        assert_eq!(sets.len(), SERVED);
        sets.into_iter().map(|stored| Turned { straight: stored.iter().copied().map(straight_place).collect(), stored }).collect()
    })
}

/// All stored blocks that differ from the rows inside some window alone.
fn served(rows: &[u8]) -> BTreeSet<Vec<u8>> {
    let straight = straightened(rows);
    let serving = fillings().iter().filter(|turned| is_proper(&flipped(&straight, &turned.straight)));
    serving.map(|turned| flipped(rows, &turned.stored)).collect()
}

/// In how many cells two blocks differ.
fn distance(one: &[u8], other: &[u8]) -> usize {
    places(SIDE).into_iter().filter(|&cell| is_one(one, cell) != is_one(other, cell)).count()
}

/// Reads eight rows over an output with these bytes.
pub fn read(rows: &[u8], old: &[u8]) -> Answer {
    let refused = |number: u8| (vec![number as usize, 0], old.to_vec());
    if rows.len() != SIDE {
        return refused(refusals::ROW_COUNT);
    }
    if old.len() != SIDE {
        return refused(refusals::OUTPUT_LENGTH);
    }
    let mut found = served(rows);
    assert!(found.len() <= 1, "two blocks, each of which differs inside one window");
    assert!(found.iter().all(|block| is_proper(&straightened(block))));
    match found.pop_first() {
        Some(block) => (vec![0, distance(rows, &block)], block),
        None => refused(refusals::NO_BLOCK),
    }
}

/// Encodes seven data rows over an output with these bytes.
pub fn encode(data: &[u8], old: &[u8]) -> Answer {
    let refused = |number: u8| (vec![number as usize], old.to_vec());
    if data.len() != DATA {
        return refused(refusals::ROW_COUNT);
    }
    if old.len() != SIDE {
        return refused(refusals::OUTPUT_LENGTH);
    }
    if data.iter().any(|&row| row > 127) {
        return refused(refusals::VALUE_OVER);
    }
    (vec![0], staggered(&encoded(data)))
}

/// A random block, as it is stored.
pub fn random_stored(random: &mut Random) -> Vec<u8> {
    staggered(&encoded(&random.bytes(DATA, 128)))
}

/// So many cells, no two of them at one place.
pub fn random_cells(random: &mut Random, count: usize) -> Vec<Cell> {
    let mut left = places(SIDE);
    (0..count).map(|_| left.swap_remove(random.below(left.len()))).collect()
}

/// The cells that some filling of some window turns.
pub fn random_smudge(random: &mut Random) -> &'static [Cell] {
    &fillings()[random.below(fillings().len())].stored
}

/// A stored block with wrong cells, all in one window, which may go around the edge: the block is read where one that does not has them all, and else none.
pub fn smudged(block: &[u8], cells: &[Cell]) -> Vec<u8> {
    let rows = flipped(block, cells);
    let has_all = |corner: Cell| cells.iter().all(|cell| window(corner).contains(cell));
    let due = match windows().0.into_iter().any(has_all) {
        true => (vec![0, cells.len()], block.to_vec()),
        false => (vec![refusals::NO_BLOCK as usize, 0], vec![UNTOUCHED; SIDE]),
    };
    assert_eq!(read(&rows, &[UNTOUCHED; SIDE]), due);
    rows
}
