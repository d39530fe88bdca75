//! The locator of wrong cells that 000 has in its section 3.5.2: it pairs the rows and the columns that fail, around the edge too, and asks for no window.

use crate::block::flipped;
use crate::line::UNTOUCHED;
use crate::refusals::NO_BLOCK;
use crate::smudge::{fillings, read, staggered, straightened, Cell, CELLS, SERVED, SIDE, WINDOW};
use std::collections::BTreeSet;

/// How many places before the first column that fails must not fail, and how many before the first row of a class.
const FREE_COLUMNS: usize = CELLS;
const FREE_ROWS: usize = CELLS - 1;

/// How many sets of rows and columns that fail the locator takes.
const TAKEN: usize = 2625;

/// The rows and the columns of a straight block that fail, rising.
type Failing = (Vec<usize>, Vec<usize>);

/// What fails where these cells of a straight block are wrong.
fn failing(cells: &[Cell]) -> Failing {
    let odd = |of: fn(&Cell) -> usize| (0..SIDE).filter(|&place| cells.iter().filter(|cell| of(cell) == place).count() % 2 == 1).collect();
    (odd(|cell| cell.0), odd(|cell| cell.1))
}

/// Places in their order around the edge, from the first on that has so many free ones before it; nothing where none has.
fn ordered(places: &[usize], free: usize) -> Option<Vec<usize>> {
    let is_first = |first: usize| (1..=free).all(|back| !places.contains(&((first + SIDE - back) % SIDE)));
    let first = match places {
        [] => 0,
        _ => places.iter().copied().find(|&place| is_first(place))?,
    };
    let mut ordered = places.to_vec();
    ordered.sort_by_key(|place| (place + SIDE - first) % SIDE);
    Some(ordered)
}

/// The cells of a straight block that the locator turns, in 000's order, or nothing where it takes none: the columns go to the classes of rows, the last class
/// first. Step 5 asks for a column whose class is below that of every other; where there is none, the first of the lowest is taken here.
fn located((rows, columns): &Failing) -> Option<Vec<Cell>> {
    if rows.len() != columns.len() {
        return None;
    }
    let columns = ordered(columns, FREE_COLUMNS)?;
    let mut cells = Vec::new();
    for class in (0..WINDOW).rev() {
        let rows: Vec<usize> = rows.iter().copied().filter(|row| row % WINDOW == class).collect();
        let rows = ordered(&rows, FREE_ROWS)?;
        let columns = &columns[cells.len()..][..rows.len()];
        let lowest = (0..rows.len()).min_by_key(|&k| columns[k] % WINDOW).unwrap_or(0);
        cells.extend((0..rows.len()).map(|k| (rows[(lowest + rows.len() - 1 - k) % rows.len()], columns[k])));
    }
    Some(cells)
}

/// The cells that the locator turns where these are wrong in a straight block.
pub fn turned_for(cells: &[Cell]) -> Option<Vec<Cell>> {
    located(&failing(cells))
}

/// The cells that the locator turns where no window would have them all, once for each set of rows and columns that fail.
pub fn located_in_no_window() -> Vec<Vec<Cell>> {
    let of_windows: BTreeSet<Failing> = fillings().iter().map(|turned| failing(&turned.straight)).collect();
    let places = |bits: usize| -> Vec<usize> { (0..SIDE).filter(|place| bits >> place & 1 == 1).collect() };
    let taken: Vec<Vec<Cell>> = (0..1 << (2 * SIDE)).filter_map(|bits| located(&(places(bits >> SIDE), places(bits)))).collect();
    assert_eq!((taken.len(), of_windows.len()), (TAKEN, SERVED));
    let others: Vec<Vec<Cell>> = taken.into_iter().filter(|cells| !of_windows.contains(&failing(cells))).collect();
    assert_eq!(others.len(), TAKEN - SERVED);
    others
}

/// A stored block with such cells wrong: the locator would have it back, and no window serves.
pub fn mislocated(block: &[u8], cells: &[Cell]) -> Vec<u8> {
    let rows = staggered(&flipped(&straightened(block), cells));
    assert_eq!(read(&rows, &[UNTOUCHED; SIDE]).0, [NO_BLOCK as usize, 0]);
    rows
}
