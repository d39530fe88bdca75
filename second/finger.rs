//! A table of products read with a finger: a ruler's number for the column, a line's first number for the row, and the number where they meet.
//!
//! Nothing is known of the layout but that: a number belongs to the ruler's number that ends where it ends, in the same column of the text, and a ruler
//! serves until a line has no number. So the table of the code and its printed page are read alike, and an entry that has slipped is not found.

use std::collections::BTreeMap;

/// How a ruler begins: what stands over the rows' own numbers.
const CORNER: &str = "u \\ v";

/// The numbers of a line, each with the column of the text in which it ends.
fn numbers(line: &str) -> Vec<(usize, u8)> {
    let mut found = Vec::new();
    let mut digits = String::new();
    for (column, character) in line.chars().chain([' ']).enumerate() {
        if character.is_ascii_digit() {
            digits.push(character);
        } else if !digits.is_empty() {
            found.push((column, digits.parse().expect("a number of a byte")));
            digits.clear();
        }
    }
    found
}

/// Every entry that a finger finds in a text: by its row and its column.
pub fn entries(text: &str) -> BTreeMap<(u8, u8), u8> {
    let (mut ruler, mut entries) = (BTreeMap::new(), BTreeMap::new());
    for line in text.lines() {
        let found = numbers(line);
        if line.contains(CORNER) {
            ruler = found.into_iter().collect();
        } else if let Some((&(_, u), row)) = found.split_first() {
            entries.extend(row.iter().filter_map(|(column, entry)| Some(((u, *ruler.get(column)?), *entry))));
        } else {
            ruler.clear();
        }
    }
    entries
}
