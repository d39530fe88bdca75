//! The bench sheet: the results are copied from the paper's sheet and not worked out; only the line of number 4095 is, by the check matrix.

use crate::block::no_data;
use crate::code::{marks, Code};

fn row(title: &str, result: &str) -> String {
    format!("{title} {result}\n")
}

fn spaced(bytes: &[u8]) -> String {
    bytes.iter().map(u8::to_string).collect::<Vec<_>>().join(" ")
}

/// Z, at a distance.
fn zero_line(distance: u8) -> String {
    format!("number 0 distance {distance}: {}", spaced(&marks()))
}

/// The starts listed, and 255 in the places that are left as they were lent.
fn list(starts: &[u8]) -> String {
    let mut output = starts.to_vec();
    output.resize(126, 255);
    format!("count {}: {}", starts.len(), spaced(&output))
}

/// Text 1 at 5, 6, 14, 15, 23, 24, 32, 33, 41, 42, else 0, and the two characters of a number.
fn information(high: u8, low: u8) -> Vec<u8> {
    let mut text = vec![0; 50];
    for a in [5, 6, 14, 15, 23, 24, 32, 33, 41, 42] {
        text[a] = 1;
    }
    text.extend([high, low]);
    text
}

/// What `bench_sheet` prints.
pub fn rows() -> String {
    let mut line_65 = information(1, 1);
    line_65.extend([32, 0, 0, 8, 0, 0, 0, 1, 1, 0, 1]);
    let line_4095 = Code::new().line(&information(63, 63));
    [
        row("32 times 2:", "3"),
        row("33 times 2:", "1"),
        row("quotient of 5 by 0:", "refused 13"),
        row("Z:", "a line"),
        row("63 zeros:", "no line"),
        row("63 zeros, radius 3:", &zero_line(3)),
        row("text 1 at 5, 6, 14, 15, 23, 24, 32, 33, 41, 42, number 65:", &spaced(&line_65)),
        row("Z with 5 at 60, radius 1:", &zero_line(1)),
        row("rows 3, 252:", "distance 0: 3 252"),
        row("rows 3, 253:", "distance 1: 3 252"),
        row("rows 3, 3:", "refused 9"),
        row("rows 3, 0:", "refused 9"),
        row("data 1 to 7 against smudges:", "131 170 129 26 7 18 5 93"),
        row("with the window at row 4, column 3 turned:", "distance 4: 131 170 129 26 7 18 5 93"),
        row("Z with 5 wrong, radius 5:", &zero_line(5)),
        row("Z with 5 wrong, radius 4:", "refused 6"),
        row("Z with 6 wrong, radius 5:", "refused 6"),
        row("Z with 5 at 60, radius 1, wanted 1:", "refused 7"),
        row("Z, radius 6:", "refused 3"),
        row("number 4095:", &spaced(&line_4095)),
        row("number 4096:", "refused 4"),
        row("Z, wanted 4095:", "refused 7"),
        row("Z, wanted 4096:", "refused 4"),
        row("ring Z, radius 3:", &list(&[0])),
        row("ring Z, radius 4:", &list(&[0, 104, 107, 110, 114, 117, 124])),
        row("ring Z, radius 5:", &list(&[0, 3, 7, 10, 53, 56, 60, 104, 107, 110, 114, 117, 124])),
        row("1 row:", "refused 8"),
        row("2 rows:", &format!("distance 0: {}", spaced(&no_data(2)))),
        row("64 rows:", &format!("distance 0: {}", spaced(&no_data(64)))),
        row("65 rows:", "refused 8"),
    ]
    .concat()
}
