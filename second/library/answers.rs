//! Which answers each call of the comparison can give, and whether each was given.

use crate::clarities::{ANOTHER_LENGTH, HAS_NO_SPREAD, HAS_RATIO, NONE_BRIGHT, NONE_DARK};
use crate::refusals::*;
use crate::sheet_calls::READ_SHEET;
use crate::smudges::{READ_SMUDGE, REFUSED_SMUDGE};
use std::collections::BTreeMap;

/// How often each call gave each answer.
pub type Given = BTreeMap<(&'static str, usize), u64>;

/// Each call, and every answer that it can give. A spool's line and an unblotted one, a word with no blot, are read alone, by film_read_line; reading a
/// sheet is another call for each number of rounds, reading with a smudge for each number of wrong cells, how clear a scan is for each kind and each cause of
/// 20, and what is asked of an open tray for each cause of 17 and each way that the count goes.
const ANSWERS: [(&str, &[u8]); 63] = [
    ("sum", &[0, VALUE_OVER]),
    ("product", &[0, VALUE_OVER]),
    ("quotient", &[0, VALUE_OVER, QUOTIENT_BY_ZERO]),
    ("encode_line", &[0, INPUT_LENGTH, VALUE_OVER, NUMBER_OVER, OUTPUT_LENGTH]),
    ("read_line", &[0, INPUT_LENGTH, VALUE_OVER, RADIUS_OVER, OUTPUT_LENGTH, NO_LINE]),
    ("read_line_wanted", &[0, INPUT_LENGTH, VALUE_OVER, RADIUS_OVER, NUMBER_OVER, OUTPUT_LENGTH, NO_LINE, OTHER_NUMBER]),
    ("read_line_paper", &[0, INPUT_LENGTH, VALUE_OVER, RADIUS_OVER, OUTPUT_LENGTH, NO_LINE]),
    ("read_line_paper_wanted", &[0, INPUT_LENGTH, VALUE_OVER, RADIUS_OVER, NUMBER_OVER, OUTPUT_LENGTH, NO_LINE, OTHER_NUMBER]),
    ("read_spool", &[0, INPUT_LENGTH, OUTPUT_LENGTH]),
    ("spool_line", &[0, VALUE_OVER, RADIUS_OVER, NO_LINE]),
    ("encode_sheet", &[0, INPUT_LENGTH, VALUE_OVER, NUMBER_OVER, OUTPUT_LENGTH]),
    (READ_SHEET[0], &[INPUT_LENGTH, VALUE_OVER, OUTPUT_LENGTH]),
    (READ_SHEET[1], &[0, IMPROPER_SHEET]),
    (READ_SHEET[2], &[0, IMPROPER_SHEET]),
    (READ_SHEET[3], &[0, IMPROPER_SHEET]),
    (READ_SHEET[4], &[0, IMPROPER_SHEET]),
    (READ_SHEET[5], &[0, IMPROPER_SHEET]),
    (READ_SHEET[6], &[0, IMPROPER_SHEET]),
    (READ_SHEET[7], &[0, IMPROPER_SHEET]),
    (READ_SHEET[8], &[0, IMPROPER_SHEET]),
    ("tray_add", &[0, INPUT_LENGTH, VALUE_OVER]),
    ("tray_add, too much claimed", &[TRAY_UNFIT]),
    ("tray_add, full", &[TRAY_UNFIT]),
    ("tray_add, count up", &[0]),
    ("tray_replace", &[0, VALUE_OVER, LINE_NOT_HELD, ADDRESS_OVER]),
    ("tray_replace, too much claimed", &[TRAY_UNFIT]),
    ("tray_replace, high character", &[TRAY_UNFIT]),
    ("tray_replace, high sum", &[TRAY_UNFIT]),
    ("tray_replace, sum at count 0", &[TRAY_UNFIT]),
    ("tray_replace, count up", &[0]),
    ("tray_replace, count down", &[0]),
    ("tray_replace, count above held", &[0]),
    ("tray_drop", &[0, LINE_NOT_HELD]),
    ("tray_drop, too much claimed", &[TRAY_UNFIT]),
    ("tray_drop, high character", &[TRAY_UNFIT]),
    ("tray_drop, high sum", &[TRAY_UNFIT]),
    ("tray_drop, sum at count 0", &[TRAY_UNFIT]),
    ("tray_drop, count down", &[0]),
    ("tray_count", &[0, TRAY_UNFIT]),
    ("read_blotted", &[0, INPUT_LENGTH, VALUE_OVER, OUTPUT_LENGTH, NO_LINE]),
    ("unblotted_line", &[0, INPUT_LENGTH, VALUE_OVER, OUTPUT_LENGTH, NO_LINE]),
    ("better_scan", &[0, INPUT_LENGTH, VALUE_OVER, RADIUS_OVER, NO_LINE]),
    (ANOTHER_LENGTH, &[INPUT_LENGTH]),
    (NONE_DARK, &[ONE_SIDED]),
    (NONE_BRIGHT, &[ONE_SIDED]),
    (HAS_RATIO, &[0]),
    (HAS_NO_SPREAD, &[0]),
    ("spool_clarity", &[0, INPUT_LENGTH]),
    ("list_ring", &[0, INPUT_LENGTH, VALUE_OVER, RADIUS_OVER, OUTPUT_LENGTH]),
    ("read_ring", &[0, INPUT_LENGTH, VALUE_OVER, RADIUS_OVER, OUTPUT_LENGTH, NO_LINE, MANY_STARTS]),
    ("panel_text", &[0, INPUT_LENGTH, VALUE_OVER, OUTPUT_LENGTH, TEMPLATE, UNKNOWN_KIND]),
    ("panel_ring", &[0, INPUT_LENGTH, VALUE_OVER, RADIUS_OVER, OUTPUT_LENGTH, NO_LINE, MANY_STARTS, TEMPLATE, UNKNOWN_KIND]),
    ("encode_block", &[0, VALUE_OVER, OUTPUT_LENGTH, ROW_COUNT]),
    ("read_block", &[0, OUTPUT_LENGTH, ROW_COUNT, NO_BLOCK]),
    ("encode_smudge", &[0, VALUE_OVER, OUTPUT_LENGTH, ROW_COUNT]),
    (REFUSED_SMUDGE, &[OUTPUT_LENGTH, ROW_COUNT, NO_BLOCK]),
    (READ_SMUDGE[0], &[0]),
    (READ_SMUDGE[1], &[0]),
    (READ_SMUDGE[2], &[0]),
    (READ_SMUDGE[3], &[0]),
    (READ_SMUDGE[4], &[0]),
    ("step", &[0, VALUE_OVER, REGISTER_FULL]),
    ("checks", &[0, VALUE_OVER, REGISTER_FULL, REGISTER_SHORT]),
];

/// Prints how often each call gave each answer, and tells whether all were given.
pub fn all_given(given: &Given) -> bool {
    let mut missing = false;
    for (call, answers) in ANSWERS {
        let counts: Vec<String> = answers.iter().map(|&a| format!("{a}: {}", given.get(&(call, a as usize)).unwrap_or(&0))).collect();
        println!("{call}: {}", counts.join(", "));
        missing |= answers.iter().any(|&a| !given.contains_key(&(call, a as usize)));
    }
    let verdict = if missing { "and an answer that no call gave" } else { "no difference" };
    println!("{} calls of the library, {verdict}", given.values().sum::<u64>());
    !missing
}
