//! The report of a tray file: its parts are taken off the front one by one, and the first that is not there ends it.

use crate::code::Code;
use crate::{block, line, ring};
use std::fmt::Write;

/// Takes so many bytes off the front of what is left of a file, if they are there.
fn taken<'a>(file: &mut &'a [u8], count: usize) -> Option<&'a [u8]> {
    let (front, rest) = file.split_at_checked(count)?;
    *file = rest;
    Some(front)
}

fn taken_byte(file: &mut &[u8]) -> Option<u8> {
    taken(file, 1).map(|byte| byte[0])
}

/// Adds the items to the report. The three counts, unless the file stops early.
fn items(code: &Code, file: &mut &[u8], report: &mut String) -> Option<[u8; 3]> {
    let radius = taken_byte(file)?;
    let lines = taken_byte(file)?;
    for i in 0..lines {
        let (fields, _) = line::read(code, taken(file, 63)?, radius, None, 63);
        let [answer, number, distance, _first, _last] = fields[..] else { panic!("five fields") };
        writeln!(report, "L {i} {answer} {distance} {number}").unwrap();
    }
    let rings = taken_byte(file)?;
    for i in 0..rings {
        let (fields, _) = ring::read(code, taken(file, 63)?, radius, 63);
        let [answer, start, _number, distance, _first, _last] = fields[..] else { panic!("six fields") };
        writeln!(report, "R {i} {answer} {start} {distance}").unwrap();
    }
    let blocks = taken_byte(file)?;
    for i in 0..blocks {
        let count = taken_byte(file)?;
        let rows = taken(file, count as usize)?;
        let (answer, distance, _) = block::read(rows, rows.len());
        writeln!(report, "B {i} {answer} {distance} {}", if answer == 0 { count } else { 0 }).unwrap();
    }
    Some([lines, rings, blocks])
}

pub fn report(code: &Code, mut file: &[u8]) -> String {
    let mut report = String::from("kind item answer a b\n");
    match items(code, &mut file, &mut report) {
        None => report.push_str("cut\n"),
        Some(_) if !file.is_empty() => report.push_str("more\n"),
        Some([lines, rings, blocks]) => writeln!(report, "end {lines} {rings} {blocks}").unwrap(),
    }
    report
}
