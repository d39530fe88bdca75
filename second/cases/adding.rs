//! Cases of lines merged by exclusive or, and of clean words turned and reversed: each word is read, and the line that it is read as is encoded.

use super::{encoder, line, Cases};
use crate::adding::{merged, moved, random_scans, reversed_twice, Scan, Tried};
use crate::code::distance;
use crate::line::{number, random_line};
use crate::random::Random;

/// Read at the radius that just reaches its line, at the one below it and at the largest; with the line's number wanted; and the line is encoded.
fn add(cases: &mut Cases, tried: Tried) {
    let apart = distance(&tried.word, &tried.line) as u8;
    let mut radii = vec![apart.saturating_sub(1), apart, 5];
    radii.dedup();
    for radius in radii {
        line::add(cases, &tried.word, radius, None, 63);
    }
    line::add(cases, &tried.word, apart, Some(number(&tried.line)), 63);
    encoder::line(cases, &tried.line[..50], number(&tried.line), 63);
}

fn scanned_rightly(lines: &[&[u8]]) -> Vec<Scan> {
    lines.iter().map(|line| (line.to_vec(), Vec::new())).collect()
}

/// Two and three lines, different ones and the same.
fn lines_merged(cases: &mut Cases, random: &mut Random) {
    for _ in 0..6 {
        let [u, v, w] = [(); 3].map(|()| random_line(&cases.code, random));
        for lines in [&[&u[..], &v, &w][..], &[&u, &u, &w], &[&u, &v, &u], &[&u, &v, &v], &[&u, &u, &u], &[&u, &v], &[&u, &u]] {
            let tried = merged(&cases.code, &scanned_rightly(lines));
            add(cases, tried);
        }
    }
}

/// Two scans with up to two wrong characters in all, three with up to five; and four and five lines.
fn scans_merged(cases: &mut Cases, random: &mut Random) {
    for (count, most) in [(2, 2), (3, 5), (4, 2), (5, 5)] {
        for wrong in 0..=most {
            for _ in 0..3 {
                let tried = merged(&cases.code, &random_scans(&cases.code, random, count, wrong));
                add(cases, tried);
            }
        }
    }
}

/// Clean words turned by every count and reversed from every place, once and twice.
fn words_moved(cases: &mut Cases, random: &mut Random) {
    for start in 0..126 {
        let line = random_line(&cases.code, random);
        let tried = moved(&cases.code, &line, start);
        add(cases, tried);
    }
    for place in 0..63 {
        let line = random_line(&cases.code, random);
        let tried = reversed_twice(&cases.code, &line, place);
        add(cases, tried);
    }
}

pub fn add_all(cases: &mut Cases) {
    let random = &mut Random::new(3);
    for add_some in [lines_merged, scans_merged, words_moved] {
        add_some(cases, random);
    }
}
