//! Rings: the ring itself is turned and reversed, and the word at each of the 126 starts is read whole.

use crate::code::{distance, Code};
use crate::line::told;
use crate::refusals;

const UNTOUCHED: u8 = 170;

/// The characters taken at a start.
pub fn word_at(ring: &[u8], start: usize) -> Vec<u8> {
    let mut word = ring.to_vec();
    if start < 63 {
        word.rotate_left(start);
    } else {
        word.reverse();
        word.rotate_left(125 - start);
    }
    word
}

/// The ring on which a word is taken at a start.
pub fn recorded(word: &[u8], start: usize) -> Vec<u8> {
    let mut ring = word.to_vec();
    if start < 63 {
        ring.rotate_right(start);
    } else {
        ring.rotate_right(125 - start);
        ring.reverse();
    }
    assert_eq!(word_at(&ring, start), word);
    ring
}

/// A start, and the line within the radius of the word there.
type Entry = (usize, Vec<u8>);

pub fn entries(code: &Code, ring: &[u8], radius: usize) -> Vec<Entry> {
    let line_at = |start| code.nearest(&word_at(ring, start)).filter(|line| distance(line, &word_at(ring, start)) <= radius);
    (0..126).filter_map(|start| line_at(start).map(|line| (start, line))).collect()
}

/// The refusal for the ring, the radius and the length of the output.
fn refusal(ring: &[u8], radius: u8, room: usize, stated: usize) -> Option<u8> {
    if ring.len() != 63 {
        return Some(refusals::INPUT_LENGTH);
    }
    if room != stated {
        return Some(refusals::OUTPUT_LENGTH);
    }
    if ring.iter().any(|&c| c > 63) {
        return Some(refusals::VALUE_OVER);
    }
    if radius > 5 {
        return Some(refusals::RADIUS_OVER);
    }
    None
}

/// The answer and the fields after it, and the output.
type Answer = (Vec<usize>, Vec<u8>);

pub fn list(code: &Code, ring: &[u8], radius: u8, room: usize) -> Answer {
    let mut output = vec![UNTOUCHED; room];
    if let Some(number) = refusal(ring, radius, room, 126) {
        return (vec![number as usize, 0], output);
    }
    let entries = entries(code, ring, radius as usize);
    for (i, (start, _)) in entries.iter().enumerate() {
        output[i] = *start as u8;
    }
    (vec![0, entries.len()], output)
}

pub fn read(code: &Code, ring: &[u8], radius: u8, room: usize) -> Answer {
    let refused = |number| (vec![number as usize, 0, 0, 0, 0, 0], vec![UNTOUCHED; room]);
    if let Some(number) = refusal(ring, radius, room, 63) {
        return refused(number);
    }
    match &entries(code, ring, radius as usize)[..] {
        [] => refused(refusals::NO_LINE),
        [(start, line)] => ([vec![0, *start], told(&word_at(ring, *start), line)].concat(), line.clone()),
        _ => refused(refusals::MANY_STARTS),
    }
}
