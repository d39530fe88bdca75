//! Panel text: the characters after the kind become one string, and each name takes the place of its byte in the whole of it, one name after another.

use crate::code::Code;
use crate::line::UNTOUCHED;
use crate::random::Random;
use crate::{refusals, ring};

/// The kinds of text that are known.
pub const PLAIN: u8 = 0;
pub const TEMPLATE: u8 = 1;

/// The length of a text, and the least output: six bytes, as many as the longest name has, for each character after the kind.
pub const TEXT: usize = 50;
pub const ROOM: usize = 294;

/// The byte that character 0 stands for.
const FIRST: u8 = b' ';

/// The bytes that are written by name. An & stands in each name: that of & itself comes before the others, so that theirs stay, and is undone after them.
pub const NAMES: [(&str, &str); 5] = [("&", "&amp;"), ("<", "&lt;"), (">", "&gt;"), ("\"", "&quot;"), ("'", "&#39;")];

/// The characters that stand for bytes.
pub fn characters(bytes: &str) -> Vec<u8> {
    bytes.bytes().map(|byte| byte - FIRST).collect()
}

fn escaped(characters: &[u8]) -> String {
    let plain: String = characters.iter().map(|v| (FIRST + v) as char).collect();
    NAMES.iter().fold(plain, |text, (byte, name)| text.replace(byte, name))
}

/// The answer and the length written, and the output.
type Answer = (Vec<usize>, Vec<u8>);

/// The characters that were written, which are those after the kind; nothing in a refusal.
pub fn undone((numbers, output): &Answer) -> Option<Vec<u8>> {
    if numbers[0] != 0 {
        return None;
    }
    let written = String::from_utf8(output[..numbers[1]].to_vec()).expect("ASCII bytes");
    Some(characters(&NAMES.iter().rev().fold(written, |text, (byte, name)| text.replace(name, byte))))
}

/// The refusal of the first test that a text, or the output lent for it, does not pass.
fn refusal(text: &[u8], room: usize) -> Option<u8> {
    let kind = text.first();
    let tests = [
        (text.len() == TEXT, refusals::INPUT_LENGTH),
        (room >= ROOM, refusals::OUTPUT_LENGTH),
        (text.iter().all(|&v| v < 64), refusals::VALUE_OVER),
        (kind != Some(&TEMPLATE), refusals::TEMPLATE),
        (kind == Some(&PLAIN), refusals::UNKNOWN_KIND),
    ];
    tests.into_iter().find(|(passed, _)| !passed).map(|(_, number)| number)
}

fn refused(number: usize, room: usize) -> Answer {
    (vec![number, 0], vec![UNTOUCHED; room])
}

pub fn text(text: &[u8], room: usize) -> Answer {
    if let Some(number) = refusal(text, room) {
        return refused(number as usize, room);
    }
    let mut output = escaped(&text[1..]).into_bytes();
    let length = output.len();
    output.resize(room, UNTOUCHED);
    (vec![0, length], output)
}

/// The text of the line that is read from a ring.
pub fn ring(code: &Code, given: &[u8], radius: u8, room: usize) -> Answer {
    // where the output is too short, so is the one that ring reading is lent: it refuses that in its place among the others
    let lent = if room < ROOM { 0 } else { 63 };
    match ring::read(code, given, radius, lent) {
        (numbers, line) if numbers[0] == 0 => text(&line[..TEXT], room),
        (numbers, _) => refused(numbers[0], room),
    }
}

/// Plain, template, and one of those that are not known.
pub fn random_kinds(random: &mut Random) -> [u8; 3] {
    [PLAIN, TEMPLATE, 2 + random.below(62) as u8]
}

/// A text of a kind.
pub fn random_text(random: &mut Random, kind: u8) -> Vec<u8> {
    [vec![kind], random.bytes(TEXT - 1, 64)].concat()
}

/// A line with a text of a kind.
pub fn random_note(code: &Code, random: &mut Random, kind: u8) -> Vec<u8> {
    code.line(&[random_text(random, kind), random.bytes(2, 64)].concat())
}
