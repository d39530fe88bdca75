//! Cases of encoding: lines at once, and registers that take one character after another, each case from the register that the one before left.

use super::{Case, Cases, CHECKS, ENCODE_LINE, STEP};
use crate::encoder::{encode, information, Register};
use crate::random::Random;

pub(super) fn line(cases: &mut Cases, text: &[u8], number: u16, room: usize) {
    let (answer, output) = encode(text, number, room);
    cases.add(Case { number, room, ..Case::new(ENCODE_LINE, text) }, &[answer as usize], &output);
}

fn step(cases: &mut Cases, register: &mut Register, c: u8) {
    let before = register.clone();
    let answer = register.step(c);
    let case = Case { small: c, number: before.count as u16, ..Case::new(STEP, &before.held) };
    cases.add(case, &[answer as usize, register.count as usize], &register.held);
}

fn checks(cases: &mut Cases, register: &Register) {
    let (answer, checks) = register.checks();
    cases.add(Case { number: register.count as u16, ..Case::new(CHECKS, &register.held) }, &[answer as usize], &checks);
}

/// A register takes the characters one by one, and is then asked for the checks twice.
fn run(cases: &mut Cases, held: &[u8], count: u8, characters: &[u8]) {
    let mut register = Register { held: held.to_vec(), count };
    for &c in characters {
        step(cases, &mut register, c);
    }
    checks(cases, &register);
    checks(cases, &register);
}

fn empty(cases: &mut Cases, characters: &[u8]) {
    run(cases, &[0; 11], 0, characters);
}

/// 1 at the addresses of the bench sheet's line of number 65.
fn text_65() -> Vec<u8> {
    (0..50).map(|a| [5, 6, 14, 15, 23, 24, 32, 33, 41, 42].contains(&a) as u8).collect()
}

pub fn add_all(cases: &mut Cases) {
    let random = &mut Random::new(65);
    // the bench sheet's lines, at once and by the character
    let zeros = vec![0; 50];
    line(cases, &text_65(), 65, 63);
    empty(cases, &information(&text_65(), 65));
    line(cases, &zeros, 0, 63);
    empty(cases, &[0; 52]);
    // numbers
    for number in [1, 63, 64, 4095, 4096, 65535] {
        line(cases, &zeros, number, 63);
    }
    // random lines, both ways, and a 53rd character
    for _ in 0..100 {
        let text = random.bytes(50, 64);
        line(cases, &text, random.below(4096) as u16, 63);
    }
    for _ in 0..6 {
        let text = random.bytes(50, 64);
        let number = random.below(4096) as u16;
        let characters = information(&text, number);
        line(cases, &text, number, 63);
        empty(cases, &[characters, vec![random.below(64) as u8]].concat());
    }
    // refusals one by one, and which comes first
    for length in [0, 1, 49, 51, 63, 255] {
        line(cases, &random.bytes(length, 64), 0, 63);
    }
    for room in [0, 1, 50, 62, 64, 255] {
        line(cases, &random.bytes(50, 64), 0, room);
    }
    for (address, c) in [(0, 64), (49, 64), (25, 255), (7, 128)] {
        let mut text = random.bytes(50, 64);
        text[address] = c;
        line(cases, &text, 17, 63);
        line(cases, &text, 4096, 63);
        line(cases, &text, 4096, 62);
        line(cases, &text[..49], 4096, 62);
    }
    // checks asked for sooner
    for n in [0, 1, 51] {
        empty(cases, &random.bytes(n, 64));
    }
    // a character over 63, taken for none, and the run goes on
    for c in [64, 255] {
        empty(cases, &[random.bytes(2, 64), vec![c], random.bytes(2, 64)].concat());
    }
    // registers that no text gives
    for count in [0, 1, 50, 51, 52, 53, 255] {
        let held = random.bytes(11, 64);
        run(cases, &held, count, &random.bytes(3, 64));
        run(cases, &held, count, &[64]);
        for place in [0, 4, 10] {
            let mut over = held.clone();
            over[place] = 64 + random.below(192) as u8;
            run(cases, &over, count, &random.bytes(2, 64));
            run(cases, &over, count, &[200]);
        }
    }
}
