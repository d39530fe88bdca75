//! Cases of line reading: words of every kind, each with the line that is found by the recurrence of the sums and again by trial.

use super::words::{another_number, between, numbered, planted, try_all, with_faults, with_other_sum, with_sum_0, with_sums, Given, FAULTS};
use super::{Call, Case, Cases, READ_LINE, READ_LINE_WANTED};
use crate::code::{added, marks};
use crate::line::{self, number, random_addresses, random_errors, random_line};
use crate::random::Random;

/// A word for the first of two calls, or for the second where a number is wanted.
pub(super) fn add_to(cases: &mut Cases, calls: [Call; 2], word: &[u8], radius: u8, wanted: Option<u16>, room: usize) {
    let (numbers, output) = line::read(&cases.code, word, radius, wanted, room);
    let call = calls[wanted.is_some() as usize];
    let case = Case { small: radius, number: wanted.unwrap_or(0), room, ..Case::new(call, word) };
    cases.add(case, &numbers, &output);
}

pub(super) fn add(cases: &mut Cases, word: &[u8], radius: u8, wanted: Option<u16>, room: usize) {
    add_to(cases, [READ_LINE, READ_LINE_WANTED], word, radius, wanted, room);
}

/// A word of 63 characters, whose nearest line is also found by trial.
pub(super) fn read(cases: &mut Cases, word: &[u8], radius: u8, wanted: Option<u16>) {
    try_all(&cases.code, word);
    add(cases, word, radius, wanted, 63);
}

/// A line with some wrong characters.
fn near(cases: &mut Cases, line: &[u8], errors: &[(usize, u8)], radius: u8, wanted: Option<u16>) {
    let word = planted(&cases.code, line, errors);
    read(cases, &word, radius, wanted);
}

/// The rows of the bench sheet that read a line, with the wrong characters at several places.
fn bench_rows(cases: &mut Cases, random: &mut Random) {
    let z = marks();
    for _ in 0..10 {
        let five = random_errors(random, 5);
        near(cases, &z, &five, 5, None);
        near(cases, &z, &five, 4, None);
        let six = random_errors(random, 6);
        near(cases, &z, &six, 5, None);
    }
    near(cases, &z, &[(60, 5)], 1, Some(1));
    near(cases, &z, &[], 6, None);
    let number_65 = cases.code.line(&(0..52).map(|a| [5, 6, 14, 15, 23, 24, 32, 33, 41, 42, 50, 51].contains(&a) as u8).collect::<Vec<u8>>());
    assert_eq!(number_65[52..], [32, 0, 0, 8, 0, 0, 0, 1, 1, 0, 1]);
    near(cases, &number_65, &[], 0, Some(65));
    for n in [4095, 4096] {
        near(cases, &z, &[], 0, Some(n));
        let last = cases.code.line(&[[0; 50].as_slice(), &[63, 63]].concat());
        near(cases, &last, &[(60, 5)], 1, Some(n));
    }
    for radius in 0..=6 {
        read(cases, &[0; 63], radius, None);
    }
}

/// Six wrong characters whose first ten sums are those of five: S_5 alone shows that there is no line.
fn five_roots_for_six_errors(cases: &mut Cases, random: &mut Random) {
    let six = [(0, 1), (1, 1), (2, 4), (3, 4), (4, 5), (5, 3)];
    let sums = cases.code.error_sums(&six);
    let (length, recurrence) = cases.code.recurrence(&sums[..10]);
    assert_eq!((length, cases.code.roots(&recurrence).len()), (5, 5));
    assert_eq!(cases.code.recurrence(&sums).0, 6);
    let line = random_line(&cases.code, random);
    for radius in 0..=5 {
        near(cases, &marks(), &six, radius, None);
        near(cases, &line, &six, radius, Some(number(&line)));
    }
}

/// 0 to 8 wrong characters at every radius, with no wanted number, the right one, and another.
fn errors_at_every_radius(cases: &mut Cases, random: &mut Random) {
    for errors in 0..=8 {
        for radius in 0..=5 {
            for _ in 0..if errors <= radius { 14 } else { 7 } {
                let line = random_line(&cases.code, random);
                let another = another_number(random, &line);
                for wanted in [None, Some(number(&line)), Some(another)] {
                    let errors = random_errors(random, errors as usize);
                    near(cases, &line, &errors, radius, wanted);
                }
            }
        }
    }
}

/// Wrong characters beside each other, at either end and between.
fn bursts(cases: &mut Cases, random: &mut Random) {
    for length in 1..=8 {
        for start in [0, 1 + random.below(53), 63 - length] {
            let line = random_line(&cases.code, random);
            let values = random.bytes(length, 63);
            let errors: Vec<(usize, u8)> = values.iter().enumerate().map(|(i, v)| (start + i, v + 1)).collect();
            near(cases, &line, &errors, 5, None);
        }
    }
}

/// One wrong character at every address, and every value of it at one address.
fn single_errors(cases: &mut Cases, random: &mut Random) {
    for address in 0..63 {
        let line = random_line(&cases.code, random);
        let value = 1 + random.below(63) as u8;
        near(cases, &line, &[(address, value)], 1, None);
    }
    let line = random_line(&cases.code, random);
    for value in 1..64 {
        near(cases, &line, &[(60, value)], 1, Some(number(&line)));
    }
}

/// Two equal wrong characters, alone and among others; two such pairs; three whose sum is 0. S_0 is 0, or says less than it seems.
fn equal_errors(cases: &mut Cases, random: &mut Random) {
    for radius in 0..=5 {
        for others in [0, 0, 0, 0, 1, 2, 3, 4] {
            let line = random_line(&cases.code, random);
            let mut errors = random_errors(random, 2 + others);
            errors[1].1 = errors[0].1;
            near(cases, &line, &errors, radius, None);
        }
        for _ in 0..3 {
            let line = random_line(&cases.code, random);
            let mut errors = random_errors(random, 4);
            errors[1].1 = errors[0].1;
            errors[3].1 = errors[2].1;
            near(cases, &line, &errors, radius, None);
            let mut errors = random_errors(random, 3);
            errors[1].1 = errors[0].1 % 63 + 1;
            errors[2].1 = errors[0].1 ^ errors[1].1;
            near(cases, &line, &errors, radius, None);
        }
    }
}

/// Wrong characters of which one of the eleven sums is 0.
fn vanishing_sums(cases: &mut Cases, random: &mut Random) {
    for k in 0..11 {
        for count in 2..=5 {
            let errors = with_sum_0(&cases.code, random, k, count);
            let line = random_line(&cases.code, random);
            for radius in [count - 1, count] {
                near(cases, &line, &errors, radius as u8, None);
            }
        }
    }
}

/// Words whose sums are those of 0 to 5 wrong characters but for one sum, at the radius that would just do and at the largest.
fn one_other_sum(cases: &mut Cases, random: &mut Random) {
    for k in 0..11 {
        for count in 0..=5 {
            for radius in [count as u8, 5] {
                let word = with_other_sum(&cases.code, random, k, count);
                read(cases, &word, radius, None);
            }
        }
    }
}

/// Words whose sums follow a recurrence of 1 to 5 terms: few have all its roots among the places, and some have one root twice.
fn recurrences(cases: &mut Cases, random: &mut Random) {
    for length in 1..=5 {
        for i in 0..18 {
            let mut roots = random_addresses(random, length);
            roots[0] = roots[length - 1];
            let any = [vec![1], random.bytes(length, 64)].concat();
            let recurrence = if i % 3 == 0 { cases.code.with_roots(&roots) } else { any };
            let sums = cases.code.continued(&random.bytes(length, 64), &recurrence);
            assert!(cases.code.recurrence(&sums).0 <= length);
            let word = with_sums(&cases.code, random, sums);
            read(cases, &word, 5, None);
        }
    }
}

/// Words between two lines: every count of the twelve characters in which they differ is of one.
fn between_two_lines(cases: &mut Cases, random: &mut Random) {
    for taken in 0..=12 {
        for _ in 0..5 {
            let (line, word) = between(&cases.code, random, taken);
            read(cases, &word, 5, None);
            read(cases, &word, 4, Some(number(&line)));
        }
    }
}

/// Lines without some of their marks, with marks at other places, dark words, and words of one character.
fn marks_and_constants(cases: &mut Cases, random: &mut Random) {
    let marked = [(52, 32), (55, 8), (62, 1)];
    for missing in 0..8 {
        let line = random_line(&cases.code, random);
        let errors: Vec<(usize, u8)> = (0..3).filter(|i| missing >> i & 1 == 1).map(|i| marked[i]).collect();
        for radius in 0..=5 {
            near(cases, &line, &errors, radius, None);
        }
    }
    for turn in 1..63 {
        let mut turned = marks();
        turned.rotate_left(turn);
        let word = added(&added(&random_line(&cases.code, random), &marks()), &turned);
        read(cases, &word, 5, None);
    }
    for c in 0..64 {
        read(cases, &[c; 63], 5, None);
    }
}

/// Numbers at their ends, with the characters that hold them right and wrong; wanted numbers over 4095 among them.
fn wanted_numbers(cases: &mut Cases, random: &mut Random) {
    for carried in [0, 1, 63, 64, 65, 2048, 4032, 4094, 4095] {
        let line = numbered(&cases.code, random, carried);
        for wanted in [0, 1, 63, 64, 65, 2048, 4032, 4094, 4095, 4096, 4097, 4096 + carried, 32768, 65535] {
            near(cases, &line, &[], 0, Some(wanted));
            let value = 1 + random.below(63) as u8;
            near(cases, &line, &[(50, value), (51, 64 - value)], 2, Some(wanted));
        }
    }
}

/// One character over 63, and several, in words that would be read without them.
fn bytes_over_63(cases: &mut Cases, random: &mut Random) {
    for address in 0..63 {
        let mut word = random_line(&cases.code, random);
        word[address] |= 64 << random.below(2);
        add(cases, &word, 5, None, 63);
    }
    for value in [63, 64, 65, 127, 128, 192, 255] {
        let mut word = random_line(&cases.code, random);
        word[random.below(63)] = value;
        add(cases, &word, 5, None, 63);
    }
    for _ in 0..30 {
        let word = random.bytes(63, 66);
        add(cases, &word, 5, None, 63);
    }
}

/// Words and outputs of other lengths.
fn wrong_lengths(cases: &mut Cases, random: &mut Random) {
    let long: Vec<u8> = (0..5).flat_map(|_| random_line(&cases.code, random)).collect();
    for length in [0, 1, 2, 31, 61, 62, 64, 65, 126, 127, 128, 255] {
        add(cases, &long[..length], 5, None, 63);
        add(cases, &long[..length], 0, Some(number(&long)), length);
        add(cases, &long[..63], 5, None, length);
        add(cases, &long[..63], 5, Some(number(&long)), length);
    }
}

/// Radii over 5.
fn wrong_radii(cases: &mut Cases, random: &mut Random) {
    for radius in [6, 7, 8, 63, 64, 127, 128, 255] {
        let line = random_line(&cases.code, random);
        for errors in [0, 3, 5, 6] {
            let errors = random_errors(random, errors);
            near(cases, &line, &errors, radius, None);
        }
    }
}

/// Everything that is refused, with everything else that is refused: which comes first.
fn order_of_refusals(cases: &mut Cases, random: &mut Random) {
    for faults in 0..FAULTS {
        let Given { word, radius, wanted, room } = with_faults(&cases.code, random, faults);
        add(cases, &word, radius, Some(wanted), room);
    }
}

fn noise(cases: &mut Cases, random: &mut Random) {
    for i in 0..150 {
        let word = random.bytes(63, 64);
        let wanted = if i % 3 == 2 { Some(number(&word)) } else { None };
        read(cases, &word, 5, wanted);
    }
}

pub fn add_all(cases: &mut Cases) {
    let random = &mut Random::new(63);
    for add_some in [
        bench_rows,
        five_roots_for_six_errors,
        errors_at_every_radius,
        bursts,
        single_errors,
        equal_errors,
        vanishing_sums,
        one_other_sum,
        recurrences,
        between_two_lines,
        marks_and_constants,
        wanted_numbers,
        bytes_over_63,
        wrong_lengths,
        wrong_radii,
        order_of_refusals,
        noise,
    ] {
        add_some(cases, random);
    }
}
