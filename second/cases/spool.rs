//! Cases of spools: which refusal comes first, no line, one, several with refused ones among them, and as many as there are places.

use super::{Case, Cases, READ_SPOOL};
use crate::line::UNTOUCHED;
use crate::random::Random;
use crate::spool::{four_lines, raise, random_spool, read, zero_to_six, FIELDS, LINE, LONGEST, PLACES, WAYS};

/// What is printed is the answer, and the numbers of each place up to the last that does not hold only zeros.
fn add(cases: &mut Cases, spool: &[u8], radius: u8, room: usize) {
    let (numbers, output) = read(&cases.code, spool, radius, &vec![UNTOUCHED; room]);
    let held = numbers[1..].rchunks(FIELDS).skip_while(|place| place.iter().all(|&n| n == 0)).count();
    let case = Case { small: radius, room, ..Case::new(READ_SPOOL, spool) };
    cases.add(case, &numbers[..1 + held * FIELDS], &output);
}

/// Inputs and outputs of other lengths, the input's first.
fn wrong_lengths(cases: &mut Cases, random: &mut Random) {
    let spool = random_spool(&cases.code, random, zero_to_six(PLACES + 2));
    for length in [1, 62, 63, 64, 125, 126, 127, 189, 300] {
        for room in [0, length - 1, length, length + 1, length + LINE] {
            add(cases, &spool[..length], 5, room);
        }
    }
    for length in [LONGEST - 1, LONGEST, LONGEST + 1, LONGEST + LINE, LONGEST + 2 * LINE] {
        add(cases, &spool[..length], 5, LINE);
    }
    add(cases, &spool[..LONGEST + LINE], 5, LONGEST + LINE);
}

/// No line, with outputs of some lengths.
fn no_line(cases: &mut Cases, _: &mut Random) {
    for radius in [0, 5, 6, 255] {
        for room in [0, 1, LINE] {
            add(cases, &[], radius, room);
        }
    }
}

/// One line, and one with a character that is too high.
fn one_line(cases: &mut Cases, random: &mut Random) {
    for (radius, wrong) in (0..=6).flat_map(|radius| (0..=6).map(move |wrong| (radius, wrong))) {
        let mut spool = random_spool(&cases.code, random, [wrong]);
        add(cases, &spool, radius, LINE);
        raise(&mut spool, random, 0);
        add(cases, &spool, radius, LINE);
    }
}

/// Four lines with refused ones among them, and lines with 0 to 6 wrong characters at every radius; over 5 each line is refused, and the call is not.
fn several_lines(cases: &mut Cases, random: &mut Random) {
    for radius in [5, 9] {
        for way in 0..WAYS {
            let spool = four_lines(&cases.code, random, way);
            add(cases, &spool, radius, spool.len());
        }
    }
    for radius in [0, 1, 2, 3, 4, 5, 6, 255] {
        let spool = random_spool(&cases.code, random, zero_to_six(8));
        add(cases, &spool, radius, spool.len());
    }
}

/// As many lines as there are places, with a character that is too high in the first and the last, and one line less.
fn most_lines(cases: &mut Cases, random: &mut Random) {
    let mut spool = random_spool(&cases.code, random, zero_to_six(PLACES));
    add(cases, &spool, 5, LONGEST);
    add(cases, &spool[LINE..], 2, LONGEST - LINE);
    for line in [0, PLACES - 1] {
        raise(&mut spool, random, line);
    }
    for radius in [5, 9] {
        add(cases, &spool, radius, LONGEST);
    }
}

pub fn add_all(cases: &mut Cases) {
    let random = &mut Random::new(255);
    for add_some in [wrong_lengths, no_line, one_line, several_lines, most_lines] {
        add_some(cases, random);
    }
}
