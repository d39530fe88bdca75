//! Cases of reading a line by the method of 1968: which refusal comes first, every count of wrong characters at every radius, and words at which a step of
//! that method meets its special case. What is due is line reading's answer, which another method finds.
//!
//! The method tries no error, one, two and so on. For n errors a square system in the first 2n sums gives the locator, whose roots are the places; what stands
//! there is added, and all eleven sums are taken again.

use super::words::{another_number, between, numbered, planted, try_all, with_faults, with_other_sum, with_sum_0, with_sums, Given, FAULTS};
use super::{line, Cases, READ_LINE_PAPER, READ_LINE_PAPER_WANTED};
use crate::code::{Code, Sums};
use crate::line::{number, random_addresses, random_errors, random_line};
use crate::random::Random;
use crate::twice;

fn add(cases: &mut Cases, word: &[u8], radius: u8, wanted: Option<u16>, room: usize) {
    line::add_to(cases, [READ_LINE_PAPER, READ_LINE_PAPER_WANTED], word, radius, wanted, room);
}

/// A word of 63 characters, whose nearest line is also found by trial, at some radii with some wanted numbers.
fn read(cases: &mut Cases, word: &[u8], radii: &[usize], wanted: &[Option<u16>]) {
    try_all(&cases.code, word);
    for &radius in radii {
        for &number in wanted {
            add(cases, word, radius as u8, number, 63);
        }
    }
}

/// A radius and the largest.
fn with_largest(radius: usize) -> Vec<usize> {
    let mut both = vec![radius, 5];
    both.dedup();
    both
}

/// Any line with some wrong characters, at the radius that just does, at the one below it and at the largest.
fn near(cases: &mut Cases, random: &mut Random, errors: &[(usize, u8)]) {
    let line = random_line(&cases.code, random);
    let word = planted(&cases.code, &line, errors);
    let radii = [vec![errors.len() - 1], with_largest(errors.len())].concat();
    read(cases, &word, &radii, &[None]);
}

/// Everything that is refused, with everything else that is refused: which comes first, with a wanted number and without.
fn order_of_refusals(cases: &mut Cases, random: &mut Random) {
    for faults in 0..FAULTS {
        let Given { word, radius, wanted, room } = with_faults(&cases.code, random, faults);
        add(cases, &word, radius, Some(wanted), room);
        add(cases, &word, radius, None, room);
    }
}

/// Words and outputs of other lengths.
fn wrong_lengths(cases: &mut Cases, random: &mut Random) {
    let long = [random_line(&cases.code, random), random_line(&cases.code, random)].concat();
    for length in [0, 1, 61, 62, 64, 126] {
        for wanted in [None, Some(number(&long))] {
            add(cases, &long[..length], 5, wanted, 63);
            add(cases, &long[..length], 5, wanted, length);
            add(cases, &long[..63], 5, wanted, length);
        }
    }
}

/// A character over 63 at either end, and at any address.
fn bytes_over_63(cases: &mut Cases, random: &mut Random) {
    let line = random_line(&cases.code, random);
    for address in [0, 62, random.below(63)] {
        for high in [64, 128, 192] {
            let mut word = line.clone();
            word[address] |= high;
            for wanted in [None, Some(number(&line))] {
                add(cases, &word, 5, wanted, 63);
            }
        }
    }
}

/// 0 to 7 wrong characters at every radius from 0 to 7, with no wanted number, the right one, another, and one that no line has.
fn every_count_and_radius(cases: &mut Cases, random: &mut Random) {
    for wrong in 0..=7 {
        for radius in 0..=7 {
            let line = random_line(&cases.code, random);
            let word = planted(&cases.code, &line, &random_errors(random, wrong));
            let another = another_number(random, &line);
            read(cases, &word, &[radius], &[None, Some(number(&line)), Some(another), Some(another | 4096)]);
        }
    }
}

/// Numbers at their ends, with the characters that hold them right and wrong; wanted numbers over 4095 among them.
fn wanted_numbers(cases: &mut Cases, random: &mut Random) {
    for carried in [0, 1, 64, 4095] {
        let line = numbered(&cases.code, random, carried);
        let value = 1 + random.below(63) as u8;
        let word = planted(&cases.code, &line, &[(50, value), (51, 64 - value)]);
        let wanted = [0, 1, 64, 4094, 4095, 4096, 4096 + carried, 65535].map(Some);
        read(cases, &line, &[0], &wanted);
        read(cases, &word, &[2], &[&wanted[..], &[Some(number(&word))]].concat());
    }
}

/// Wrong characters at the ends, with any values and with equal ones: the place of address 62 is 1.
fn at_the_ends(cases: &mut Cases, random: &mut Random) {
    for addresses in [&[62][..], &[0], &[0, 62], &[0, 1], &[61, 62], &[0, 31, 62], &[60, 61, 62], &[0, 1, 61, 62], &[0, 1, 2, 3, 4], &[0, 1, 31, 61, 62]] {
        let any: Vec<(usize, u8)> = addresses.iter().map(|&a| (a, 1 + random.below(63) as u8)).collect();
        let equal: Vec<(usize, u8)> = any.iter().map(|&(a, _)| (a, any[0].1)).collect();
        near(cases, random, &any);
        near(cases, random, &equal);
    }
}

/// Two to five wrong characters of one value: S_0 is 0 where they are two or four, and else that value, as if they were one.
fn equal_values(cases: &mut Cases, random: &mut Random) {
    for wrong in 2..=5 {
        for value in [1, 2, 32, 63] {
            let errors: Vec<(usize, u8)> = random_addresses(random, wrong).into_iter().map(|a| (a, value)).collect();
            assert_eq!(cases.code.error_sums(&errors)[5], if wrong % 2 == 0 { 0 } else { value });
            near(cases, random, &errors);
        }
    }
}

/// Two to five wrong characters of which one of the eleven sums is 0: S_-5 is the first pivot, S_0 and S_1 tell a single error.
fn vanishing_sums(cases: &mut Cases, random: &mut Random) {
    for k in 0..11 {
        for wrong in 2..=5 {
            let errors = with_sum_0(&cases.code, random, k, wrong);
            near(cases, random, &errors);
        }
    }
}

/// Whether the system for n errors is singular: rows i of S_(i-5) to S_(i+n-6) are reduced.
fn is_singular(code: &Code, sums: &Sums, n: usize) -> bool {
    let mut rows: Vec<Vec<u8>> = (0..n).map(|i| sums[i..i + n].to_vec()).collect();
    for i in 0..n {
        let Some(pivot) = (i..n).find(|&k| rows[k][i] != 0) else { return true };
        rows.swap(i, pivot);
        for k in i + 1..n {
            let factor = code.quotient(rows[k][i], rows[i][i]);
            for j in i..n {
                rows[k][j] ^= code.product(factor, rows[i][j]);
            }
        }
    }
    false
}

/// Wrong characters for which the system for fewer of them is singular.
fn singular_for_fewer(cases: &mut Cases, random: &mut Random) {
    for wrong in 2..=5 {
        for n in 1..wrong {
            let mut errors = random_errors(random, wrong);
            while !is_singular(&cases.code, &cases.code.error_sums(&errors), n) {
                errors = random_errors(random, wrong);
            }
            near(cases, random, &errors);
        }
    }
}

/// The values at these addresses whose first sums are 0, all but one of as many as there are values: X^5 over the product of the differences from the others.
fn with_first_sums_0(code: &Code, addresses: &[usize]) -> Vec<(usize, u8)> {
    let value = |a: usize| {
        let x = code.place(a);
        let fifth = (0..5).fold(1, |power, _| code.product(power, x));
        addresses.iter().filter(|&&b| b != a).fold(fifth, |v, &b| code.quotient(v, x ^ code.place(b)))
    };
    addresses.iter().map(|&a| (a, value(a))).collect()
}

/// Wrong characters for which the system for any fewer is singular, each with a first row of zeros; in their own each column's last row alone is a pivot.
fn singular_for_any_fewer(cases: &mut Cases, random: &mut Random) {
    for wrong in 2..=5 {
        for _ in 0..2 {
            let errors = with_first_sums_0(&cases.code, &random_addresses(random, wrong));
            let sums = cases.code.error_sums(&errors);
            assert!(sums[..wrong - 1].iter().all(|&s| s == 0) && !is_singular(&cases.code, &sums, wrong));
            near(cases, random, &errors);
        }
    }
}

/// Words for which a solution for n errors is found and is none: the first 2n sums are those of n errors, and the word has more. All eleven sums tell.
fn false_solutions(cases: &mut Cases, random: &mut Random) {
    for n in 1..=5 {
        for wrong in n + 1..=7 {
            let errors = loop {
                let errors = random_errors(random, wrong);
                let (length, recurrence) = cases.code.recurrence(&cases.code.error_sums(&errors)[..2 * n]);
                if length == n && cases.code.roots(&recurrence).len() == n {
                    break errors;
                }
            };
            let word = planted(&cases.code, &random_line(&cases.code, random), &errors);
            read(cases, &word, &with_largest(n), &[None]);
        }
    }
}

/// Words whose sums are those of 0 to 5 wrong characters, but for one that no system of so many has.
fn one_sum_unseen(cases: &mut Cases, random: &mut Random) {
    for wrong in 0..=5 {
        for k in 2 * wrong..11 {
            let word = with_other_sum(&cases.code, random, k, wrong);
            read(cases, &word, &with_largest(wrong), &[None]);
        }
    }
}

/// A polynomial of a degree, 1 first, with no root among the places and no root 0.
fn without_roots(code: &Code, random: &mut Random, degree: usize) -> Vec<u8> {
    loop {
        let polynomial = [vec![1], random.bytes(degree, 64)].concat();
        if polynomial[degree] != 0 && code.roots(&polynomial).is_empty() {
            return polynomial;
        }
    }
}

fn multiplied(code: &Code, one: &[u8], other: &[u8]) -> Vec<u8> {
    let mut product = vec![0; one.len() + other.len() - 1];
    for (i, &c) in one.iter().enumerate() {
        for (j, &d) in other.iter().enumerate() {
            product[i + j] ^= code.product(c, d);
        }
    }
    product
}

/// A word whose locator is this factor and so many roots besides: no shorter recurrence has its sums, and there is no line.
fn with_factor(code: &Code, random: &mut Random, factor: &[u8], roots: usize) -> Vec<u8> {
    let length = factor.len() - 1 + roots;
    loop {
        let recurrence = multiplied(code, factor, &code.with_roots(&random_addresses(random, roots)));
        let sums = code.continued(&random.bytes(length, 64), &recurrence);
        if code.recurrence(&sums).0 == length {
            let word = with_sums(code, random, sums);
            assert_eq!(code.nearest(&word), None);
            return word;
        }
    }
}

/// Words whose locator of one to five roots lacks some: a factor of any degree has none, has 0 for each of its roots, or has one root that often. Every system
/// for more errors is singular.
fn roots_missing(cases: &mut Cases, random: &mut Random) {
    for degree in 1..=5 {
        for others in 0..=5 - degree {
            let mut factors = vec![[vec![1], vec![0; degree]].concat()];
            if degree > 1 {
                factors.push(without_roots(&cases.code, random, degree));
                factors.push(cases.code.with_roots(&vec![random.below(63); degree]));
            }
            for factor in factors {
                let word = with_factor(&cases.code, random, &factor, others);
                let length = degree + others;
                assert!((length + 1..=5).all(|n| is_singular(&cases.code, &cases.code.to_mend(&word), n)));
                read(cases, &word, &with_largest(length), &[None]);
            }
        }
    }
}

/// Words whose locator has the place of an end for its root twice, alone and with others.
fn ends_twice(cases: &mut Cases, random: &mut Random) {
    for addresses in [&[62][..], &[0], &[62, 0], &[0, 62], &[62, 61, 60], &[0, 31, 62], &[62, 0, 1, 61], &[0, 1, 2, 3]] {
        let word = twice::word(&cases.code, random, addresses);
        read(cases, &word, &with_largest(addresses.len() + 1), &[None]);
    }
}

/// Words between two lines: every count of the twelve characters in which they differ is of one.
fn between_two_lines(cases: &mut Cases, random: &mut Random) {
    for taken in 0..=12 {
        let (line, word) = between(&cases.code, random, taken);
        read(cases, &word, &[4, 5], &[None, Some(number(&line))]);
    }
}

/// Any characters, the same one everywhere, and lines with very many wrong characters.
fn beyond_five(cases: &mut Cases, random: &mut Random) {
    for i in 0..20 {
        let word = random.bytes(63, 64);
        read(cases, &word, &[5], &[None, Some(number(&word))]);
        read(cases, &[3 * i; 63], &[5], &[None]);
        let wrong = 8 + random.below(56);
        let word = planted(&cases.code, &random_line(&cases.code, random), &random_errors(random, wrong));
        read(cases, &word, &[5], &[None]);
    }
}

pub fn add_all(cases: &mut Cases) {
    let random = &mut Random::new(9);
    for add_some in [
        order_of_refusals,
        wrong_lengths,
        bytes_over_63,
        every_count_and_radius,
        wanted_numbers,
        at_the_ends,
        equal_values,
        vanishing_sums,
        singular_for_fewer,
        singular_for_any_fewer,
        false_solutions,
        one_sum_unseen,
        roots_missing,
        ends_twice,
        between_two_lines,
        beyond_five,
    ] {
        add_some(cases, random);
    }
}
