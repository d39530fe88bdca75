//! Reading with blots: the characters that were seen are points, and a polynomial through all but a few of them tells those that were not seen.
//!
//! A line less its marks has X^6 f(X) at the place X, with 52 coefficients in f: the other eleven powers are those that its sums forbid. `tried` finds the line
//! a second time: of the seen addresses every choice of as many as may be wrong is solved for, with the blots.

use crate::code::{added, marks, with_errors, Code, Sums};
use crate::interpolation::nearly_through;
use crate::line::{random_addresses, random_line, refused, told, with_sums, with_values, Answer};
use crate::random::Random;
use crate::refusals;
use std::array::from_fn;

/// The coefficients of a line less its marks.
const COEFFICIENTS: usize = 52;

/// The most that the blots, and twice the wrong characters outside them, may be.
pub const MOST: usize = 11;

/// How many characters outside so many blots may be wrong.
fn most_wrong(blots: usize) -> usize {
    (MOST - blots) / 2
}

/// Each blot counts once, and each other address where the line differs from the word counts twice.
fn fits(word: &[u8], map: &[u8], line: &[u8]) -> bool {
    let counts = (0..63).map(|a| if map[a] == 1 { 1 } else if word[a] != line[a] { 2 } else { 0 });
    counts.sum::<usize>() <= MOST
}

/// The sixth power of the place of an address.
fn sixth_power(code: &Code, address: usize) -> u8 {
    (0..6).fold(1, |power, _| code.product(power, code.place(address)))
}

/// The line that differs from the word so little outside the blots.
pub fn nearest(code: &Code, word: &[u8], map: &[u8]) -> Option<Vec<u8>> {
    let clean = added(word, &marks());
    let point = |a| (code.place(a), code.quotient(clean[a], sixth_power(code, a)));
    let seen: Vec<_> = (0..63).filter(|&a| map[a] == 0).map(point).collect();
    let f = nearly_through(code, &seen, COEFFICIENTS)?;
    let found: Vec<u8> = (0..63).map(|a| code.product(sixth_power(code, a), code.value(&f, code.place(a)))).collect();
    let line = added(&found, &marks());
    assert!(code.is_line(&line));
    Some(line).filter(|line| fits(word, map, line))
}

/// Every choice of so many of these addresses.
fn choices(addresses: &[usize], count: usize) -> Vec<Vec<usize>> {
    if count == 0 {
        return vec![Vec::new()];
    }
    let from = |i: usize| choices(&addresses[i + 1..], count - 1).into_iter().map(move |rest| [vec![addresses[i]], rest].concat());
    (0..addresses.len()).flat_map(from).collect()
}

/// The same line, found by trial. Seen addresses that come first fill up the eleven that are solved for.
pub fn tried(code: &Code, word: &[u8], map: &[u8]) -> Option<Vec<u8>> {
    let (blots, seen): (Vec<usize>, Vec<usize>) = (0..63).partition(|&a| map[a] == 1);
    if blots.len() > MOST {
        return None;
    }
    let sums = code.to_mend(word);
    choices(&seen, most_wrong(blots.len())).into_iter().find_map(|wrong| {
        let others = seen.iter().filter(|a| !wrong.contains(a));
        let addresses: Vec<usize> = blots.iter().chain(&wrong).chain(others).copied().take(11).collect();
        Some(with_errors(word, &code.solved(&addresses, sums))).filter(|line| fits(word, map, line))
    })
}

/// The refusal for the word, the map and the length of the output.
fn refusal(word: &[u8], map: &[u8], room: usize) -> Option<u8> {
    if word.len() != 63 || map.len() != 63 {
        return Some(refusals::INPUT_LENGTH);
    }
    if room != 63 {
        return Some(refusals::OUTPUT_LENGTH);
    }
    if word.iter().any(|&c| c > 63) || map.iter().any(|&m| m > 1) {
        return Some(refusals::VALUE_OVER);
    }
    None
}

pub fn read(code: &Code, word: &[u8], map: &[u8], room: usize) -> Answer {
    if let Some(answer) = refusal(word, map, room) {
        return refused(answer, room);
    }
    match nearest(code, word, map) {
        None => refused(refusals::NO_LINE, room),
        Some(line) => ([vec![0], told(word, &line)].concat(), line),
    }
}

/// A word and its map.
pub type Blotted = (Vec<u8>, Vec<u8>);

/// The map of blots at these addresses.
pub fn map_of(blots: &[usize]) -> Vec<u8> {
    (0..63).map(|a| blots.contains(&a) as u8).collect()
}

/// A line with so many blots, of which so many hide a wrong character, and so many wrong characters elsewhere. Where that is few enough the line is found.
pub fn planted(code: &Code, random: &mut Random, blots: usize, hidden: usize, wrong: usize) -> Blotted {
    let addresses = random_addresses(random, blots + wrong);
    planted_at(code, random, &addresses[..blots], &[&addresses[..hidden], &addresses[blots..]].concat())
}

/// The same with blots and wrong characters at these addresses.
pub fn planted_at(code: &Code, random: &mut Random, blots: &[usize], wrong: &[usize]) -> Blotted {
    let line = random_line(code, random);
    let (word, map) = (with_errors(&line, &with_values(random, wrong)), map_of(blots));
    let found = nearest(code, &word, &map);
    if fits(&word, &map, &line) {
        assert_eq!(found, Some(line));
    }
    (word, map)
}

/// Every count of blots and of wrong characters outside them that is few enough or too many by one or two.
pub fn counts() -> impl Iterator<Item = (usize, usize)> {
    (0..=MOST + 2).flat_map(|blots| (0..=(MOST + 2 - blots) / 2).map(move |wrong| (blots, wrong)))
}

/// A word whose locator has a root twice: to every second sum of errors at the blots and of wrong characters elsewhere a term of one of these places is added.
/// With the blots' own roots taken out, the place of a blot is a root once, where no wrong character is looked for, or that of a wrong character twice.
/// Where the roots that are left are few enough no other locator has these sums, and there is no line.
pub fn with_root_twice(code: &Code, random: &mut Random, blots: &[usize], wrong: &[usize], twice: usize) -> Blotted {
    let errors = with_values(random, &[blots, wrong].concat());
    let (sums, terms) = (code.error_sums(&errors), code.error_sums(&[(twice, 1 + random.below(63) as u8)]));
    let sums: Sums = from_fn(|k| if k % 2 == 0 { sums[k] ^ terms[k] } else { sums[k] });
    let word = with_sums(code, random, sums);
    let map = map_of(blots);
    assert!(wrong.len() + 1 > most_wrong(blots.len()) || nearest(code, &word, &map).is_none());
    (word, map)
}
