//! Cases of reading with blots: which refusal comes first, every count of blots and of wrong characters, wrong maps, any map, and roots that come twice.

use super::{Case, Cases, READ_BLOTTED};
use crate::blots::{counts, map_of, nearest, planted, planted_at, read, tried, with_root_twice, Blotted, MOST};
use crate::code::marks;
use crate::line::{random_addresses, random_line};
use crate::random::Random;

/// The fewest blots with which a line is found by trial too: there three wrong characters outside them are the most.
const FEW_CHOICES: usize = 4;

/// The word and its map stand one after the other in the input.
fn add(cases: &mut Cases, word: &[u8], map: &[u8], room: usize) {
    let (numbers, output) = read(&cases.code, word, map, room);
    let both = [word, map].concat();
    let case = Case { number: word.len() as u16, room, ..Case::new(READ_BLOTTED, &both) };
    cases.add(case, &numbers, &output);
}

/// A word of 63 characters and a map, whose line is also found as line reading finds it, where there is no blot, or by trial, where there are many.
fn add_read(cases: &mut Cases, (word, map): Blotted) {
    let found = nearest(&cases.code, &word, &map);
    match map.iter().filter(|&&m| m == 1).count() {
        0 => assert_eq!(found, cases.code.nearest(&word)),
        FEW_CHOICES.. => assert_eq!(found, tried(&cases.code, &word, &map)),
        _ => (),
    }
    add(cases, &word, &map, 63);
}

/// Each refusal, with all that is refused later: the lengths of the inputs, that of the output, bytes that are too high, and twelve blots.
fn refusals(cases: &mut Cases, random: &mut Random) {
    let (word, few) = planted(&cases.code, random, 5, 5, 3);
    let twelve = map_of(&(20..32).collect::<Vec<usize>>());
    let long = |bytes: &[u8]| [bytes, &[0]].concat();
    for (map, byte) in [(&few, 0), (&few, 1), (&few, 2), (&twelve, 1), (&twelve, 255)] {
        let mut map = map.clone();
        map[20] = byte;
        for high in [0, 64] {
            let mut word = word.clone();
            word[20] |= high;
            for room in [63, 62, 64] {
                add(cases, &word, &map, room);
            }
            for (word, map) in [(&word[..62], &map[..]), (&long(&word), &map), (&word, &map[..62]), (&word, &long(&map)), (&[], &[])] {
                add(cases, word, map, 62);
            }
        }
    }
}

/// At either end a character that is too high, seen and in a blot, and a byte of the map that is too high.
fn high_bytes(cases: &mut Cases, random: &mut Random) {
    let (word, map) = planted(&cases.code, random, 3, 2, 1);
    for address in [0, 62] {
        for (high, byte) in [(64, 0), (64, 1), (192, 0), (192, 1), (0, 2), (0, 128), (0, 255)] {
            let (mut word, mut map) = (word.clone(), map.clone());
            word[address] |= high;
            map[address] = byte;
            add(cases, &word, &map, 63);
        }
    }
}

/// Every count of blots and of wrong characters outside them: the blots hide as many wrong characters, none, and some.
fn every_two_counts(cases: &mut Cases, random: &mut Random) {
    for (blots, wrong) in counts() {
        for hidden in [blots, 0, random.below(blots + 1)] {
            let blotted = planted(&cases.code, random, blots, hidden, wrong);
            add_read(cases, blotted);
        }
    }
}

/// Blots beside the wrong characters: the map is turned by one, so that no wrong character is hidden, or all but one are.
fn wrong_maps(cases: &mut Cases, random: &mut Random) {
    for wrong in 1..=6 {
        let apart: Vec<usize> = (0..wrong).map(|i| 10 * i).collect();
        let together: Vec<usize> = (30..30 + wrong).collect();
        for addresses in [apart, together] {
            let beside: Vec<usize> = addresses.iter().map(|a| a + 1).collect();
            let blotted = planted_at(&cases.code, random, &beside, &addresses);
            add_read(cases, blotted);
        }
    }
}

/// Changed addresses in blots and beside them: the first, the last and both are a blot's or a seen one's.
fn changed_in_blots(cases: &mut Cases, random: &mut Random) {
    for (first, last) in [(0, 62), (0, 0), (62, 62), (1, 61), (31, 32)] {
        for blots in [&[][..], &[first], &[last], &[first, last], &[first, last, 30], &[0, 20, 40, 62]] {
            let wrong: Vec<usize> = if first == last { vec![first] } else { vec![first, last] };
            let blotted = planted_at(&cases.code, random, blots, &wrong);
            add_read(cases, blotted);
        }
    }
}

/// Any characters with every count of blots.
fn any_count(cases: &mut Cases, random: &mut Random) {
    for count in 0..=63 {
        let blotted = (random.bytes(63, 64), map_of(&random_addresses(random, count)));
        add_read(cases, blotted);
    }
}

/// About as many blots as can be read, on a line and on any characters: eleven always leave a line, twelve never do.
fn about_eleven(cases: &mut Cases, random: &mut Random) {
    for count in MOST - 1..=MOST + 1 {
        for word in [marks(), random_line(&cases.code, random), random.bytes(63, 64), vec![0; 63]] {
            let map = map_of(&random_addresses(random, count));
            assert!(count < MOST || nearest(&cases.code, &word, &map).is_some() == (count == MOST));
            add_read(cases, (word, map));
        }
    }
}

/// A root twice, of every count of blots that leaves a wrong character: the first blot's, and that of a wrong character.
fn roots_twice(cases: &mut Cases, random: &mut Random) {
    for blots in 0..MOST - 1 {
        let others = (MOST - blots) / 2 - 1;
        let addresses = random_addresses(random, blots + others);
        let (blots, wrong) = addresses.split_at(blots);
        for &twice in [blots.first(), wrong.first()].into_iter().flatten() {
            let blotted = with_root_twice(&cases.code, random, blots, wrong, twice);
            add_read(cases, blotted);
        }
    }
}

pub fn add_all(cases: &mut Cases) {
    let random = &mut Random::new(17);
    for add_some in [refusals, high_bytes, every_two_counts, wrong_maps, changed_in_blots, any_count, about_eleven, roots_twice] {
        add_some(cases, random);
    }
}
