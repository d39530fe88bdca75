//! Cases of panel text: every character and every kind, the five bytes that are written by name at every place, texts that spell names, lines read from
//! rings, and which refusal is told.

use super::{Case, Cases, PANEL_RING, PANEL_TEXT};
use crate::code::with_errors;
use crate::false_starts::undamaged;
use crate::line::random_errors;
use crate::panel::{self, characters, random_kinds, random_note, random_text, undone, NAMES, PLAIN, ROOM, TEMPLATE, TEXT};
use crate::random::Random;
use crate::ring::recorded;

/// What was written, undone, is the text.
fn add_text(cases: &mut Cases, text: &[u8], room: usize) {
    let given = panel::text(text, room);
    assert!(undone(&given).map_or(true, |back| back == text[1..]));
    cases.add(Case { room, ..Case::new(PANEL_TEXT, text) }, &given.0, &given.1);
}

fn add_ring(cases: &mut Cases, ring: &[u8], radius: u8, room: usize) {
    let (numbers, output) = panel::ring(&cases.code, ring, radius, room);
    cases.add(Case { small: radius, room, ..Case::new(PANEL_RING, ring) }, &numbers, &output);
}

/// Bytes as a plain text, spaces after them.
fn spelling(bytes: &str) -> Vec<u8> {
    let mut text = [vec![PLAIN], characters(bytes)].concat();
    text.resize(TEXT, 0);
    text
}

/// The characters of the bytes that are written by name.
fn named() -> Vec<u8> {
    characters(&NAMES.map(|(byte, _)| byte).concat())
}

/// A text of one character alone, of which `"` has the longest name; and the character among others.
fn every_character(cases: &mut Cases, random: &mut Random) {
    for c in 0..64 {
        add_text(cases, &[&[PLAIN], &[c; TEXT - 1][..]].concat(), ROOM);
        let mut text = random_text(random, PLAIN);
        text[1 + c as usize % (TEXT - 1)] = c;
        add_text(cases, &text, ROOM);
    }
    assert_eq!(panel::text(&spelling(&"\"".repeat(TEXT - 1)), ROOM).0, [0, ROOM]);
}

fn names_at_every_place(cases: &mut Cases, random: &mut Random) {
    for c in named() {
        for place in 1..TEXT {
            let mut text = random_text(random, PLAIN);
            text[place] = c;
            add_text(cases, &text, ROOM);
        }
    }
}

/// Every two of the bytes that are written by name, in turn.
fn names_in_turn(cases: &mut Cases, _: &mut Random) {
    for one in named() {
        for other in named() {
            add_text(cases, &[&[PLAIN], &[one, other].repeat(TEXT / 2)[..TEXT - 1]].concat(), ROOM);
        }
    }
}

/// Texts that spell names, or begin one, in their own characters.
fn names_spelled(cases: &mut Cases, _: &mut Random) {
    for bytes in [
        "&#39;",
        "&AMP;&LT;&GT;&QUOT;&#39;",
        "&&#39;#39;",
        "&AMP;#39;&AMP;AMP;LT;",
        "&#38;#39;&#60;&#X3C;",
        "&LT;SCRIPT&GT;",
        "<SCRIPT>ALERT('&#39;')</SCRIPT>",
        "\"><IMG SRC=X ONERROR='A&&B'>",
        "& ; &; &# &#3 &#39 39; ;&",
        "$(X) %S \\X3C \\' <%= %> <!--",
    ] {
        add_text(cases, &spelling(bytes), ROOM);
    }
    add_text(cases, &spelling(&"&#39;".repeat(10)[..TEXT - 1]), ROOM);
}

fn every_kind(cases: &mut Cases, random: &mut Random) {
    for kind in (0..64).chain([64, 65, 127, 128, 255]) {
        let text = random_text(random, kind);
        add_text(cases, &text, ROOM);
    }
}

/// A byte over 63 at every place: it is told before the kind.
fn bytes_over_63(cases: &mut Cases, random: &mut Random) {
    for place in 0..TEXT {
        for kind in random_kinds(random) {
            let mut text = random_text(random, kind);
            text[place] = [64, 128, 255, 64 + random.below(192) as u8][place % 4];
            add_text(cases, &text, ROOM);
        }
    }
}

/// Texts and outputs of other lengths.
fn other_lengths(cases: &mut Cases, random: &mut Random) {
    for length in [0, 1, 49, 51, 63, 255] {
        let text = vec![PLAIN; length];
        add_text(cases, &text, ROOM);
        add_text(cases, &text, ROOM - 1);
    }
    for room in [0, 1, 50, 63, 293, 294, 295, 500] {
        for text in [random_text(random, PLAIN), spelling(&"\"".repeat(TEXT - 1))] {
            add_text(cases, &text, room);
        }
    }
}

/// Everything that is refused of a text, with everything else that is refused: which comes first.
fn order_of_refusals(cases: &mut Cases, random: &mut Random) {
    for faults in 0..8 {
        let has = |fault: u8| faults >> fault & 1 == 1;
        for kind in random_kinds(random) {
            let mut text = random_text(random, kind);
            if has(2) {
                text[random.below(TEXT - 1)] = 64;
            }
            text.truncate(if has(0) { TEXT - 1 } else { TEXT });
            add_text(cases, &text, if has(1) { ROOM - 1 } else { ROOM });
        }
    }
}

/// A line recorded at a start, with so few wrong characters that it is read: what is written, undone, is its text.
fn read(cases: &mut Cases, line: &[u8], start: usize, errors: &[(usize, u8)], radius: u8) {
    assert!(errors.len() <= radius as usize && errors.len() + radius as usize <= 3);
    let ring = recorded(&with_errors(line, errors), start);
    let written = undone(&panel::ring(&cases.code, &ring, radius, ROOM));
    assert_eq!(written, (line[0] == PLAIN).then(|| line[1..TEXT].to_vec()));
    add_ring(cases, &ring, radius, ROOM);
}

/// Lines of each kind, forward and backward, with as many wrong characters as leave the true start alone.
fn lines_read(cases: &mut Cases, random: &mut Random) {
    for radius in 0..=3 {
        for wrong in 0..=radius.min(3 - radius) as usize {
            for direction in [0, 63] {
                for kind in random_kinds(random) {
                    let line = random_note(&cases.code, random, kind);
                    let errors = random_errors(random, wrong);
                    read(cases, &line, direction + random.below(63), &errors, radius);
                }
            }
        }
    }
}

/// The kind itself is wrong on the film, and looks like another: the line's own counts.
fn kinds_damaged(cases: &mut Cases, random: &mut Random) {
    let kinds = random_kinds(random);
    for kind in kinds {
        for seen in kinds.into_iter().filter(|&seen| seen != kind) {
            let line = random_note(&cases.code, random, kind);
            read(cases, &line, random.below(126), &[(0, kind ^ seen)], 1);
        }
    }
}

/// Undamaged rings with too large a radius, wrong characters that no radius reaches, dark rings and noise.
fn rings_not_read(cases: &mut Cases, random: &mut Random) {
    for kind in random_kinds(random) {
        let line = random_note(&cases.code, random, kind);
        for radius in [4, 5] {
            let ring = undamaged(&cases.code, &line, random.below(126), radius);
            add_ring(cases, &ring, radius, ROOM);
        }
        for radius in 0..=3 {
            let ring = recorded(&with_errors(&line, &random_errors(random, radius as usize + 1)), random.below(126));
            add_ring(cases, &ring, radius, ROOM);
        }
    }
    for radius in [0, 1, 2, 3, 5] {
        add_ring(cases, &[0; 63], radius, ROOM);
        let noise = random.bytes(63, 64);
        add_ring(cases, &noise, radius, ROOM);
    }
}

/// Rings and outputs of other lengths, radii over 5, and a byte over 63 at some places.
fn other_rings(cases: &mut Cases, random: &mut Random) {
    let note = random_note(&cases.code, random, PLAIN);
    for length in [0, 49, 50, 62, 64, 126] {
        add_ring(cases, &note.repeat(2)[..length], 3, ROOM);
    }
    for room in [0, 63, 126, 293, 294, 295, 500] {
        add_ring(cases, &note, 3, room);
    }
    for radius in [6, 7, 128, 255] {
        add_ring(cases, &note, radius, ROOM);
    }
    for place in [0, 1, 49, 50, 62] {
        let mut ring = note.clone();
        ring[place] = 64 + random.below(192) as u8;
        add_ring(cases, &ring, 3, ROOM);
    }
}

/// Everything that is refused of a ring, with everything else that is refused: which comes first.
fn order_of_ring_refusals(cases: &mut Cases, random: &mut Random) {
    for faults in 0..16 {
        let has = |fault: u8| faults >> fault & 1 == 1;
        for mut ring in [random_note(&cases.code, random, TEMPLATE), random.bytes(63, 64), vec![0; 63]] {
            if has(2) {
                ring[random.below(62)] = 64;
            }
            ring.truncate(if has(0) { 62 } else { 63 });
            add_ring(cases, &ring, if has(3) { 6 } else { 3 }, if has(1) { ROOM - 1 } else { ROOM });
        }
    }
}

pub fn add_all(cases: &mut Cases) {
    let random = &mut Random::new(6);
    for add_some in [
        every_character,
        names_at_every_place,
        names_in_turn,
        names_spelled,
        every_kind,
        bytes_over_63,
        other_lengths,
        order_of_refusals,
        lines_read,
        kinds_damaged,
        rings_not_read,
        other_rings,
        order_of_ring_refusals,
    ] {
        add_some(cases, random);
    }
}
