//! The parts of the comparison that write text for a panel: the two calls, every byte at every place, texts that are like names, and lines on rings.

use crate::code::with_errors;
use crate::interface::{film_panel_ring, film_panel_text};
use crate::line::random_errors;
use crate::panel::{characters, random_kinds, random_note, random_text, PLAIN, ROOM, TEXT};
use crate::{panel, ring, Comparison};

/// What is written by name, and names and what is like them in a text's own characters, among which is no small letter.
const LIKE_NAMES: [&str; 9] = ["&", "<", ">", "\"", "'", "&#39;", "#39;", "&AMP;", "LT;"];

impl Comparison {
    pub fn panel_text(&mut self, text: &[u8], room: usize) {
        let due = panel::text(text, room);
        if let Some(back) = panel::undone(&due) {
            assert_eq!(back, text[1..]);
        }
        self.call("panel_text", text, &[], due, |given, out| unsafe {
            let r = film_panel_text(given, text.len(), out, room);
            vec![r.answer as usize, r.length as usize]
        });
    }

    /// What was written for a ring, undone, is given back.
    pub fn panel_ring(&mut self, ring: &[u8], radius: u8, room: usize) -> Option<Vec<u8>> {
        let due = panel::ring(&self.code, ring, radius, room);
        let back = panel::undone(&due);
        self.call("panel_ring", ring, &[radius as usize], due, |given, out| unsafe {
            let r = film_panel_ring(given, ring.len(), radius, out, room);
            vec![r.answer as usize, r.length as usize]
        });
        back
    }

    /// Every byte at every place of a text, the kind's too, with each kind.
    pub fn panel_bytes(&mut self) {
        for (place, byte) in (0..TEXT).flat_map(|place| (0..=255).map(move |byte| (place, byte))) {
            for kind in random_kinds(&mut self.random) {
                let mut text = random_text(&mut self.random, kind);
                text[place] = byte;
                self.panel_text(&text, ROOM);
            }
        }
    }

    /// A plain text full of what is like names, one of any characters, and one of any kind; the output is a little too short at times.
    pub fn panel_texts(&mut self) {
        let spelled: String = (1..TEXT).map(|_| LIKE_NAMES[self.random.below(LIKE_NAMES.len())]).collect();
        let names = [vec![PLAIN], characters(&spelled[..TEXT - 1])].concat();
        let kind = self.random.below(64) as u8;
        for text in [names, random_text(&mut self.random, PLAIN), random_text(&mut self.random, kind)] {
            let room = ROOM - 2 + self.random.below(20);
            self.panel_text(&text, room);
        }
    }

    /// A line of any kind on a ring, with some wrong characters, at every radius; and noise. Where they and the radius are three at most, the line is read.
    pub fn panel_rings(&mut self) {
        let kind = random_kinds(&mut self.random)[self.random.below(3)];
        let line = random_note(&self.code, &mut self.random, kind);
        let wrong = self.random.below(5);
        let ring = ring::recorded(&with_errors(&line, &random_errors(&mut self.random, wrong)), self.random.below(126));
        for radius in 0..=5 {
            let back = self.panel_ring(&ring, radius, ROOM);
            if wrong <= radius as usize && wrong + radius as usize <= 3 {
                assert_eq!(back, (kind == PLAIN).then(|| line[1..TEXT].to_vec()));
            }
        }
        let noise = self.random.bytes(63, 64);
        for room in [ROOM - 1, ROOM] {
            self.panel_ring(&noise, 5, room);
        }
    }
}
