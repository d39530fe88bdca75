//! The parts of the comparison that read spools: each is held against the second program's, and its places against the library's own reading of each line.

use crate::interface::{film_read_line, film_read_spool};
use crate::spool::{self, four_lines, raise, random_spool, zero_to_six, FIELDS, LINE, LONGEST, PLACES, WAYS};
use crate::{line_numbers, Comparison, Due};

/// Every radius that a line can be read at, and some over that.
const RADII: [u8; 9] = [0, 1, 2, 3, 4, 5, 6, 9, 255];

/// Counts of lines, the fewest and the most; 256 and 257 would be 0 and 1 to whoever counts in eight bits.
const COUNTS: [usize; 7] = [0, 1, 2, PLACES - 1, PLACES, 256, 257];

impl Comparison {
    /// Reads a spool over bytes that are no characters.
    fn read_spool(&mut self, spool: &[u8], radius: u8, room: usize) {
        let old = self.no_characters(room);
        let due = spool::read(&self.code, spool, radius, &old);
        self.call_over(&old, "read_spool", spool, &[radius as usize], due.clone(), |given, out| unsafe {
            let r = film_read_spool(given, spool.len(), radius, out, room);
            [vec![r.answer as usize], r.places.iter().flat_map(line_numbers).collect()].concat()
        });
        if due.0[0] == 0 {
            self.one_by_one(spool, radius, &old, &due);
        }
    }

    /// Each line of a spool is read alone, over the same bytes, and gives what the spool gave in its place.
    fn one_by_one(&mut self, spool: &[u8], radius: u8, old: &[u8], (numbers, output): &Due) {
        let lines = spool.chunks(LINE).zip(old.chunks(LINE));
        let given = numbers[1..].chunks(FIELDS).zip(output.chunks(LINE));
        for ((word, old), (place, line)) in lines.zip(given) {
            self.call_over(old, "spool_line", word, &[radius as usize], (place.to_vec(), line.to_vec()), |given, out| unsafe {
                line_numbers(&film_read_line(given, LINE, radius, out, LINE))
            });
        }
    }

    /// Every length from 0 to 300, and those about the longest, with outputs as long, a little shorter and longer, and empty.
    pub fn spool_lengths(&mut self) {
        let spool = random_spool(&self.code, &mut self.random, zero_to_six(PLACES + 1));
        let longest = [LONGEST - LINE, LONGEST - 1, LONGEST, LONGEST + 1, LONGEST + LINE];
        for length in (0..=300).chain(longest) {
            for room in [length, length.saturating_sub(1), length + 1, 0] {
                self.read_spool(&spool[..length], 5, room);
            }
        }
        for room in 0..=300 {
            self.read_spool(&spool[..2 * LINE], 5, room);
        }
    }

    /// Every count at every radius, with a character that is too high in no line, in the first, in the last too, and in one more.
    pub fn spool_counts(&mut self) {
        for (radius, count) in RADII.into_iter().flat_map(|radius| COUNTS.map(|count| (radius, count))) {
            let mut spool = random_spool(&self.code, &mut self.random, zero_to_six(count));
            self.read_spool(&spool, radius, spool.len());
            if count > 0 {
                for line in [0, count - 1, self.random.below(count)] {
                    raise(&mut spool, &mut self.random, line);
                    self.read_spool(&spool, radius, spool.len());
                }
            }
        }
    }

    /// Four lines with refused ones among them: all ways at every radius.
    pub fn refused_among_right(&mut self) {
        for (radius, way) in RADII.into_iter().flat_map(|radius| (0..WAYS).map(move |way| (radius, way))) {
            let spool = four_lines(&self.code, &mut self.random, way);
            self.read_spool(&spool, radius, spool.len());
        }
    }

    /// A few words of any kind, or, at times, very many.
    pub fn any_spool(&mut self) {
        let radius = self.below(6, 256) as u8;
        let count = self.below(6, PLACES + 1);
        let spool = (0..count).map(|_| self.word(radius)).collect::<Vec<_>>().concat();
        self.read_spool(&spool, radius, spool.len());
    }
}
