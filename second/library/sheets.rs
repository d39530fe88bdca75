//! The parts of the comparison that encode and read sheets: dust and scattered damage in every amount, sheets that their own lines or columns undo, and each
//! refusal before the next.

use crate::blotted::address_of;
use crate::interface::{film_encode_sheet, film_read_sheet};
use crate::lent::Lent;
use crate::sheets::{self, random_sheet, random_texts, scattered, undone_by_columns, undone_by_lines, with_dust, FREE, MENDED, ROUNDS, SHEET, SIDE, TEXTS};
use crate::Comparison;

/// The name of reading a sheet by the rounds that are run, so that each answer is counted with each number of them; refused, there are none.
pub const READ_SHEET: [&str; ROUNDS + 1] = [
    "read_sheet, refused",
    "read_sheet, 1 round",
    "read_sheet, 2 rounds",
    "read_sheet, 3 rounds",
    "read_sheet, 4 rounds",
    "read_sheet, 5 rounds",
    "read_sheet, 6 rounds",
    "read_sheet, 7 rounds",
    "read_sheet, 8 rounds",
];

/// Lengths about those of a sheet, of its texts and of its numbers, in bytes and in numbers, and none.
const LENGTHS: [usize; 12] = [0, FREE - 1, FREE, FREE + 1, 2 * FREE, TEXTS - 1, TEXTS, TEXTS + 1, SHEET - 1, SHEET, SHEET + 1, SHEET + SIDE];

/// How many of a thousand characters are wrong where reading takes the most rounds: from the first on, so many more.
const HARDEST: usize = 120;
const HARDEST_SPAN: usize = 25;

/// How many sheets are read with as much damage before the rounds: one in a hundred takes seven rounds and is not proper then.
const HARDEST_TIMES: usize = 1000;

/// The most of a thousand characters that are wrong: far beyond what any round reads.
const MOST_SCATTERED: usize = 300;

impl Comparison {
    /// Encodes a sheet over bytes that are no characters.
    fn encode_sheet(&mut self, texts: &[u8], numbers: &[u16], room: usize) {
        let old = self.no_characters(room);
        let (answer, sheet) = sheets::encode(&self.code, texts, numbers, &old);
        let bytes: Vec<u8> = numbers.iter().flat_map(|number| number.to_ne_bytes()).collect();
        let mut lent = [texts, &bytes, &old].map(Lent::new);
        let [one, other, out] = &mut lent;
        let (given, list, out) = (address_of(one, texts.len()), address_of(other, bytes.len()) as *const u16, address_of(out, room));
        assert!(list.is_aligned());
        let r = unsafe { film_encode_sheet(given, texts.len(), list, numbers.len(), out, room) };
        let back = lent.each_ref().map(Lent::back);
        self.hold("encode_sheet", &(texts, numbers, room), (vec![r as usize], back), (answer, [texts, &bytes, &sheet].map(Some)));
    }

    /// Reads a sheet over bytes that are no characters.
    fn read_sheet(&mut self, sheet: &[u8], room: usize) {
        let old = self.no_characters(room);
        let due = sheets::read(&self.code, sheet, &old);
        self.call_over(&old, READ_SHEET[due.0[1]], sheet, &[], due, |given, out| unsafe {
            let r = film_read_sheet(given, sheet.len(), out, room);
            vec![r.answer as usize, r.rounds as usize]
        });
    }

    /// Lengths of the sheet, of the texts, of the numbers and of the output, with a byte or a number that is too high too.
    fn sheet_lengths(&mut self) {
        let sheet = random_sheet(&self.code, &mut self.random);
        for length in (0..=300).chain(LENGTHS) {
            let (input, numbers) = (self.random.bytes(length, 65), vec![4096; length]);
            let (texts, right) = random_texts(&mut self.random);
            self.read_sheet(&input, SHEET);
            self.read_sheet(&sheet, length);
            self.encode_sheet(&input, &right, SHEET);
            self.encode_sheet(&texts, &numbers, SHEET);
            self.encode_sheet(&texts, &right, length);
            for room in LENGTHS {
                self.read_sheet(&input, room);
                self.encode_sheet(&input, &right, room);
                self.encode_sheet(&texts, &numbers, room);
            }
        }
    }

    /// A character that is too high at every place of a sheet and of the texts, and a number that is at every place, with none of the other and with one.
    fn sheet_bytes(&mut self) {
        let sheet = random_sheet(&self.code, &mut self.random);
        for (place, high) in (0..SHEET).flat_map(|place| [64, 255].map(|high| (place, high))) {
            self.read_sheet(&[&sheet[..place], &[high], &sheet[place + 1..]].concat(), SHEET);
        }
        let (mut texts, mut numbers) = random_texts(&mut self.random);
        for place in 0..TEXTS {
            let right = texts[place];
            texts[place] = [64, 255][place % 2];
            self.encode_sheet(&texts, &numbers, SHEET);
            texts[place] = right;
        }
        for (place, high) in (0..FREE).flat_map(|place| [4095, 4096, 65535].map(|high| (place, high))) {
            let right = numbers[place];
            numbers[place] = high;
            self.encode_sheet(&texts, &numbers, SHEET);
            texts[place] ^= 64;
            self.encode_sheet(&texts, &numbers, SHEET);
            texts[place] ^= 64;
            numbers[place] = right;
        }
    }

    /// Any characters in so many lines, and so many wrong ones in each other line: up to five of either, the sheet is had back.
    fn dust(&mut self, lines: usize, wrong: usize) {
        let sheet = random_sheet(&self.code, &mut self.random);
        let dusty = with_dust(&self.code, &mut self.random, &sheet, lines, wrong);
        self.read_sheet(&dusty, SHEET);
    }

    /// So many of a thousand characters wrong.
    fn scatter(&mut self, of_thousand: usize) {
        let sheet = random_sheet(&self.code, &mut self.random);
        let damaged = scattered(&mut self.random, &sheet, of_thousand);
        self.read_sheet(&damaged, SHEET);
    }

    fn hardest(&mut self) {
        let of_thousand = HARDEST + self.random.below(HARDEST_SPAN);
        self.scatter(of_thousand);
    }

    /// Sheets that their columns undo, and sheets that their lines undo, of so many words with so many wrong characters.
    fn undone(&mut self, words: usize, wrong: usize) {
        for made in [undone_by_columns, undone_by_lines] {
            let sheet = made(&self.code, &mut self.random, words, wrong);
            self.read_sheet(&sheet, SHEET);
        }
    }

    /// All that is tried once.
    pub fn sheets(&mut self) {
        self.sheet_lengths();
        self.sheet_bytes();
        for (lines, wrong) in (0..=MENDED + 2).flat_map(|lines| (0..=MENDED + 2).map(move |wrong| (lines, wrong))) {
            self.dust(lines, wrong);
            self.undone(lines, wrong);
        }
        for lines in 0..=SIDE {
            self.dust(lines, 0);
        }
        for of_thousand in 0..=MOST_SCATTERED {
            self.scatter(of_thousand);
        }
        for _ in 0..HARDEST_TIMES {
            self.hardest();
        }
    }

    /// A random sheet encoded, the most damage of which it is had back for certain, any dust, and as much damage as takes the most rounds.
    pub fn any_sheet(&mut self) {
        let (texts, mut numbers) = random_texts(&mut self.random);
        numbers[self.random.below(FREE)] = self.below(4096, 65536) as u16;
        self.encode_sheet(&texts, &numbers, SHEET);
        self.dust(MENDED, MENDED);
        let (lines, words, wrong) = (self.random.below(SIDE + 1), self.random.below(FREE + 1), self.random.below(MENDED + 2));
        self.dust(lines, wrong);
        self.undone(words, wrong);
        self.hardest();
    }
}
