//! The comparison: random trays are handed to the tray program, and what it prints is held, byte for byte, against the report made here.
//!
//! A tray is known by a seed and its number. It is the same in every run, whichever other trays are made. Its items are clean, damaged about as
//! far as its radius reaches, or garbage. The file is then left whole, cut, lengthened or miscounted.

use crate::block::{encoded, flipped};
use crate::code::{added, marks, with_errors, Code};
use crate::even::{even_block, BRIGHT, DARK};
use crate::line::{random_addresses, random_errors, random_line};
use crate::random::Random;
use crate::ring::recorded;
use crate::tray::report;
use std::collections::BTreeMap;
use std::io::{self, Write};
use std::process::{Command, Output, Stdio};
use std::{env, fs, thread};

/// A tray in the making.
struct Tray<'a> {
    code: &'a Code,
    random: Random,
    radius: u8,
    bytes: Vec<u8>,
    /// Where the parts begin: the radius, each count, each item, each row count, and the rows after it.
    seams: Vec<usize>,
    /// Where the counts stand, those of rows too.
    counts: Vec<usize>,
}

impl Tray<'_> {
    fn line(&mut self) -> Vec<u8> {
        random_line(self.code, &mut self.random)
    }

    /// Up to as many wrong characters as the radius reaches, one more, or any number up to twelve; at times beside each other, or of one value.
    fn errors(&mut self) -> Vec<(usize, u8)> {
        let radius = self.radius.min(5) as usize;
        let count = match self.random.below(8) {
            0..=2 => self.random.below(radius + 1),
            3..=4 => radius,
            5..=6 => radius + 1,
            _ => self.random.below(13),
        };
        let mut errors = random_errors(&mut self.random, count);
        let kind = self.random.below(5);
        for i in 1..count {
            match kind {
                0 => errors[i].0 = (errors[0].0 + i) % 63,
                1 => errors[i].1 = errors[0].1,
                _ => {}
            }
        }
        errors
    }

    fn damaged(&mut self, word: &[u8]) -> Vec<u8> {
        with_errors(word, &self.errors())
    }

    /// Some characters of one line and the rest of another that differs from it in twelve, as near as two lines can be.
    fn between_two_lines(&mut self) -> Vec<u8> {
        let line = self.line();
        let twelve = random_addresses(&mut self.random, 12);
        let first = (twelve[0], 1 + self.random.below(63) as u8);
        let mut errors = self.code.solved(&twelve[1..], self.code.error_sums(&[first]));
        errors.push(first);
        with_errors(&line, &errors[..self.random.below(13)])
    }

    /// A word whose sums follow a recurrence of up to five terms: any, or with all its roots among the places, at times one of them twice; the last sum
    /// may be another.
    fn following_a_recurrence(&mut self) -> Vec<u8> {
        let length = 1 + self.random.below(5);
        let recurrence = match self.random.below(3) {
            0 => self.code.with_roots(&random_addresses(&mut self.random, length)),
            1 => {
                let mut roots = random_addresses(&mut self.random, length);
                roots[length - 1] = roots[0];
                self.code.with_roots(&roots)
            }
            _ => [vec![1], self.random.bytes(length, 64)].concat(),
        };
        let mut sums = self.code.continued(&self.random.bytes(length, 64), &recurrence);
        if self.random.below(2) == 0 {
            sums[10] = self.random.below(64) as u8;
        }
        let eleven = random_addresses(&mut self.random, 11);
        with_errors(&self.line(), &self.code.solved(&eleven, sums))
    }

    fn word(&mut self) -> Vec<u8> {
        let line = self.line();
        match self.random.below(16) {
            0..=1 => line,
            2..=8 => self.damaged(&line),
            // the marks are gone, and the rest may be dark too
            9 => self.damaged(&added(&line, &marks())),
            10 => self.damaged(&[0; 63]),
            11 => self.between_two_lines(),
            12 => self.following_a_recurrence(),
            // too high by a multiple of 64
            13 => {
                let mut word = self.damaged(&line);
                word[self.random.below(63)] += 64 * (1 + self.random.below(3)) as u8;
                word
            }
            14 => self.random.bytes(63, 64),
            _ => self.random.bytes(63, 256),
        }
    }

    /// A line with some of the characters wrong that make it a line at another start.
    fn between_two_starts(&mut self) -> Vec<u8> {
        let line = self.line();
        let other = added(&marks(), &recorded(&marks(), 1 + self.random.below(125)));
        let some: Vec<(usize, u8)> = (0..63).filter(|&a| other[a] != 0 && self.random.below(2) == 0).map(|a| (a, other[a])).collect();
        with_errors(&line, &some)
    }

    fn ring(&mut self) -> Vec<u8> {
        let word = if self.random.below(8) == 0 { self.between_two_starts() } else { self.word() };
        recorded(&word, self.random.below(126))
    }

    fn row_count(&mut self) -> usize {
        match self.random.below(8) {
            0 => [0, 1, 2, 3, 63, 64, 65, 66][self.random.below(8)],
            1 => self.random.below(256),
            2..=3 => 2 + self.random.below(63),
            _ => 2 + self.random.below(8),
        }
    }

    /// So many rows: random ones; dark or bright ones; a block whose columns are even; or a proper one. The last two have up to three wrong bits, anywhere,
    /// in one row, or in one column.
    fn rows(&mut self, count: usize) -> Vec<u8> {
        let block = match self.random.below(20) {
            _ if count == 0 => return Vec::new(),
            0..=1 => return self.random.bytes(count, 256),
            2 => return vec![[DARK, BRIGHT][self.random.below(2)]; count],
            3 => even_block(&mut self.random, count),
            _ => encoded(&self.random.bytes(count - 1, 128)),
        };
        let (row, column) = (self.random.below(count), self.random.below(8));
        let wrong = [0, 0, 1, 1, 1, 2, 2, 3][self.random.below(8)];
        let kind = self.random.below(3);
        let bits: Vec<(usize, usize)> = (0..wrong)
            .map(|i| match kind {
                0 => (self.random.below(count), self.random.below(8)),
                1 => (row, (column + i) % 8),
                _ => ((row + i) % count, column),
            })
            .collect();
        flipped(&block, &bits)
    }

    fn add(&mut self, part: &[u8]) {
        self.seams.push(self.bytes.len());
        self.bytes.extend(part);
    }

    fn add_count(&mut self, count: usize) {
        self.counts.push(self.bytes.len());
        self.add(&[count as u8]);
    }

    /// The radius and the three sections, with these counts; so many rows in each block, where that is given.
    fn fill(&mut self, [lines, rings, blocks]: [usize; 3], rows: Option<usize>) {
        self.add(&[self.radius]);
        self.add_count(lines);
        for _ in 0..lines {
            let word = self.word();
            self.add(&word);
        }
        self.add_count(rings);
        for _ in 0..rings {
            let ring = self.ring();
            self.add(&ring);
        }
        self.add_count(blocks);
        for _ in 0..blocks {
            let count = rows.unwrap_or_else(|| self.row_count());
            self.add_count(count);
            let rows = self.rows(count);
            self.add(&rows);
        }
        self.seams.push(self.bytes.len());
    }

    fn lengthen(&mut self, most: usize) {
        let count = 1 + self.random.below(most);
        self.bytes.extend(self.random.bytes(count, 256));
    }

    /// Leaves the file as it is, lengthens it, cuts it beside a seam or anywhere, or changes a count.
    fn spoil(&mut self) {
        match self.random.below(10) {
            0..=3 => {}
            4 => self.lengthen(1),
            5 => self.lengthen(400),
            6..=7 => {
                let seam = self.seams[self.random.below(self.seams.len())];
                self.bytes.truncate((seam + self.random.below(3)).saturating_sub(1));
            }
            8 => self.bytes.truncate(self.random.below(self.bytes.len())),
            _ => {
                let at = self.counts[self.random.below(self.counts.len())];
                let change = [1, 255, self.random.below(256)][self.random.below(3)] as u8;
                self.bytes[at] = self.bytes[at].wrapping_add(change);
            }
        }
    }

    fn make(&mut self) {
        match self.random.below(64) {
            // garbage throughout; with small bytes the counts are small, and the end of the file is past the blocks
            0..=3 => {
                let most = self.random.below(1000);
                let (length, high) = (self.random.below(most + 1), [4, 64, 256][self.random.below(3)]);
                self.bytes = self.random.bytes(length, high);
            }
            // the longest file that is all used, and with more bytes than that
            4 => {
                self.fill([255; 3], Some(255));
                match self.random.below(4) {
                    0 => {}
                    1 => self.lengthen(1),
                    2 => self.lengthen(100_000),
                    _ => self.bytes.truncate(self.bytes.len() - 1 - self.random.below(300)),
                }
            }
            5 => {
                self.fill([255; 3], None);
                self.spoil();
            }
            6..=8 => {
                let counts = [0; 3].map(|_| self.random.below(256));
                self.fill(counts, None);
                self.spoil();
            }
            _ => {
                let counts = [0; 3].map(|_| self.random.below(9));
                self.fill(counts, None);
                self.spoil();
            }
        }
    }
}

/// Tray `number` of a seed.
fn tray(code: &Code, seed: u64, number: u64) -> Vec<u8> {
    let mut random = Random::new(Random::new(seed).next() ^ number);
    let radius = match random.below(20) {
        0 => 6,
        1 => 6 + random.below(250) as u8,
        _ => random.below(6) as u8,
    };
    let mut tray = Tray { code, random, radius, bytes: Vec::new(), seams: Vec::new(), counts: Vec::new() };
    tray.make();
    tray.bytes
}

/// Runs a program with a file's bytes on its standard input. It need not read them all.
fn run(program: &str, file: &[u8]) -> io::Result<Output> {
    let mut child = Command::new(program).stdin(Stdio::piped()).stdout(Stdio::piped()).spawn()?;
    let mut stdin = child.stdin.take().expect("a pipe");
    thread::scope(|scope| {
        scope.spawn(move || stdin.write_all(file));
        child.wait_with_output()
    })
}

/// How often each answer of each kind was printed, and each closing line.
#[derive(Default)]
struct Tally(BTreeMap<(String, u8), u64>);

impl Tally {
    fn add(&mut self, report: &str) {
        for line in report.lines().skip(1) {
            let words: Vec<&str> = line.split(' ').collect();
            let answer = if let ["L" | "R" | "B", _, answer, ..] = words[..] { answer.parse().unwrap() } else { 0 };
            *self.0.entry((words[0].to_string(), answer)).or_default() += 1;
        }
    }

    fn total(&self, kind: &str) -> u64 {
        self.0.iter().filter(|((k, _), _)| k == kind).map(|(_, count)| count).sum()
    }

    fn answers(&self, kind: &str) -> String {
        let of_kind = self.0.iter().filter(|((k, _), _)| k == kind);
        let each: Vec<String> = of_kind.map(|((_, answer), count)| format!("{answer}: {count}")).collect();
        each.join(", ")
    }

    fn summary(&self) -> String {
        let endings = ["end", "cut", "more"].map(|word| format!("{word}: {}", self.total(word))).join(", ");
        let kinds = [("L", "lines"), ("R", "rings"), ("B", "blocks")];
        let kinds = kinds.map(|(kind, name)| format!("{} {name} ({})", self.total(kind), self.answers(kind))).join(", ");
        format!("({endings}), {kinds}")
    }
}

/// The line that begins at an offset, with its newline, if it has one.
fn line_at(report: &[u8], start: usize) -> String {
    let line = report[start..].split_inclusive(|&c| c == b'\n').next();
    line.map_or("(nothing)".to_string(), |line| line.escape_ascii().to_string())
}

/// Where two reports first differ, with the line of each at that place.
fn difference(printed: &[u8], due: &[u8]) -> Option<String> {
    if printed == due {
        return None;
    }
    let at = printed.iter().zip(due).position(|(x, y)| x != y).unwrap_or(printed.len().min(due.len()));
    let start = due[..at].iter().rposition(|&c| c == b'\n').map_or(0, |i| i + 1);
    let (one, other) = (line_at(printed, start), line_at(due, start));
    Some(format!("differ at offset {at}:\n    tray program:   {one}\n    second program: {other}"))
}

/// Compares so many trays of a seed, from one number on: a summary, or the first difference.
pub fn compare(program: &str, trays: u64, seed: u64, first: u64) -> Result<String, String> {
    let code = Code::new();
    let mut tally = Tally::default();
    for number in first..first + trays {
        let tray = tray(&code, seed, number);
        let due = report(&code, &tray);
        let output = run(program, &tray).map_err(|error| format!("{program}: {error}"))?;
        let fault = difference(&output.stdout, due.as_bytes())
            .or_else(|| (!output.status.success()).then(|| format!("are the same, but the tray program ended with {}", output.status)));
        if let Some(fault) = fault {
            let name = env::temp_dir().join(format!("seed-{seed}-number-{number}.tray"));
            fs::write(&name, &tray).map_err(|error| format!("{}: {error}", name.display()))?;
            let this = env::args().next().unwrap_or_default();
            let again = format!("The tray is in {}. To see it again: {this} compare {program} 1 {seed} {number}", name.display());
            return Err(format!("the reports of tray {number} of seed {seed} {fault}\n{again}"));
        }
        tally.add(&due);
    }
    Ok(format!("no difference in {trays} trays of seed {seed} {}", tally.summary()))
}
