//! Cases of blocks: every number of rows, every single bit wrong, many bits wrong, and every value of a data row.

use super::{Case, Cases, ENCODE_BLOCK, READ_BLOCK};
use crate::block::{self, flipped, no_data, places, random_block, BENCH_ROWS, BENCH_ROW_COUNTS};
use crate::random::Random;

fn read_into(cases: &mut Cases, rows: &[u8], room: usize) {
    let (answer, distance, output) = block::read(rows, room);
    cases.add(Case { room, ..Case::new(READ_BLOCK, rows) }, &[answer as usize, distance as usize], &output);
}

fn encode_into(cases: &mut Cases, data: &[u8], room: usize) {
    let (answer, _, output) = block::encode(data, room);
    cases.add(Case { room, ..Case::new(ENCODE_BLOCK, data) }, &[answer as usize], &output);
}

pub fn read(cases: &mut Cases, rows: &[u8]) {
    read_into(cases, rows, rows.len());
}

pub fn encode(cases: &mut Cases, data: &[u8]) {
    encode_into(cases, data, data.len() + 1);
}

pub fn add_all(cases: &mut Cases) {
    let random = &mut Random::new(8);

    // the bench sheet's rows
    for rows in BENCH_ROWS {
        read(cases, &rows);
    }
    for rows in BENCH_ROW_COUNTS {
        read(cases, &no_data(rows));
    }

    // every number of rows: proper, with one wrong bit, and encoded
    for rows in 0..=66 {
        let block = if rows < 2 { random.bytes(rows, 256) } else { random_block(random, rows) };
        read(cases, &block);
        if rows > 0 {
            read(cases, &flipped(&block, &[(random.below(rows), random.below(8))]));
        }
        encode(cases, &random.bytes(rows, 128));
    }

    // other lengths of the output, with rows that would be refused for themselves too
    for rows in [0, 1, 2, 3, 64, 65] {
        for room in [0, 1, 2, 3, 4, 63, 64, 65, 66, 255] {
            read_into(cases, &no_data(rows), room);
            encode_into(cases, &vec![0; rows], room);
        }
    }
    for room in 0..=4 {
        read_into(cases, &[3, 0], room);
        encode_into(cases, &[3, 200], room);
    }

    // every single bit wrong
    for rows in [2, 3, 8, 16] {
        let block = random_block(random, rows);
        for place in places(rows) {
            read(cases, &flipped(&block, &[place]));
        }
    }
    let block = random_block(random, 64);
    for row in 0..64 {
        read(cases, &flipped(&block, &[(row, row % 8)]));
    }
    for column in 0..8 {
        read(cases, &flipped(&block, &[(63, column)]));
    }

    // every two bits wrong
    let block = random_block(random, 3);
    let all = places(3);
    for (i, &first) in all.iter().enumerate() {
        for &second in &all[i + 1..] {
            read(cases, &flipped(&block, &[first, second]));
        }
    }

    // one wrong row and three wrong columns, three wrong rows and one wrong column
    let block = random_block(random, 4);
    for row in 0..4 {
        for a in 0..8 {
            for b in a + 1..8 {
                for c in b + 1..8 {
                    read(cases, &flipped(&block, &[(row, a), (row, b), (row, c)]));
                }
            }
        }
    }
    let block = random_block(random, 5);
    for column in 0..8 {
        for a in 0..5 {
            for b in a + 1..5 {
                for c in b + 1..5 {
                    read(cases, &flipped(&block, &[(a, column), (b, column), (c, column)]));
                }
            }
        }
    }

    // every value of a data row, alone and among others
    for row in 0..=255 {
        encode(cases, &[row]);
    }
    for place in 0..5 {
        for row in [126, 127, 128, 129, 255] {
            let mut data = random.bytes(5, 128);
            data[place] = row;
            encode(cases, &data);
        }
    }

    // random rows, and random blocks with some random bits wrong
    for _ in 0..300 {
        let rows = 2 + random.below(3);
        let rows = random.bytes(rows, 256);
        read(cases, &rows);
    }
    for i in 0..200 {
        let rows = 2 + random.below(63);
        let block = random_block(random, rows);
        let wrong: Vec<(usize, usize)> = (0..i % 5).map(|_| (random.below(rows), random.below(8))).collect();
        read(cases, &flipped(&block, &wrong));
    }
    for _ in 0..100 {
        let rows = 1 + random.below(63);
        encode(cases, &random.bytes(rows, 129));
    }
}
