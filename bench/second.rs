//! The second program's own functions under the names that bench/bench.h gives them, as a static library.

#![allow(dead_code)]

#[path = "../second/block.rs"]
mod block;
#[path = "../second/blots.rs"]
mod blots;
#[path = "../second/clarity.rs"]
mod clarity;
#[path = "../second/code.rs"]
mod code;
#[path = "../second/encoder.rs"]
mod encoder;
#[path = "../second/field.rs"]
mod field;
#[path = "../second/interpolation.rs"]
mod interpolation;
#[path = "../second/line.rs"]
mod line;
#[path = "../second/open_trays.rs"]
mod open_trays;
#[path = "../second/panel.rs"]
mod panel;
#[path = "../second/random.rs"]
mod random;
#[path = "../second/refusals.rs"]
mod refusals;
#[path = "../second/ring.rs"]
mod ring;
#[path = "../second/scans.rs"]
mod scans;
#[path = "../second/sheets.rs"]
mod sheets;
#[path = "../second/smudge.rs"]
mod smudge;
#[path = "../second/spool.rs"]
mod spool;

use open_trays::Operation;
use std::slice::from_raw_parts;
use std::sync::OnceLock;

#[repr(C)]
pub struct Reply {
    answer: u8,
    distance: u8,
    first: u8,
    last: u8,
    length: u16,
    number: u16,
    out: [u8; spool::LONGEST],
    places: [Place; spool::PLACES],
}

/// What is told of one line of a spool.
#[repr(C)]
pub struct Place {
    answer: u8,
    distance: u8,
    number: u16,
    first: u8,
    last: u8,
}

impl Reply {
    fn set(&mut self, answer: u8, distance: usize, number: u16, out: &[u8]) {
        (self.answer, self.distance, self.number, self.length) = (answer, distance as u8, number, 0);
        if answer == 0 {
            self.length = out.len() as u16;
            self.out[..out.len()].copy_from_slice(out);
        }
    }

    fn set_line(&mut self, (numbers, out): line::Answer) {
        self.set(numbers[0] as u8, numbers[2], numbers[1] as u16, &out);
        (self.first, self.last) = (numbers[3] as u8, numbers[4] as u8);
    }
}

/// The edits of an open tray: a line, an address and a character each.
const EDITS: usize = 64;
type Edit = [u8; 3];

/// What an edit asks of a tray.
type Step = fn(&[u8], Edit) -> Option<Operation>;

/// The tables that the second program makes once.
fn code() -> &'static code::Code {
    static CODE: OnceLock<code::Code> = OnceLock::new();
    CODE.get_or_init(code::Code::new)
}

#[no_mangle]
pub unsafe extern "C" fn second_encode(input: *const u8, _: u8, r: &mut Reply) {
    r.set(0, 0, 0, &code().line(from_raw_parts(input, 52)));
}

#[no_mangle]
pub unsafe extern "C" fn second_read(input: *const u8, radius: u8, r: &mut Reply) {
    r.set_line(line::read(code(), from_raw_parts(input, 63), radius, None, 63));
}

#[no_mangle]
pub unsafe extern "C" fn second_blotted(input: *const u8, _: u8, r: &mut Reply) {
    r.set_line(blots::read(code(), from_raw_parts(input, 63), from_raw_parts(input.add(63), 63), 63));
}

#[no_mangle]
pub unsafe extern "C" fn second_better(input: *const u8, radius: u8, r: &mut Reply) {
    let choice = scans::better(code(), from_raw_parts(input, 63), from_raw_parts(input.add(63), 63), radius);
    r.set(choice[0] as u8, 0, choice[1] as u16, &[]);
}

#[no_mangle]
pub unsafe extern "C" fn second_list(input: *const u8, radius: u8, r: &mut Reply) {
    let (numbers, out) = ring::list(code(), from_raw_parts(input, 63), radius, 126);
    r.set(numbers[0] as u8, 0, 0, &out[..numbers[1] as usize]);
}

#[no_mangle]
pub unsafe extern "C" fn second_products(input: *const u8, _: u8, r: &mut Reply) {
    let products: Vec<u8> = from_raw_parts(input, 63).windows(2).map(|two| field::product(two[0], two[1])).collect();
    r.set(0, 0, 0, &products);
}

#[no_mangle]
pub unsafe extern "C" fn second_quotients(input: *const u8, _: u8, r: &mut Reply) {
    let quotients: Vec<Option<u8>> = from_raw_parts(input, 63).windows(2).map(|two| field::quotient(two[0], two[1])).collect();
    let refused = quotients.iter().filter(|quotient| quotient.is_none()).count();
    r.set(0, refused, 0, &quotients.iter().map(|quotient| quotient.unwrap_or(0)).collect::<Vec<u8>>());
}

#[no_mangle]
pub unsafe extern "C" fn second_panel_text(input: *const u8, _: u8, r: &mut Reply) {
    let (numbers, out) = panel::text(from_raw_parts(input, panel::TEXT), panel::ROOM);
    r.set(numbers[0] as u8, 0, 0, &out[..numbers[1]]);
}

#[no_mangle]
pub unsafe extern "C" fn second_panel_ring(input: *const u8, radius: u8, r: &mut Reply) {
    let (numbers, out) = panel::ring(code(), from_raw_parts(input, 63), radius, panel::ROOM);
    r.set(numbers[0] as u8, 0, 0, &out[..numbers[1]]);
}

#[no_mangle]
pub unsafe extern "C" fn second_spool(input: *const u8, radius: u8, r: &mut Reply) {
    let (numbers, out) = spool::read(code(), from_raw_parts(input, spool::LONGEST), radius, &r.out);
    r.set(numbers[0] as u8, 0, 0, &out);
    for (place, numbers) in r.places.iter_mut().zip(numbers[1..].chunks(spool::FIELDS)) {
        let byte = |i: usize| numbers[i] as u8;
        *place = Place { answer: byte(0), distance: byte(2), number: numbers[1] as u16, first: byte(3), last: byte(4) };
    }
}

#[no_mangle]
pub unsafe extern "C" fn second_sheet(input: *const u8, _: u8, r: &mut Reply) {
    let (numbers, out) = sheets::read(code(), from_raw_parts(input, sheets::SHEET), &[0; sheets::SHEET]);
    r.set(numbers[0] as u8, 0, numbers[1] as u16, &out);
}

/// Makes the edits of an open tray in two steps each, as bench/bench.h has them: `there` and `back` say what is asked of the tray before its count.
unsafe fn edits(input: *const u8, r: &mut Reply, there: Step, back: Step) {
    let (mut tray, mut counts) = (from_raw_parts(input, open_trays::TRAY).to_vec(), Vec::new());
    for &[line, address, character] in from_raw_parts(input.add(open_trays::TRAY) as *const Edit, EDITS) {
        let old = open_trays::room(&tray, line as usize)[address as usize];
        for (step, character) in [(there, character), (back, old)] {
            if let Some(operation) = step(&tray, [line, address, character]) {
                tray = open_trays::operate(code(), &tray, &operation).1;
            }
            counts.push(open_trays::operate(code(), &tray, &Operation::Count).0[1] as u8);
        }
    }
    r.set(0, 0, 0, &counts);
}

fn replace(_: &[u8], [line, address, character]: Edit) -> Option<Operation> {
    Some(Operation::Replace { line, address, character })
}

#[no_mangle]
pub unsafe extern "C" fn second_tray_replace(input: *const u8, _: u8, r: &mut Reply) {
    edits(input, r, replace, replace);
}

#[no_mangle]
pub unsafe extern "C" fn second_tray_drop_add(input: *const u8, _: u8, r: &mut Reply) {
    let add = |tray: &[u8], [line, ..]: Edit| Some(Operation::Add(open_trays::room(tray, line as usize)[..open_trays::LINE].to_vec()));
    edits(input, r, |_, _| Some(Operation::Drop), add);
}

#[no_mangle]
pub unsafe extern "C" fn second_tray_count(input: *const u8, _: u8, r: &mut Reply) {
    edits(input, r, |_, _| None, |_, _| None);
}

#[no_mangle]
pub unsafe extern "C" fn second_block(input: *const u8, _: u8, r: &mut Reply) {
    let (answer, distance, out) = block::read(from_raw_parts(input, 9), 9);
    r.set(answer, distance as usize, 0, &out);
}

#[no_mangle]
pub unsafe extern "C" fn second_smudge(input: *const u8, _: u8, r: &mut Reply) {
    let (numbers, out) = smudge::read(from_raw_parts(input, smudge::SIDE), &[0; smudge::SIDE]);
    r.set(numbers[0] as u8, numbers[1], 0, &out);
}

#[no_mangle]
pub unsafe extern "C" fn second_encode_smudge(input: *const u8, _: u8, r: &mut Reply) {
    let (numbers, out) = smudge::encode(from_raw_parts(input, smudge::DATA), &[0; smudge::SIDE]);
    r.set(numbers[0] as u8, 0, 0, &out);
}

#[no_mangle]
pub unsafe extern "C" fn second_clarity(input: *const u8, threshold: u8, r: &mut Reply) {
    let (numbers, doubles) = clarity::scan(from_raw_parts(input, clarity::CELLS), threshold);
    r.set(numbers[0] as u8, 0, numbers[1] as u16, &doubles.map(u64::to_ne_bytes).concat());
}

#[no_mangle]
pub unsafe extern "C" fn second_clarity_spool(input: *const u8, threshold: u8, r: &mut Reply) {
    let numbers = clarity::spool(from_raw_parts(input, clarity::LONGEST), threshold);
    r.set(numbers[0] as u8, 0, 0, &numbers[1..].iter().map(|&count| count as u8).collect::<Vec<u8>>());
}
