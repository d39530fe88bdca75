//! The library's functions as include/film.h declares them, each with a function that calls it with slices.

use crate::{OpenTray, Register, PLACES};

#[repr(C)]
pub struct Element {
    pub answer: u8,
    pub value: u8,
}

#[repr(C)]
pub struct Line {
    pub answer: u8,
    pub distance: u8,
    pub number: u16,
    pub first: u8,
    pub last: u8,
}

#[repr(C)]
pub struct Spool {
    pub places: [Line; PLACES],
    pub answer: u8,
}

#[repr(C)]
pub struct Sheet {
    pub answer: u8,
    pub rounds: u8,
}

#[repr(C)]
pub struct Count {
    pub answer: u8,
    pub count: u8,
}

#[repr(C)]
pub struct Choice {
    pub answer: u8,
    pub scan: u8,
}

/// The kind of a scan that has a ratio; there is one other, of a scan with no spread.
pub const RATIO: u8 = 0;

#[repr(C)]
pub struct Scan {
    pub answer: u8,
    pub kind: u8,
    pub ratio: f64,
    pub dark: f64,
    pub bright: f64,
}

#[repr(C)]
pub struct Clarities {
    pub answer: u8,
    pub ratios: u8,
    pub no_spreads: u8,
    pub refusals: u8,
}

#[repr(C)]
pub struct List {
    pub answer: u8,
    pub count: u8,
}

#[repr(C)]
pub struct Ring {
    pub answer: u8,
    pub start: u8,
    pub distance: u8,
    pub number: u16,
    pub first: u8,
    pub last: u8,
}

#[repr(C)]
pub struct Panel {
    pub answer: u8,
    pub length: u16,
}

#[repr(C)]
pub struct Block {
    pub answer: u8,
    pub distance: u8,
}

#[repr(C)]
pub struct Stepped {
    pub after: Register,
    pub answer: u8,
}

#[repr(C)]
pub struct Checked {
    pub checks: [u8; 11],
    pub answer: u8,
}

#[link(name = "film", kind = "static")]
extern "C" {
    fn film_version() -> u32;
    fn film_sum(u: u8, v: u8) -> Element;
    fn film_product(u: u8, v: u8) -> Element;
    fn film_quotient(u: u8, v: u8) -> Element;
    fn film_encode_line(text: *const u8, text_len: usize, number: u16, out: *mut u8, out_len: usize) -> u8;
    fn film_read_line(word: *const u8, word_len: usize, radius: u8, out: *mut u8, out_len: usize) -> Line;
    fn film_read_line_wanted(word: *const u8, word_len: usize, radius: u8, wanted: u16, out: *mut u8, out_len: usize) -> Line;
    fn film_read_line_paper(word: *const u8, word_len: usize, radius: u8, out: *mut u8, out_len: usize) -> Line;
    fn film_read_line_paper_wanted(word: *const u8, word_len: usize, radius: u8, wanted: u16, out: *mut u8, out_len: usize) -> Line;
    fn film_read_blotted(word: *const u8, word_len: usize, map: *const u8, map_len: usize, out: *mut u8, out_len: usize) -> Line;
    fn film_read_spool(lines: *const u8, lines_len: usize, radius: u8, out: *mut u8, out_len: usize) -> Spool;
    fn film_read_sheet(sheet: *const u8, sheet_len: usize, out: *mut u8, out_len: usize) -> Sheet;
    fn film_encode_sheet(texts: *const u8, texts_len: usize, numbers: *const u16, numbers_len: usize, out: *mut u8, out_len: usize) -> u8;
    fn film_tray_add(tray: *mut OpenTray, line: *const u8, line_len: usize) -> u8;
    fn film_tray_replace(tray: *mut OpenTray, line: u8, address: u8, character: u8) -> u8;
    fn film_tray_drop(tray: *mut OpenTray) -> u8;
    fn film_tray_count(tray: *const OpenTray) -> Count;
    fn film_better_scan(first: *const u8, first_len: usize, second: *const u8, second_len: usize, radius: u8) -> Choice;
    fn film_scan_clarity(cells: *const u8, cells_len: usize, threshold: u8) -> Scan;
    fn film_spool_clarity(cells: *const u8, cells_len: usize, threshold: u8) -> Clarities;
    fn film_list_ring(ring: *const u8, ring_len: usize, radius: u8, out: *mut u8, out_len: usize) -> List;
    fn film_read_ring(ring: *const u8, ring_len: usize, radius: u8, out: *mut u8, out_len: usize) -> Ring;
    fn film_panel_text(text: *const u8, text_len: usize, out: *mut u8, out_len: usize) -> Panel;
    fn film_panel_ring(ring: *const u8, ring_len: usize, radius: u8, out: *mut u8, out_len: usize) -> Panel;
    fn film_encode_block(data: *const u8, data_len: usize, out: *mut u8, out_len: usize) -> u8;
    fn film_read_block(rows: *const u8, rows_len: usize, out: *mut u8, out_len: usize) -> Block;
    fn film_encode_smudge(data: *const u8, data_len: usize, out: *mut u8, out_len: usize) -> u8;
    fn film_read_smudge(rows: *const u8, rows_len: usize, out: *mut u8, out_len: usize) -> Block;
    fn film_step(before: Register, c: u8) -> Stepped;
    fn film_checks(taken: Register) -> Checked;
}

// Each call is safe: the library takes every value of its numbers and of a tray's bytes, which are as many as it takes, and a
// slice is good for its length; an output or a tray that is lent to be written overlaps no other slice.

pub fn version() -> u32 {
    unsafe { film_version() }
}

pub fn sum(u: u8, v: u8) -> Element {
    unsafe { film_sum(u, v) }
}

pub fn product(u: u8, v: u8) -> Element {
    unsafe { film_product(u, v) }
}

pub fn quotient(u: u8, v: u8) -> Element {
    unsafe { film_quotient(u, v) }
}

pub fn encode_line(text: &[u8], number: u16, out: &mut [u8]) -> u8 {
    unsafe { film_encode_line(text.as_ptr(), text.len(), number, out.as_mut_ptr(), out.len()) }
}

pub fn read_line(word: &[u8], radius: u8, out: &mut [u8]) -> Line {
    unsafe { film_read_line(word.as_ptr(), word.len(), radius, out.as_mut_ptr(), out.len()) }
}

pub fn read_line_wanted(word: &[u8], radius: u8, wanted: u16, out: &mut [u8]) -> Line {
    unsafe { film_read_line_wanted(word.as_ptr(), word.len(), radius, wanted, out.as_mut_ptr(), out.len()) }
}

pub fn read_line_paper(word: &[u8], radius: u8, out: &mut [u8]) -> Line {
    unsafe { film_read_line_paper(word.as_ptr(), word.len(), radius, out.as_mut_ptr(), out.len()) }
}

pub fn read_line_paper_wanted(word: &[u8], radius: u8, wanted: u16, out: &mut [u8]) -> Line {
    unsafe { film_read_line_paper_wanted(word.as_ptr(), word.len(), radius, wanted, out.as_mut_ptr(), out.len()) }
}

pub fn read_blotted(word: &[u8], map: &[u8], out: &mut [u8]) -> Line {
    unsafe { film_read_blotted(word.as_ptr(), word.len(), map.as_ptr(), map.len(), out.as_mut_ptr(), out.len()) }
}

pub fn read_spool(lines: &[u8], radius: u8, out: &mut [u8]) -> Spool {
    unsafe { film_read_spool(lines.as_ptr(), lines.len(), radius, out.as_mut_ptr(), out.len()) }
}

pub fn read_sheet(sheet: &[u8], out: &mut [u8]) -> Sheet {
    unsafe { film_read_sheet(sheet.as_ptr(), sheet.len(), out.as_mut_ptr(), out.len()) }
}

pub fn encode_sheet(texts: &[u8], numbers: &[u16], out: &mut [u8]) -> u8 {
    unsafe { film_encode_sheet(texts.as_ptr(), texts.len(), numbers.as_ptr(), numbers.len(), out.as_mut_ptr(), out.len()) }
}

pub fn tray_add(tray: &mut OpenTray, line: &[u8]) -> u8 {
    unsafe { film_tray_add(tray, line.as_ptr(), line.len()) }
}

pub fn tray_replace(tray: &mut OpenTray, line: u8, address: u8, character: u8) -> u8 {
    unsafe { film_tray_replace(tray, line, address, character) }
}

pub fn tray_drop(tray: &mut OpenTray) -> u8 {
    unsafe { film_tray_drop(tray) }
}

pub fn tray_count(tray: &OpenTray) -> Count {
    unsafe { film_tray_count(tray) }
}

pub fn better_scan(first: &[u8], second: &[u8], radius: u8) -> Choice {
    unsafe { film_better_scan(first.as_ptr(), first.len(), second.as_ptr(), second.len(), radius) }
}

pub fn scan_clarity(cells: &[u8], threshold: u8) -> Scan {
    unsafe { film_scan_clarity(cells.as_ptr(), cells.len(), threshold) }
}

pub fn spool_clarity(cells: &[u8], threshold: u8) -> Clarities {
    unsafe { film_spool_clarity(cells.as_ptr(), cells.len(), threshold) }
}

pub fn list_ring(ring: &[u8], radius: u8, out: &mut [u8]) -> List {
    unsafe { film_list_ring(ring.as_ptr(), ring.len(), radius, out.as_mut_ptr(), out.len()) }
}

pub fn read_ring(ring: &[u8], radius: u8, out: &mut [u8]) -> Ring {
    unsafe { film_read_ring(ring.as_ptr(), ring.len(), radius, out.as_mut_ptr(), out.len()) }
}

pub fn panel_text(text: &[u8], out: &mut [u8]) -> Panel {
    unsafe { film_panel_text(text.as_ptr(), text.len(), out.as_mut_ptr(), out.len()) }
}

pub fn panel_ring(ring: &[u8], radius: u8, out: &mut [u8]) -> Panel {
    unsafe { film_panel_ring(ring.as_ptr(), ring.len(), radius, out.as_mut_ptr(), out.len()) }
}

pub fn encode_block(data: &[u8], out: &mut [u8]) -> u8 {
    unsafe { film_encode_block(data.as_ptr(), data.len(), out.as_mut_ptr(), out.len()) }
}

pub fn read_block(rows: &[u8], out: &mut [u8]) -> Block {
    unsafe { film_read_block(rows.as_ptr(), rows.len(), out.as_mut_ptr(), out.len()) }
}

pub fn encode_smudge(data: &[u8], out: &mut [u8]) -> u8 {
    unsafe { film_encode_smudge(data.as_ptr(), data.len(), out.as_mut_ptr(), out.len()) }
}

pub fn read_smudge(rows: &[u8], out: &mut [u8]) -> Block {
    unsafe { film_read_smudge(rows.as_ptr(), rows.len(), out.as_mut_ptr(), out.len()) }
}

pub fn step(before: Register, c: u8) -> Stepped {
    unsafe { film_step(before, c) }
}

pub fn checks(taken: Register) -> Checked {
    unsafe { film_checks(taken) }
}
