//! The C interface of include/film.h, declared once more and not through a binding, so that a binding's mistake cannot hide one of the library.

#[repr(C)]
pub struct Element {
    pub answer: u8,
    pub value: u8,
}

#[repr(C)]
pub struct Line {
    pub answer: u8,
    pub distance: u8,
    pub number: u16,
    pub first: u8,
    pub last: u8,
}

#[repr(C)]
pub struct Spool {
    pub places: [Line; 255],
    pub answer: u8,
}

#[repr(C)]
pub struct Sheet {
    pub answer: u8,
    pub rounds: u8,
}

#[repr(C)]
pub struct TrayLine {
    pub characters: [u8; 63],
    pub sums: [u8; 11],
}

#[repr(C)]
pub struct Tray {
    pub lines: [TrayLine; 64],
    pub held: u8,
    pub count: u8,
}

#[repr(C)]
pub struct Count {
    pub answer: u8,
    pub count: u8,
}

#[repr(C)]
pub struct Choice {
    pub answer: u8,
    pub scan: u8,
}

#[repr(C)]
pub struct Scan {
    pub answer: u8,
    pub kind: u8,
    pub ratio: f64,
    pub dark: f64,
    pub bright: f64,
}

#[repr(C)]
pub struct Clarities {
    pub answer: u8,
    pub ratios: u8,
    pub no_spreads: u8,
    pub refusals: u8,
}

#[repr(C)]
pub struct List {
    pub answer: u8,
    pub count: u8,
}

#[repr(C)]
pub struct Ring {
    pub answer: u8,
    pub start: u8,
    pub distance: u8,
    pub number: u16,
    pub first: u8,
    pub last: u8,
}

#[repr(C)]
pub struct Panel {
    pub answer: u8,
    pub length: u16,
}

#[repr(C)]
pub struct Block {
    pub answer: u8,
    pub distance: u8,
}

#[repr(C)]
pub struct Register {
    pub held: [u8; 11],
    pub count: u8,
}

#[repr(C)]
pub struct Stepped {
    pub after: Register,
    pub answer: u8,
}

#[repr(C)]
pub struct Checked {
    pub checks: [u8; 11],
    pub answer: u8,
}

extern "C" {
    pub fn film_version() -> u32;
    pub fn film_sum(u: u8, v: u8) -> Element;
    pub fn film_product(u: u8, v: u8) -> Element;
    pub fn film_quotient(u: u8, v: u8) -> Element;
    pub fn film_encode_line(text: *const u8, text_len: usize, number: u16, out: *mut u8, out_len: usize) -> u8;
    pub fn film_read_line(word: *const u8, word_len: usize, radius: u8, out: *mut u8, out_len: usize) -> Line;
    pub fn film_read_line_wanted(word: *const u8, word_len: usize, radius: u8, wanted: u16, out: *mut u8, out_len: usize) -> Line;
    pub fn film_read_line_paper(word: *const u8, word_len: usize, radius: u8, out: *mut u8, out_len: usize) -> Line;
    pub fn film_read_line_paper_wanted(word: *const u8, word_len: usize, radius: u8, wanted: u16, out: *mut u8, out_len: usize) -> Line;
    pub fn film_read_spool(lines: *const u8, lines_len: usize, radius: u8, out: *mut u8, out_len: usize) -> Spool;
    pub fn film_read_sheet(sheet: *const u8, sheet_len: usize, out: *mut u8, out_len: usize) -> Sheet;
    pub fn film_encode_sheet(texts: *const u8, texts_len: usize, numbers: *const u16, numbers_len: usize, out: *mut u8, out_len: usize) -> u8;
    pub fn film_tray_add(tray: *mut Tray, line: *const u8, line_len: usize) -> u8;
    pub fn film_tray_replace(tray: *mut Tray, line: u8, address: u8, character: u8) -> u8;
    pub fn film_tray_drop(tray: *mut Tray) -> u8;
    pub fn film_tray_count(tray: *const Tray) -> Count;
    pub fn film_read_blotted(word: *const u8, word_len: usize, map: *const u8, map_len: usize, out: *mut u8, out_len: usize) -> Line;
    pub fn film_better_scan(first: *const u8, first_len: usize, second: *const u8, second_len: usize, radius: u8) -> Choice;
    pub fn film_scan_clarity(cells: *const u8, cells_len: usize, threshold: u8) -> Scan;
    pub fn film_spool_clarity(cells: *const u8, cells_len: usize, threshold: u8) -> Clarities;
    pub fn film_list_ring(ring: *const u8, ring_len: usize, radius: u8, out: *mut u8, out_len: usize) -> List;
    pub fn film_read_ring(ring: *const u8, ring_len: usize, radius: u8, out: *mut u8, out_len: usize) -> Ring;
    pub fn film_panel_text(text: *const u8, text_len: usize, out: *mut u8, out_len: usize) -> Panel;
    pub fn film_panel_ring(ring: *const u8, ring_len: usize, radius: u8, out: *mut u8, out_len: usize) -> Panel;
    pub fn film_encode_block(data: *const u8, data_len: usize, out: *mut u8, out_len: usize) -> u8;
    pub fn film_read_block(rows: *const u8, rows_len: usize, out: *mut u8, out_len: usize) -> Block;
    pub fn film_encode_smudge(data: *const u8, data_len: usize, out: *mut u8, out_len: usize) -> u8;
    pub fn film_read_smudge(rows: *const u8, rows_len: usize, out: *mut u8, out_len: usize) -> Block;
    pub fn film_step(before: Register, c: u8) -> Stepped;
    pub fn film_checks(taken: Register) -> Checked;
}
