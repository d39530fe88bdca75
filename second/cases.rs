//! The stored cases: every call's cases in one format, and the line that is printed for each.
//!
//! crates/cases/src/main.rt says what the format is. A file of second/cases/ has the cases of one kind. A new call is a constant here, and a file there or
//! a function in one of them.

mod adding;
mod block;
mod blots;
mod changes;
mod clarity;
mod encoder;
mod even;
mod false_starts;
mod field;
mod line;
mod open_trays;
mod panel;
mod paper;
mod ring;
mod scans;
mod sheets;
mod smudges;
mod spool;
mod twice;
mod words;

use crate::code::Code;

/// The byte that stands for a call, and its name.
#[derive(Clone, Copy)]
struct Call(u8, &'static str);

const SUM: Call = Call(1, "sum");
const PRODUCT: Call = Call(2, "product");
const QUOTIENT: Call = Call(3, "quotient");
const ENCODE_LINE: Call = Call(4, "encode_line");
const STEP: Call = Call(5, "step");
const CHECKS: Call = Call(6, "checks");
const READ_LINE: Call = Call(7, "read_line");
const READ_LINE_WANTED: Call = Call(8, "read_line_wanted");
const LIST_RING: Call = Call(9, "list_ring");
const READ_RING: Call = Call(10, "read_ring");
const ENCODE_BLOCK: Call = Call(11, "encode_block");
const READ_BLOCK: Call = Call(12, "read_block");
const BETTER_SCAN: Call = Call(13, "better_scan");
const PANEL_TEXT: Call = Call(14, "panel_text");
const PANEL_RING: Call = Call(15, "panel_ring");
const READ_SPOOL: Call = Call(16, "read_spool");
const READ_BLOTTED: Call = Call(17, "read_blotted");
const READ_LINE_PAPER: Call = Call(18, "read_line_paper");
const READ_LINE_PAPER_WANTED: Call = Call(19, "read_line_paper_wanted");
const READ_SHEET: Call = Call(20, "read_sheet");
const ENCODE_SHEET: Call = Call(21, "encode_sheet");
const OPEN_TRAY: Call = Call(22, "open_tray");
const ENCODE_SMUDGE: Call = Call(23, "encode_smudge");
const READ_SMUDGE: Call = Call(24, "read_smudge");
const SCAN_CLARITY: Call = Call(25, "scan_clarity");
const SPOOL_CLARITY: Call = Call(26, "spool_clarity");

/// What is handed over: the head's fields, and the input.
struct Case<'a> {
    call: Call,
    /// A radius, an operand, a character, a byte of a tray or a threshold.
    small: u8,
    /// The number of a line, a wanted one, a register's count, or a length: of the first of two scans, of a word before its map, of texts before numbers, of
    /// lines before steps or of the part of a spool that stands in it twice.
    number: u16,
    /// The length of the output that is lent.
    room: usize,
    input: &'a [u8],
}

impl Case<'_> {
    /// A case with no number and no output.
    fn new(call: Call, input: &[u8]) -> Case<'_> {
        Case { call, small: 0, number: 0, room: 0, input }
    }
}

/// A length as the format has it.
fn two_bytes(length: usize) -> [u8; 2] {
    u16::try_from(length).expect("a length of two bytes").to_be_bytes()
}

/// The cases so far.
struct Cases {
    code: Code,
    count: usize,
    stdin: Vec<u8>,
    stdout: String,
}

impl Cases {
    /// A case, and what is printed after the call's name.
    fn add_line(&mut self, case: Case, printed: &str) {
        let Call(byte, name) = case.call;
        self.count += 1;
        self.stdin.extend([byte, case.small]);
        self.stdin.extend(case.number.to_be_bytes());
        self.stdin.extend(two_bytes(case.room));
        self.stdin.extend(two_bytes(case.input.len()));
        self.stdin.extend(case.input);
        self.stdout.push_str(&format!("{name}{printed}\n"));
    }

    /// A case, the numbers of its answer, and the bytes that it gives.
    fn add(&mut self, case: Case, numbers: &[usize], bytes: &[u8]) {
        let numbers: String = numbers.iter().map(|n| format!(" {n}")).collect();
        let digits: String = bytes.iter().map(|x| format!("{x:02x}")).collect();
        self.add_line(case, &format!("{numbers} [{digits}]"));
    }
}

/// What the program reads, and what it has to write.
pub fn stored() -> (Vec<u8>, String) {
    let mut cases = Cases { code: Code::new(), count: 0, stdin: Vec::new(), stdout: String::new() };
    let sections = [
        field::add_all,
        encoder::add_all,
        line::add_all,
        ring::add_all,
        block::add_all,
        adding::add_all,
        false_starts::add_all,
        even::add_all,
        twice::add_all,
        changes::add_all,
        scans::add_all,
        panel::add_all,
        spool::add_all,
        blots::add_all,
        paper::add_all,
        sheets::add_all,
        open_trays::add_all,
        smudges::add_all,
        clarity::add_all,
    ];
    for add_all in sections {
        add_all(&mut cases);
    }
    (cases.stdin, cases.stdout)
}
