//! Why a call was refused: the refusals by name, with their numbers. tools/tables writes the cases from refusals.txt.

use core::fmt;

/// Why a call was refused. Later versions may have more cases.
#[derive(Clone, Copy, Debug, PartialEq, Eq, Hash)]
#[non_exhaustive]
pub enum Refusal {
    /// A line, ring or map of blots is not 63 long, a text is not 50 long, a sheet is not 3,969 long, its texts are not 2,600 long or its numbers not 52, a spool's length is no multiple of 63 or is over 16,065, a scan of brightnesses is not 378 long, or the length of a spool of them is no multiple of 378 or is over 96,390.
    InputLength,
    /// A character (a register's too) or field operand is over 63, a data row over 127, or a byte of a map over 1.
    ValueOver,
    /// Radius over 5.
    RadiusOver,
    /// Number over 4095.
    NumberOver,
    /// Output length differs from the one stated, or is under 294 for panel text.
    OutputLength,
    /// No line within the radius; for ring reading, an empty list; with blots, no such line.
    NoLine,
    /// The line found has another number than the wanted one.
    OtherNumber,
    /// Block rows outside 2..64, or data rows outside 1..63; with a smudge, not eight rows, or not seven data rows.
    RowCount,
    /// No proper block within one bit; with a smudge, none that differs inside one window of two by two cells alone.
    NoBlock,
    /// Ring reading: two or more entries in the list.
    ManyStarts,
    /// A step is asked of a register that holds 52 characters, or anything of one whose count is above 52.
    RegisterFull,
    /// Register holds fewer than 52.
    RegisterShort,
    /// Quotient by zero.
    QuotientByZero,
    /// Panel text: the kind is 1, a template.
    Template,
    /// Panel text: the kind is over 1.
    UnknownKind,
    /// Sheet reading: what the rounds leave is no proper sheet; it is written all the same, and the rounds are told.
    ImproperSheet,
    /// An open tray claims over 64 lines or a count above them; adding, where 64 are held; replacing and dropping, last, where the line has a character or sum over 63, or a sum not 0 at count 0.
    TrayUnfit,
    /// Replacing: the line asked for is not there; dropping: no line is left.
    LineNotHeld,
    /// An address over 62.
    AddressOver,
    /// A scan of brightnesses in which no cell is dark, or none is bright.
    OneSided,
    /// A number that this crate does not know: the library that is linked is a later one.
    Unknown(u8),
}

impl Refusal {
    /// The refusals that this crate knows, in the order of their numbers.
    pub const ALL: &'static [Refusal] = &[
        Refusal::InputLength,
        Refusal::ValueOver,
        Refusal::RadiusOver,
        Refusal::NumberOver,
        Refusal::OutputLength,
        Refusal::NoLine,
        Refusal::OtherNumber,
        Refusal::RowCount,
        Refusal::NoBlock,
        Refusal::ManyStarts,
        Refusal::RegisterFull,
        Refusal::RegisterShort,
        Refusal::QuotientByZero,
        Refusal::Template,
        Refusal::UnknownKind,
        Refusal::ImproperSheet,
        Refusal::TrayUnfit,
        Refusal::LineNotHeld,
        Refusal::AddressOver,
        Refusal::OneSided,
    ];

    /// The paper's number.
    pub fn number(self) -> u8 {
        match self {
            Refusal::InputLength => 1,
            Refusal::ValueOver => 2,
            Refusal::RadiusOver => 3,
            Refusal::NumberOver => 4,
            Refusal::OutputLength => 5,
            Refusal::NoLine => 6,
            Refusal::OtherNumber => 7,
            Refusal::RowCount => 8,
            Refusal::NoBlock => 9,
            Refusal::ManyStarts => 10,
            Refusal::RegisterFull => 11,
            Refusal::RegisterShort => 12,
            Refusal::QuotientByZero => 13,
            Refusal::Template => 14,
            Refusal::UnknownKind => 15,
            Refusal::ImproperSheet => 16,
            Refusal::TrayUnfit => 17,
            Refusal::LineNotHeld => 18,
            Refusal::AddressOver => 19,
            Refusal::OneSided => 20,
            Refusal::Unknown(number) => number,
        }
    }

    /// The refusal that an answer of the library tells; none, where the answer is 0.
    pub fn of_answer(answer: u8) -> Option<Refusal> {
        if answer == 0 {
            return None;
        }
        let known = Refusal::ALL.iter().copied().find(|refusal| refusal.number() == answer);
        Some(known.unwrap_or(Refusal::Unknown(answer)))
    }
}

impl fmt::Display for Refusal {
    fn fmt(&self, f: &mut fmt::Formatter<'_>) -> fmt::Result {
        let why = match self {
            Refusal::InputLength => "a line, ring or map of blots is not 63 long, a text is not 50 long, a sheet is not 3,969 long, its texts are not 2,600 long or its numbers not 52, a spool's length is no multiple of 63 or is over 16,065, a scan of brightnesses is not 378 long, or the length of a spool of them is no multiple of 378 or is over 96,390",
            Refusal::ValueOver => "a character (a register's too) or field operand is over 63, a data row over 127, or a byte of a map over 1",
            Refusal::RadiusOver => "radius over 5",
            Refusal::NumberOver => "number over 4095",
            Refusal::OutputLength => "output length differs from the one stated, or is under 294 for panel text",
            Refusal::NoLine => "no line within the radius; for ring reading, an empty list; with blots, no such line",
            Refusal::OtherNumber => "the line found has another number than the wanted one",
            Refusal::RowCount => "block rows outside 2..64, or data rows outside 1..63; with a smudge, not eight rows, or not seven data rows",
            Refusal::NoBlock => "no proper block within one bit; with a smudge, none that differs inside one window of two by two cells alone",
            Refusal::ManyStarts => "ring reading: two or more entries in the list",
            Refusal::RegisterFull => "a step is asked of a register that holds 52 characters, or anything of one whose count is above 52",
            Refusal::RegisterShort => "register holds fewer than 52",
            Refusal::QuotientByZero => "quotient by zero",
            Refusal::Template => "panel text: the kind is 1, a template",
            Refusal::UnknownKind => "panel text: the kind is over 1",
            Refusal::ImproperSheet => "sheet reading: what the rounds leave is no proper sheet; it is written all the same, and the rounds are told",
            Refusal::TrayUnfit => "an open tray claims over 64 lines or a count above them; adding, where 64 are held; replacing and dropping, last, where the line has a character or sum over 63, or a sum not 0 at count 0",
            Refusal::LineNotHeld => "replacing: the line asked for is not there; dropping: no line is left",
            Refusal::AddressOver => "an address over 62",
            Refusal::OneSided => "a scan of brightnesses in which no cell is dark, or none is bright",
            Refusal::Unknown(_) => "a reason that this crate does not know",
        };
        write!(f, "refused ({}): {why}", self.number())
    }
}

impl core::error::Error for Refusal {}
