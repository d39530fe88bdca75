//! From a text to the 50 text characters of a line and back: plain Rust beside the proved library, tested and not proved.

use crate::{Refusal, LINE};
use core::fmt;

/// The kind of plain text.
pub const PLAIN: u8 = 0;

/// The kind of a template, which [`panel_text`](crate::panel_text) refuses. The kinds above it are unknown.
pub const TEMPLATE: u8 = 1;

/// The most characters of a text: those of a line's text but the first, its kind.
pub const LETTERS: usize = 49;

/// How many text characters a line has.
const TEXT: usize = 1 + LETTERS;

/// The highest character, and the highest kind.
const HIGHEST: u8 = 63;

/// What character 0 stands for.
const SPACE: u8 = b' ';

/// Why a text has no characters.
#[derive(Clone, Copy, Debug, PartialEq, Eq, Hash)]
pub enum Unfit {
    /// It holds something that no character stands for.
    Character {
        /// Where: how many characters of the text stand before it.
        place: usize,
        /// What it is.
        character: char,
    },
    /// It is longer than [`LETTERS`].
    Long {
        /// How many characters it has.
        length: usize,
    },
    /// The kind is over 63.
    Kind {
        /// The kind.
        kind: u8,
    },
}

impl fmt::Display for Unfit {
    fn fmt(&self, f: &mut fmt::Formatter<'_>) -> fmt::Result {
        match self {
            Unfit::Character { place, character } => {
                write!(f, "{character:?} at place {place} is no character of film: ")?;
                write!(f, "these are the ASCII characters from space to _, capitals, digits and signs")?;
                if character.is_ascii_lowercase() {
                    write!(f, "; {:?} is one", character.to_ascii_uppercase())?;
                }
                Ok(())
            }
            Unfit::Long { length } => write!(f, "a text of {length} characters came, and a line has room for {LETTERS}"),
            Unfit::Kind { kind } => write!(f, "kind {kind} came, and the highest is {HIGHEST}"),
        }
    }
}

impl core::error::Error for Unfit {}

/// The 50 text characters of a line, from a kind and a text: the kind first, and then for each letter of the text the character `v` that stands for the ASCII
/// byte 32 + `v`. So a text has the letters from space to `_`: capitals, digits and signs. A short one is filled with blanks.
///
/// A kind over 63 is refused first, then the first letter of the first [`LETTERS`] that no character stands for, then a text that is longer.
///
/// ```
/// use film::{characters_of, Unfit, PLAIN};
///
/// let mut line = [0; 63];
/// film::encode_line(&characters_of("GLASS NEGATIVE, 1931", PLAIN)?, 65, &mut line)?;
/// assert_eq!(film::text_of(&line)?.as_str(), "GLASS NEGATIVE, 1931");
///
/// assert_eq!(characters_of("CAFÉ", PLAIN), Err(Unfit::Character { place: 3, character: 'É' }));
/// assert_eq!(characters_of(&"-".repeat(50), PLAIN), Err(Unfit::Long { length: 50 }));
/// assert_eq!(characters_of("GLASS NEGATIVE", 64), Err(Unfit::Kind { kind: 64 }));
/// # Ok::<(), Box<dyn std::error::Error>>(())
/// ```
pub fn characters_of(text: &str, kind: u8) -> Result<[u8; TEXT], Unfit> {
    if kind > HIGHEST {
        return Err(Unfit::Kind { kind });
    }
    let mut characters = [0; TEXT];
    characters[0] = kind;
    for (place, character) in text.chars().enumerate() {
        if place == LETTERS {
            return Err(Unfit::Long { length: text.chars().count() });
        }
        let ' '..='_' = character else {
            return Err(Unfit::Character { place, character });
        };
        characters[1 + place] = character as u8 - SPACE;
    }
    Ok(characters)
}

/// What a line says: its kind and its text.
#[derive(Clone, Copy, PartialEq, Eq, Hash)]
pub struct Note {
    /// The kind: [`PLAIN`], [`TEMPLATE`], or one that is unknown.
    pub kind: u8,
    /// The letters, blanks at the end too.
    letters: [u8; LETTERS],
}

impl Note {
    /// The text, without the blanks at the end.
    ///
    /// It may hold `&`, `<`, `>`, `"` and `'`, and so do harm on a page: what makes it harmless is [`panel_text`](crate::panel_text).
    pub fn as_str(&self) -> &str {
        core::str::from_utf8(&self.letters).expect("each letter is ASCII").trim_end_matches(' ')
    }
}

impl fmt::Display for Note {
    fn fmt(&self, f: &mut fmt::Formatter<'_>) -> fmt::Result {
        f.pad(self.as_str())
    }
}

impl fmt::Debug for Note {
    fn fmt(&self, f: &mut fmt::Formatter<'_>) -> fmt::Result {
        f.debug_struct("Note").field("kind", &self.kind).field("text", &self.as_str()).finish()
    }
}

/// What a line says, from its 50 text characters or from all of its 63: [`characters_of`] taken back. Refused are another length
/// ([`Refusal::InputLength`]) and then a character over 63, an address after the text's too ([`Refusal::ValueOver`]).
///
/// ```
/// let note = film::text_of(&film::characters_of("\"AT&T\" <B>", film::TEMPLATE)?)?;
/// assert_eq!((note.kind, note.as_str()), (film::TEMPLATE, "\"AT&T\" <B>"));
/// assert_eq!(format!("{note:12}|"), "\"AT&T\" <B>  |");
///
/// assert_eq!(film::text_of(&[0; 49]), Err(film::Refusal::InputLength));
/// assert_eq!(film::text_of(&[64; 50]), Err(film::Refusal::ValueOver));
/// # Ok::<(), Box<dyn std::error::Error>>(())
/// ```
pub fn text_of(characters: &[u8]) -> Result<Note, Refusal> {
    if characters.len() != TEXT && characters.len() != LINE {
        return Err(Refusal::InputLength);
    }
    if characters.iter().any(|&character| character > HIGHEST) {
        return Err(Refusal::ValueOver);
    }
    let letters = core::array::from_fn(|i| SPACE + characters[1 + i]);
    Ok(Note { kind: characters[0], letters })
}
