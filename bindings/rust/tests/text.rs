//! Tests of text: every letter at every place, every length and every kind, from a text to characters and back; and a text is encoded, damaged, read and shown.

use film::{characters_of, text_of, Refusal, Unfit, LETTERS, PLAIN, TEMPLATE};

/// The letter of each character.
const ALPHABET: &str = " !\"#$%&'()*+,-./0123456789:;<=>?@ABCDEFGHIJKLMNOPQRSTUVWXYZ[\\]^_";

/// The first `char` after those that are all tried: the controls, ASCII, and letters of two bytes with their accents.
const TRIED: char = '\u{250}';

/// Some of the others, of two, three and four bytes, among them some whose lowest byte is that of a capital.
const OTHERS: [char; 8] = ['\u{341}', 'А', '\u{2041}', '€', '\u{ff21}', '\u{10041}', '😀', char::MAX];

/// How many characters there are.
const CHARACTERS: u8 = 64;

/// Longer than a line has room for.
const LONGEST: usize = 60;

fn character_of(letter: char) -> Option<u8> {
    ALPHABET.chars().position(|other| other == letter).map(|v| v as u8)
}

/// A text of so many letters, all `A` but one.
fn with_one(letter: char, place: usize, length: usize) -> String {
    (0..length).map(|i| if i == place { letter } else { 'A' }).collect()
}

/// What a text of letters that all fit has to come to.
fn due(text: &str, kind: u8) -> Result<[u8; 50], Unfit> {
    let mut characters = [0; 50];
    characters[0] = kind;
    for (v, letter) in characters[1..].iter_mut().zip(text.chars()) {
        *v = character_of(letter).unwrap();
    }
    Ok(characters)
}

/// Every letter at every place: last, with others after it, and in a text that is too long besides.
#[test]
fn every_letter() {
    for letter in ('\0'..TRIED).chain(OTHERS) {
        let fits = character_of(letter).is_some();
        for place in 0..LETTERS {
            for length in [place + 1, LETTERS, LONGEST] {
                let text = with_one(letter, place, length);
                let given = characters_of(&text, PLAIN);
                match (fits, length > LETTERS) {
                    (false, _) => assert_eq!(given, Err(Unfit::Character { place, character: letter })),
                    (true, true) => assert_eq!(given, Err(Unfit::Long { length })),
                    (true, false) => assert_eq!(given, due(&text, PLAIN)),
                }
            }
        }
    }
    assert_eq!(ALPHABET.len(), CHARACTERS as usize);
}

/// The first of two letters that do not fit is told; one after the 49th letter is not looked at, and a length counts letters, not bytes.
#[test]
fn first_of_two() {
    assert_eq!(characters_of("ÀÉ", PLAIN), Err(Unfit::Character { place: 0, character: 'À' }));
    assert_eq!(characters_of("CAFé CAFe", PLAIN), Err(Unfit::Character { place: 3, character: 'é' }));
    assert_eq!(characters_of("SMALL letters", PLAIN), Err(Unfit::Character { place: 6, character: 'l' }));
    for (place, later) in (0..LONGEST).flat_map(|place| (place + 1..LONGEST).map(move |later| (place, later))) {
        let text: String = (0..LONGEST).map(|i| if i == place { 'é' } else if i == later { '😀' } else { '_' }).collect();
        let why = if place < LETTERS { Unfit::Character { place, character: 'é' } } else { Unfit::Long { length: LONGEST } };
        assert_eq!(characters_of(&text, PLAIN), Err(why));
    }
}

#[test]
fn every_length() {
    for length in 0..=LONGEST {
        let text = &ALPHABET[..length];
        assert_eq!(characters_of(text, PLAIN), if length > LETTERS { Err(Unfit::Long { length }) } else { due(text, PLAIN) });
    }
    assert_eq!(characters_of(&"😀".repeat(LONGEST), PLAIN), Err(Unfit::Character { place: 0, character: '😀' }));
    assert_eq!(LETTERS, 49);
}

/// A kind over 63 comes before all that can be wrong with a text.
#[test]
fn every_kind() {
    for kind in 0..=u8::MAX {
        let refused = (kind >= CHARACTERS).then_some(Unfit::Kind { kind });
        for text in ["", "Z", &ALPHABET[..LETTERS]] {
            assert_eq!(characters_of(text, kind), refused.map_or(due(text, kind), Err));
        }
        assert_eq!(characters_of("z", kind), Err(refused.unwrap_or(Unfit::Character { place: 0, character: 'z' })));
        assert_eq!(characters_of(ALPHABET, kind), Err(refused.unwrap_or(Unfit::Long { length: ALPHABET.len() })));
    }
    assert_eq!((PLAIN, TEMPLATE), (0, 1));
}

#[test]
fn told_in_words() {
    let words = |text: &str, kind| characters_of(text, kind).unwrap_err().to_string();
    let alphabet = "is no character of film: these are the ASCII characters from space to _, capitals, digits and signs";
    assert_eq!(words("CAFé", PLAIN), format!("'é' at place 3 {alphabet}"));
    assert_eq!(words("A\n", PLAIN), format!("'\\n' at place 1 {alphabet}"));
    assert_eq!(words("A{", PLAIN), format!("'{{' at place 1 {alphabet}"));
    for (small, capital) in ('a'..='z').zip('A'..='Z') {
        assert_eq!(words(&small.to_string(), PLAIN), format!("'{small}' at place 0 {alphabet}; '{capital}' is one"));
    }
    assert_eq!(words(ALPHABET, PLAIN), "a text of 64 characters came, and a line has room for 49");
    assert_eq!(words("A", 64), "kind 64 came, and the highest is 63");
}

/// Characters come to a text, and it to the characters.
fn goes_back(characters: &[u8; 50], text: &str) {
    let note = text_of(characters).unwrap();
    assert_eq!((note.kind, note.as_str()), (characters[0], text));
    assert_eq!(characters_of(text, note.kind), Ok(*characters));
}

/// Every character alone at every place, with blanks before and after it; and 49 times.
#[test]
fn there_and_back() {
    for (v, letter) in (0..CHARACTERS).zip(ALPHABET.chars()) {
        for place in 0..LETTERS {
            let mut characters = [0; 50];
            characters[1 + place] = v;
            goes_back(&characters, format!("{letter:>width$}", width = place + 1).trim_end());
        }
        goes_back(&[v; 50], letter.to_string().repeat(LETTERS).trim_end());
    }
}

/// Of 50 characters and of a whole line; what stands after the text is no part of it. Any other length is refused.
#[test]
fn lengths_of_characters() {
    let mut line = [0; 63];
    film::encode_line(&characters_of("A <B> & 'C'", 7).unwrap(), 4095, &mut line).unwrap();
    let note = text_of(&line).unwrap();
    assert_eq!((note.kind, note.as_str()), (7, "A <B> & 'C'"));
    assert_eq!(text_of(&line[..50]), Ok(note));
    for length in (0..=130).filter(|length| ![50, 63].contains(length)) {
        assert_eq!(text_of(&vec![0; length]), Err(Refusal::InputLength));
        assert_eq!(text_of(&vec![64; length]), Err(Refusal::InputLength));
    }
}

/// A byte over 63, anywhere: as the kind, in the text, and after it in a whole line.
#[test]
fn characters_over() {
    for length in [50, 63] {
        for (a, over) in (0..length).flat_map(|a| (CHARACTERS..=u8::MAX).map(move |over| (a, over))) {
            let mut characters = vec![63; length];
            characters[a] = over;
            assert_eq!(text_of(&characters), Err(Refusal::ValueOver));
        }
    }
}

#[test]
fn printed() {
    let note = text_of(&characters_of("TWO  BLANKS ", TEMPLATE).unwrap()).unwrap();
    assert_eq!(note.to_string(), "TWO  BLANKS");
    assert_eq!(format!("[{note:14}] [{note:>14}]"), "[TWO  BLANKS   ] [   TWO  BLANKS]");
    assert_eq!(format!("{note:?}"), "Note { kind: 1, text: \"TWO  BLANKS\" }");
    assert_ne!(note, text_of(&characters_of("TWO  BLANKS", PLAIN).unwrap()).unwrap());
}

/// A text with a number is encoded, damaged in five characters, read, and shown as it was and for a page.
#[test]
fn from_text_to_text() {
    let note = "GLASS NEGATIVE, <HARBOUR>, 1931";
    let (mut word, mut line) = ([0; 63], [0; 63]);
    film::encode_line(&characters_of(note, PLAIN).unwrap(), 65, &mut word).unwrap();
    for a in [1, 7, 13, 19, 25] {
        word[a] ^= 1;
    }
    let read = film::read_line(&word, 5, None, &mut line).unwrap();
    assert_eq!((read.number, read.distance), (65, 5));
    assert_ne!(text_of(&word).unwrap().as_str(), note);
    assert_eq!(text_of(&line).unwrap().as_str(), note);
    let mut page = [0; film::PANEL];
    assert_eq!(film::panel_text(&line[..50], &mut page).unwrap().trim_end(), "GLASS NEGATIVE, &lt;HARBOUR&gt;, 1931");
}
