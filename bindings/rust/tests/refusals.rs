//! Tests of the crate, but for spools, sheets, open trays, the clarity of scans, smudges, blots and the method of 1968: what each function gives, every refusal
//! by its number, and outputs that stay as they were.

mod field;

use field::of_polynomials;
use film::{Refusal, Register};

/// The line of zero text and number 0.
fn z() -> [u8; 63] {
    let mut line = [0; 63];
    film::encode_line(&[0; 50], 0, &mut line).unwrap();
    line
}

fn turned(line: [u8; 63], start: usize) -> [u8; 63] {
    core::array::from_fn(|place| line[(place + 63 - start) % 63])
}

/// Runs a call with an output of a length, and sees that the output is left alone and that the refusal has this number.
fn refused<T: core::fmt::Debug>(number: u8, room: usize, call: impl FnOnce(&mut [u8]) -> Result<T, Refusal>) {
    let mut output = vec![170; room];
    assert_eq!(call(&mut output).unwrap_err().number(), number);
    assert_eq!(output, vec![170; room]);
}

#[test]
fn the_field() {
    assert_eq!(film::sum(5, 3), Ok(6));
    assert_eq!(film::product(32, 2), Ok(3));
    assert_eq!(film::product(33, 2), Ok(1));
    assert_eq!(film::quotient(1, 2), Ok(33));
    assert_eq!(film::quotient(0, 5), Ok(0));
    assert_eq!(film::quotient(5, 0), Err(Refusal::QuotientByZero));
    assert_eq!(film::quotient(0, 0), Err(Refusal::QuotientByZero));
    assert_eq!(film::quotient(70, 0), Err(Refusal::ValueOver));
    for call in [film::sum, film::product, film::quotient] {
        assert_eq!(call(64, 0), Err(Refusal::ValueOver));
        assert_eq!(call(0, 255), Err(Refusal::ValueOver));
    }
}

#[test]
fn every_product() {
    for (u, v) in (0..64).flat_map(|u| (0..64).map(move |v| (u, v))) {
        assert_eq!(film::product(u, v), Ok(of_polynomials(u, v)));
        if v != 0 {
            assert_eq!(film::quotient(of_polynomials(u, v), v), Ok(u));
        }
    }
}

#[test]
fn a_line() {
    let mut text = [0; 50];
    for a in [5, 6, 14, 15, 23, 24, 32, 33, 41, 42] {
        text[a] = 1;
    }
    let mut line = [0; 63];
    film::encode_line(&text, 65, &mut line).unwrap();
    assert_eq!(line[..50], text);
    assert_eq!(line[50..], [1, 1, 32, 0, 0, 8, 0, 0, 0, 1, 1, 0, 1]);
    let mut word = line;
    for (a, c) in word.iter_mut().take(50).step_by(10).enumerate() {
        *c ^= a as u8 + 1;
    }
    let mut output = [0; 63];
    for wanted in [None, Some(65)] {
        let read = film::read_line(&word, 5, wanted, &mut output).unwrap();
        assert_eq!((read.number, read.distance, read.first, read.last, output), (65, 5, 0, 40, line));
    }
    refused(6, 63, |out| film::read_line(&word, 4, None, out));
    refused(7, 63, |out| film::read_line(&word, 5, Some(66), out));
    refused(6, 63, |out| film::read_line(&word, 4, Some(66), out));
}

#[test]
fn changed_addresses() {
    let mut output = [0; 63];
    let mut changed = |word: &[u8]| film::read_line(word, 5, None, &mut output).map(|read| (read.distance, read.first, read.last));
    assert_eq!(changed(&z()), Ok((0, film::NOWHERE, film::NOWHERE)));
    for a in 0..63 {
        let mut word = z();
        word[a] ^= 21;
        assert_eq!(changed(&word), Ok((1, a as u8, a as u8)));
        for b in a + 1..63 {
            let mut word = word;
            word[b] ^= 1 + (b % 63) as u8;
            assert_eq!(changed(&word), Ok((2, a as u8, b as u8)));
        }
    }
}

#[test]
fn two_scans() {
    let scan = |wrong: usize| -> [u8; 63] { core::array::from_fn(|a| z()[a] ^ if a % 9 == 0 && a / 9 < wrong { 7 } else { 0 }) };
    for (wrong, more) in (0..=6).flat_map(|wrong| (0..=6).map(move |more| (wrong, more))) {
        for radius in 0..=5 {
            let (first, second) = (scan(wrong), scan(more));
            let near = |count: usize| count <= radius as usize;
            let kept = film::better_scan(&first, &second, radius).map(<[u8]>::as_ptr);
            let due = match (near(wrong), near(more)) {
                (false, false) => Err(Refusal::NoLine),
                (true, other) if !other || wrong <= more => Ok(first.as_ptr()),
                _ => Ok(second.as_ptr()),
            };
            assert_eq!(kept, due);
        }
    }
    let (line, mut high) = (z(), z());
    high[5] = 64;
    // the first's refusal, whatever the second's is; and the part handed back is as long as the scan was
    assert_eq!(film::better_scan(&line[..62], &high, 6), Err(Refusal::InputLength));
    assert_eq!(film::better_scan(&high, &line[..62], 6), Err(Refusal::ValueOver));
    assert_eq!(film::better_scan(&line, &high, 6), Err(Refusal::RadiusOver));
    assert_eq!(film::better_scan(&[], &[], 255), Err(Refusal::InputLength));
    assert_eq!(film::better_scan(&[], &line, 0).map(<[u8]>::as_ptr_range), Ok(line.as_ptr_range()));
    assert_eq!(film::better_scan(&line, &line, 0).map(<[u8]>::as_ptr_range), Ok(line.as_ptr_range()));
}

#[test]
fn a_line_refused() {
    for length in [0, 1, 62, 64, 1000] {
        refused(1, 63, |out| film::read_line(&vec![0; length], 5, None, out));
        refused(5, length, |out| film::read_line(&z(), 5, Some(0), out));
        refused(1, length, |out| film::read_line(&[], 9, Some(9999), out));
    }
    for length in [0, 49, 51, 63] {
        refused(1, 63, |out| film::encode_line(&vec![0; length], 0, out));
    }
    for length in [0, 50, 62, 64] {
        refused(5, length, |out| film::encode_line(&[0; 50], 0, out));
    }
    for a in 0..63 {
        let mut word = z();
        word[a] = 64;
        refused(2, 63, |out| film::read_line(&word, 6, None, out));
        refused(2, 126, |out| film::list_ring(&word, 6, out).map(<[u8]>::len));
        refused(2, 63, |out| film::read_ring(&word, 6, out));
    }
    for a in 0..50 {
        let mut text = [0; 50];
        text[a] = 255;
        refused(2, 63, |out| film::encode_line(&text, 4096, out));
    }
    refused(3, 63, |out| film::read_line(&z(), 6, Some(4096), out));
    refused(4, 63, |out| film::read_line(&z(), 5, Some(4096), out));
    refused(4, 63, |out| film::encode_line(&[0; 50], 4096, out));
    film::encode_line(&[63; 50], 4095, &mut [0; 63]).unwrap();
}

#[test]
fn a_ring() {
    let mut output = [170; 126];
    let starts: &[u8] = &[0, 104, 107, 110, 114, 117, 124];
    assert_eq!(film::list_ring(&z(), 4, &mut output).unwrap(), starts);
    assert_eq!(output[7..], [170; 119]);
    assert_eq!(film::list_ring(&[1; 63], 0, &mut output).unwrap(), &[] as &[u8]);
    let mut line = [0; 63];
    for start in 0..63 {
        let mut ring = turned(z(), start);
        ring[0] ^= 1;
        let read = film::read_ring(&ring, 1, &mut line).unwrap();
        let address = ((63 - start) % 63) as u8;
        assert_eq!((read.start as usize, read.number, read.distance, line), (start, 0, 1, z()));
        assert_eq!((read.first, read.last), (address, address));
    }
    let mut backward = z();
    backward.reverse();
    let read = film::read_ring(&backward, 0, &mut line).unwrap();
    assert_eq!((read.start, read.first, read.last), (125, film::NOWHERE, film::NOWHERE));
    backward[1] ^= 9;
    let read = film::read_ring(&backward, 1, &mut line).unwrap();
    assert_eq!((read.start, read.first, read.last), (125, 61, 61));
    refused(6, 63, |out| film::read_ring(&[1; 63], 0, out));
    refused(10, 63, |out| film::read_ring(&z(), 4, out));
    refused(3, 63, |out| film::read_ring(&z(), 6, out));
    refused(3, 126, |out| film::list_ring(&z(), 6, out).map(<[u8]>::len));
    for length in [0, 62, 64, 125, 127] {
        refused(1, 63, |out| film::read_ring(&vec![0; length], 6, out));
        refused(1, 126, |out| film::list_ring(&vec![0; length], 6, out).map(<[u8]>::len));
        refused(5, length, |out| film::read_ring(&z(), 6, out));
        refused(5, length, |out| film::list_ring(&z(), 6, out).map(<[u8]>::len));
    }
}

/// What is due for a text: its bytes, with the five names put in from the last byte to the first, so that none is met twice.
fn escaped(text: &[u8]) -> String {
    let mut due: String = text[1..].iter().map(|v| char::from(32 + v)).collect();
    for at in (0..due.len()).rev() {
        let name = match &due[at..=at] {
            "&" => "&amp;",
            "<" => "&lt;",
            ">" => "&gt;",
            "\"" => "&quot;",
            "'" => "&#39;",
            _ => continue,
        };
        due.replace_range(at..=at, name);
    }
    due
}

#[test]
fn panel_texts() {
    for (a, v) in (1..50).flat_map(|a| (0..64).map(move |v| (a, v))) {
        let mut text: [u8; 50] = core::array::from_fn(|i| (i * a % 64) as u8);
        text[a] = v;
        let mut output = [170; 300];
        let shown = film::panel_text(&text, &mut output).unwrap().to_owned();
        assert_eq!(shown, escaped(&text));
        assert!(output[shown.len()..].iter().all(|&byte| byte == 170));
    }
    let mut quotes = [2; 50];
    quotes[0] = 0;
    assert_eq!(film::panel_text(&quotes, &mut [0; film::PANEL]), Ok("&quot;".repeat(49).as_str()));
    for kind in 1..=255 {
        let due = match kind {
            1 => 14,
            2..=63 => 15,
            _ => 2,
        };
        let text: [u8; 50] = core::array::from_fn(|i| if i == 0 { kind } else { 7 });
        refused(due, film::PANEL, |out| film::panel_text(&text, out).map(str::len));
        refused(5, film::PANEL - 1, |out| film::panel_text(&text, out).map(str::len));
        refused(1, 0, |out| film::panel_text(&text[1..], out).map(str::len));
    }
    for (kind, a) in (0..3).flat_map(|kind| (1..50).map(move |a| (kind, a))) {
        let mut text = [kind; 50];
        text[a] = 64;
        refused(2, film::PANEL, |out| film::panel_text(&text, out).map(str::len));
    }
}

#[test]
fn panel_rings() {
    let mut text: [u8; 50] = core::array::from_fn(|i| (i * 37 % 64) as u8);
    for (kind, start) in (0..3).flat_map(|kind| (0..63).map(move |start| (kind, start))) {
        text[0] = kind;
        let mut line = [0; 63];
        film::encode_line(&text, 9, &mut line).unwrap();
        let mut ring = turned(line, start);
        ring[5] ^= 3;
        match kind {
            0 => assert_eq!(film::panel_ring(&ring, 1, &mut [0; film::PANEL]), Ok(escaped(&text).as_str())),
            1 => refused(14, film::PANEL, |out| film::panel_ring(&ring, 1, out).map(str::len)),
            _ => refused(15, film::PANEL, |out| film::panel_ring(&ring, 1, out).map(str::len)),
        }
        refused(6, film::PANEL, |out| film::panel_ring(&ring, 0, out).map(str::len));
        ring[7] = 64;
        refused(2, film::PANEL, |out| film::panel_ring(&ring, 6, out).map(str::len));
        refused(5, film::PANEL - 1, |out| film::panel_ring(&ring, 6, out).map(str::len));
        refused(1, 0, |out| film::panel_ring(&ring[1..], 6, out).map(str::len));
    }
    refused(10, film::PANEL, |out| film::panel_ring(&z(), 4, out).map(str::len));
    refused(3, film::PANEL, |out| film::panel_ring(&z(), 6, out).map(str::len));
}

#[test]
fn a_block() {
    let mut block = [0; 2];
    film::encode_block(&[3], &mut block).unwrap();
    assert_eq!(block, [3, 252]);
    let mut output = [0; 2];
    assert_eq!(film::read_block(&[3, 253], &mut output), Ok(1));
    assert_eq!(output, [3, 252]);
    assert_eq!(film::read_block(&[3, 252], &mut output), Ok(0));
    refused(9, 2, |out| film::read_block(&[3, 3], out));
    refused(9, 2, |out| film::read_block(&[3, 0], out));
    for rows in 2..=64 {
        refused(9, rows, |out| film::read_block(&vec![0; rows], out));
        let bright = vec![255; rows];
        if rows % 2 == 1 {
            let mut output = vec![0; rows];
            assert_eq!(film::read_block(&bright, &mut output), Ok(0));
            assert_eq!(output, bright);
        } else {
            refused(9, rows, |out| film::read_block(&bright, out));
        }
    }
    for rows in [0, 1, 65, 255] {
        refused(8, rows, |out| film::read_block(&vec![0; rows], out));
    }
    for rows in [0, 64, 255] {
        refused(8, rows + 1, |out| film::encode_block(&vec![0; rows], out));
    }
    for room in [0, 1, 3] {
        refused(5, room, |out| film::read_block(&[3, 253], out));
        refused(5, room, |out| film::encode_block(&[255], out));
    }
    refused(2, 2, |out| film::encode_block(&[128], out));
    film::encode_block(&[127; 63], &mut [0; 64]).unwrap();
}

#[test]
fn a_register() {
    let mut line = [0; 63];
    let text: [u8; 50] = core::array::from_fn(|a| a as u8);
    film::encode_line(&text, 4094, &mut line).unwrap();
    let mut register = Register::new();
    for &c in &line[..52] {
        assert_eq!(register.checks(), Err(Refusal::RegisterShort));
        register.step(c).unwrap();
    }
    assert_eq!(register.checks().unwrap(), line[52..]);
    assert_eq!(register.checks().unwrap(), line[52..]);
    let before = register;
    assert_eq!((register.step(0), register), (Err(Refusal::RegisterFull), before));
    for (count, step, checks) in [(0, 2, 12), (51, 2, 12), (52, 11, 2), (53, 11, 11), (255, 11, 11)] {
        let mut odd = Register { held: [64; 11], count };
        assert_eq!((odd.step(0).unwrap_err().number(), odd), (step, Register { held: [64; 11], count }));
        assert_eq!(odd.checks().unwrap_err().number(), checks);
    }
    assert_eq!(Register::new().step(64), Err(Refusal::ValueOver));
    // a register that no text gives
    let mut odd = Register { held: [1, 2, 3, 4, 5, 6, 7, 8, 9, 10, 11], count: 51 };
    odd.step(1).unwrap();
    assert_eq!(odd, Register { held: [2, 3, 4, 5, 6, 7, 8, 9, 10, 11, 0], count: 52 });
    assert_eq!(odd.checks(), Ok([34, 3, 4, 13, 6, 7, 8, 9, 10, 11, 1]));
}

#[test]
fn numbers_of_refusals() {
    assert!(Refusal::ALL.windows(2).all(|two| two[0].number() < two[1].number()));
    for &refusal in Refusal::ALL {
        assert_eq!(Refusal::of_answer(refusal.number()), Some(refusal));
        assert!(refusal.to_string().starts_with(&format!("refused ({}): ", refusal.number())));
    }
    assert_eq!((Refusal::InputLength.number(), Refusal::NoLine.number(), Refusal::QuotientByZero.number()), (1, 6, 13));
    assert_eq!((Refusal::Template.number(), Refusal::UnknownKind.number()), (14, 15));
    assert_eq!(Refusal::NoLine.to_string(), "refused (6): no line within the radius; for ring reading, an empty list; with blots, no such line");
}

/// Every answer is told, also one that this crate does not know.
#[test]
fn any_answer() {
    assert_eq!(Refusal::of_answer(0), None);
    for answer in 1..=255 {
        let refusal = Refusal::of_answer(answer).unwrap();
        assert_eq!(refusal.number(), answer);
        assert_eq!(refusal == Refusal::Unknown(answer), Refusal::ALL.iter().all(|known| known.number() != answer));
    }
    assert_eq!(Refusal::of_answer(255).unwrap().to_string(), "refused (255): a reason that this crate does not know");
}

#[test]
fn versions() {
    assert_eq!(film::version(), film::VERSION);
    let parts = [film::VERSION / 1_000_000, film::VERSION / 1000 % 1000, film::VERSION % 1000];
    assert_eq!(parts.map(|n| n.to_string()).join("."), env!("CARGO_PKG_VERSION"));
}
