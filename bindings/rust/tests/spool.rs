//! Tests of reading a spool: each line as it is read alone, a refused line between others, the list that is given, and the refusals of the call.

use film::{LineRead, Refusal, PLACES, SPOOL};

/// The bytes that an output has before, which differ from line to line.
fn old(length: usize) -> Vec<u8> {
    (0..length).map(|i| (170 + i / 5) as u8).collect()
}

/// So many lines, each with a number and a text of its own and 0 to 6 wrong characters; a few have a byte that is no character.
fn lines(count: usize) -> Vec<u8> {
    let mut lines = vec![0; 63 * count];
    for (i, line) in lines.chunks_mut(63).enumerate() {
        let text: [u8; 50] = core::array::from_fn(|a| (a * i % 64) as u8);
        film::encode_line(&text, 16 * i as u16 + 5, line).unwrap();
        for wrong in 0..i % 7 {
            line[(9 * wrong + i) % 63] ^= 1 + (i % 63) as u8;
        }
        if i % 20 == 19 {
            line[i % 63] += 64;
        }
    }
    lines
}

/// What reading line by line gives, and leaves in an output.
fn one_by_one(lines: &[u8], radius: u8) -> (Vec<Result<LineRead, Refusal>>, Vec<u8>) {
    let mut out = old(lines.len());
    let readings = lines.chunks(63).zip(out.chunks_mut(63)).map(|(word, line)| film::read_line(word, radius, None, line)).collect();
    (readings, out)
}

#[test]
fn as_one_by_one() {
    for count in [0, 1, 2, 8, 60, 254, PLACES] {
        let lines = lines(count);
        for radius in [0, 1, 2, 3, 4, 5, 6, 9, 255] {
            let mut out = old(lines.len());
            let spool = film::read_spool(&lines, radius, &mut out).unwrap();
            assert_eq!((spool.to_vec(), out), one_by_one(&lines, radius));
        }
    }
}

#[test]
fn one_refused() {
    for (refused, (wrong, due)) in (0..3).flat_map(|i| [(i, (1, Refusal::NoLine)), (i, (64, Refusal::ValueOver))]) {
        let mut lines = [0; 3 * 63];
        for (line, number) in lines.chunks_mut(63).zip([7, 4095, 0]) {
            film::encode_line(&[9; 50], number, line).unwrap();
        }
        let (mut out, mut left) = (old(3 * 63), lines);
        let own = 63 * refused..63 * refused + 63;
        left[own.clone()].copy_from_slice(&out[own]);
        lines[63 * refused + 40] ^= wrong;
        let read = |number| Ok(LineRead { number, distance: 0, first: film::NOWHERE, last: film::NOWHERE });
        let mut readings = [read(7), read(4095), read(0)];
        readings[refused] = Err(due);
        assert_eq!(*film::read_spool(&lines, 0, &mut out).unwrap(), readings);
        assert_eq!(out, left);
    }
}

#[test]
fn a_radius_over_five() {
    let (lines, mut out) = (lines(21), old(21 * 63));
    let spool = film::read_spool(&lines, 9, &mut out).unwrap();
    for (i, reading) in spool.iter().enumerate() {
        assert_eq!(*reading, Err(if i == 19 { Refusal::ValueOver } else { Refusal::RadiusOver }));
    }
    assert_eq!(out, old(21 * 63));
}

/// The places past the last line are not in the list, however it is gone through.
#[test]
fn the_list() {
    for count in [0, 1, 8, PLACES] {
        let lines = lines(count);
        let spool = film::read_spool(&lines, 3, &mut old(lines.len())).unwrap();
        let (due, _) = one_by_one(&lines, 3);
        assert_eq!((spool.len(), spool.is_empty()), (count, count == 0));
        assert_eq!((spool.get(count), spool.first()), (None, due.first()));
        assert_eq!((&spool).into_iter().copied().collect::<Vec<_>>(), due);
        assert_eq!(format!("{spool:?}"), format!("{due:?}"));
        assert_eq!(spool.clone(), spool);
        assert_eq!(spool.into_iter().collect::<Vec<_>>(), due);
    }
    let read = |count| film::read_spool(&lines(count), 5, &mut old(63 * count)).unwrap();
    assert_ne!(read(2), read(3));
}

/// A spool of a length with an output of a length is refused, and the output is left alone.
fn refused(due: Refusal, length: usize, room: usize) {
    let mut out = old(room);
    for radius in [5, 9] {
        assert_eq!(film::read_spool(&vec![0; length], radius, &mut out), Err(due));
        assert_eq!(out, old(room));
    }
}

#[test]
fn refusals() {
    for length in [1, 62, 64, 125, 127, SPOOL - 1, SPOOL + 1, SPOOL + 63] {
        refused(Refusal::InputLength, length, length);
        refused(Refusal::InputLength, length, 0);
        refused(Refusal::OutputLength, 63, length);
        refused(Refusal::OutputLength, 0, length);
    }
    refused(Refusal::OutputLength, 63, 0);
    refused(Refusal::OutputLength, SPOOL, SPOOL - 63);
    assert_eq!(SPOOL, 16065);
}
