//! Encodes a line, makes a character wrong, records it on a ring from place 10 on, and reads both back.

fn main() -> Result<(), film::Refusal> {
    let mut word = [0; 63];
    film::encode_line(&[0; 50], 65, &mut word)?;
    word[60] ^= 5;
    let mut ring = word;
    ring.rotate_right(10);

    let mut line = [0; 63];
    let read = film::read_line(&word, 5, None, &mut line)?;
    println!("line: number {}, distance {}", read.number, read.distance);
    let found = film::read_ring(&ring, 1, &mut line)?;
    println!("ring: start {}, number {}, distance {}", found.start, found.number, found.distance);
    Ok(())
}
