//! Encodes a text, makes a character wrong, records the line on a ring from place 10 on, reads both back and prints their text for a page.

fn main() -> Result<(), Box<dyn std::error::Error>> {
    let (mut word, mut line, mut page) = ([0; 63], [0; 63], [0; film::PANEL]);

    film::encode_line(&film::characters_of("GLASS NEGATIVE, <HARBOUR>, 1931", film::PLAIN)?, 65, &mut word)?;
    word[60] ^= 5;
    let read = film::read_line(&word, 5, None, &mut line)?;
    let text = film::panel_text(&line[..50], &mut page)?.trim_end();
    println!("line: number {}, distance {}: {text}", read.number, read.distance);

    let mut ring = word;
    ring.rotate_right(10);
    let found = film::read_ring(&ring, 1, &mut line)?;
    let text = film::panel_text(&line[..50], &mut page)?.trim_end();
    println!("ring: start {}, number {}, distance {}: {text}", found.start, found.number, found.distance);
    Ok(())
}
