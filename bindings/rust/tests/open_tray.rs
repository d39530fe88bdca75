//! Tests of an open tray: from an empty one on its lines are those that were added and changed, its sums and its count what working them out afresh gives; one
//! that is made by hand is taken as it is; the refusals come in their order and change no byte.

mod field;
mod words;

use field::of_polynomials;
use film::{OpenTray, Refusal, SUMS, TRAY, TRAY_LINES};
use words::{read_as, Chance, OLD, WRONG_LENGTHS};

/// Where a line's room begins, where its sums stand in it, and where the number of lines and the count are.
const ROOM: usize = 74;
const SUMS_IN_ROOM: usize = 63;
const HELD: usize = 4736;
const COUNT: usize = 4737;

const LAST_ADDRESS: u8 = 62;

/// Bytes that are no characters.
const BYTES_OVER: [u8; 6] = [64, 65, 127, 128, 192, 255];

/// The power of α with this exponent.
fn power(exponent: i32) -> u8 {
    (0..exponent.rem_euclid(63)).fold(1, |power, _| of_polynomials(power, 2))
}

/// The power sums of a line, worked out afresh: the values of its characters, marks off, at eleven powers of α.
fn sums_of(line: &[u8]) -> [u8; SUMS] {
    let mut word = line.to_vec();
    for (a, mark) in [(52, 32), (55, 8), (62, 1)] {
        word[a] ^= mark;
    }
    core::array::from_fn(|k| {
        let point = power(k as i32 - 5);
        word.iter().fold(0, |sum, c| of_polynomials(sum, point) ^ c)
    })
}

/// What a change of a character by an exclusive or adds to the power sums.
fn share(change: u8, address: u8) -> [u8; SUMS] {
    core::array::from_fn(|k| of_polynomials(change, power((k as i32 - 5) * (LAST_ADDRESS - address) as i32)))
}

fn is_wrong(sums: &[u8]) -> bool {
    sums.iter().any(|&sum| sum != 0)
}

/// A tray, and the bytes that it has to have.
struct Kept {
    tray: OpenTray,
    due: [u8; TRAY],
}

impl Kept {
    fn of(due: [u8; TRAY]) -> Kept {
        Kept { tray: OpenTray::from_bytes(due), due }
    }

    /// An empty tray whose rooms hold this byte.
    fn empty(byte: u8) -> Kept {
        let mut due = [byte; TRAY];
        due[HELD..].fill(0);
        Kept::of(due)
    }

    /// A tray made by hand: any characters, any sums, so many lines and such a count.
    fn by_hand(chance: &mut Chance, held: u8, count: u8) -> Kept {
        let mut due = chance.characters();
        (due[HELD], due[COUNT]) = (held, count);
        Kept::of(due)
    }

    fn held(&self) -> usize {
        self.due[HELD].into()
    }

    fn line(&self, i: usize) -> &[u8] {
        &self.due[ROOM * i..][..SUMS_IN_ROOM]
    }

    fn sums(&mut self, i: usize) -> &mut [u8] {
        &mut self.due[ROOM * i..][SUMS_IN_ROOM..ROOM]
    }

    /// Writes the sums of line `i` by hand, and no other byte.
    fn write_sums(&mut self, i: usize, sums: [u8; SUMS]) {
        self.sums(i).copy_from_slice(&sums);
        self.tray = OpenTray::from_bytes(self.due);
    }

    /// The tray is as is due, however it is looked at.
    fn is_due(&self) {
        assert!(self.tray.as_bytes() == &self.due);
        assert_eq!((self.tray.len(), self.tray.is_empty()), (self.held(), self.held() == 0));
        assert_eq!(self.tray.count(), Ok(self.due[COUNT]));
        for i in 0..TRAY_LINES + 2 {
            let held = (i < self.held()).then(|| self.due[ROOM * i..][..ROOM].split_at(SUMS_IN_ROOM));
            assert_eq!((self.tray.line(i).map(|line| &line[..]), self.tray.sums(i).map(|sums| &sums[..])), held.unzip());
        }
    }

    /// What is due after some sums of line `i` were put in place of others.
    fn put_sums(&mut self, i: usize, sums: [u8; SUMS]) {
        self.due[COUNT] -= is_wrong(self.sums(i)) as u8;
        self.sums(i).copy_from_slice(&sums);
        self.due[COUNT] += is_wrong(&sums) as u8;
    }

    fn add(&mut self, line: &[u8; 63]) {
        let i = self.held();
        assert_eq!(self.tray.add(line), Ok(()));
        self.due[ROOM * i..][..SUMS_IN_ROOM].copy_from_slice(line);
        self.sums(i).fill(0);
        self.put_sums(i, sums_of(line));
        self.due[HELD] += 1;
        self.is_due();
    }

    /// Replaces a character of a line, of which these sums are due then.
    fn replace(&mut self, i: usize, address: u8, character: u8, sums: [u8; SUMS]) {
        assert_eq!(self.tray.replace(i as u8, address, character), Ok(()));
        self.due[ROOM * i + address as usize] = character;
        self.put_sums(i, sums);
    }

    /// The same in a tray that was empty once: the sums are worked out afresh.
    fn replace_afresh(&mut self, i: usize, address: u8, character: u8) {
        let mut line = self.line(i).to_vec();
        line[address as usize] = character;
        self.replace(i, address, character, sums_of(&line));
        self.is_due();
    }

    fn drop_last(&mut self) {
        let i = self.held() - 1;
        assert_eq!(self.tray.drop_last(), Ok(()));
        self.due[COUNT] -= is_wrong(self.sums(i)) as u8;
        self.due[HELD] -= 1;
        self.is_due();
    }

    /// The call is refused, and changes no byte.
    fn refuses<T: core::fmt::Debug + PartialEq>(&mut self, why: Refusal, call: impl FnOnce(&mut OpenTray) -> Result<T, Refusal>) {
        assert_eq!(call(&mut self.tray), Err(why));
        assert!(self.tray.as_bytes() == &self.due);
    }
}

/// Any characters, or a line of the code.
fn any_line(chance: &mut Chance) -> [u8; 63] {
    match chance.below(2) {
        0 => chance.line(),
        _ => chance.characters(),
    }
}

/// Any operations from an empty tray on, accepted or refused; the sums are all 0 in lines of the code alone.
#[test]
fn sequences() {
    let mut chance = Chance(1);
    for byte in [0, OLD, 0, OLD] {
        let mut kept = Kept::empty(byte);
        for _ in 0..300 {
            let (i, a, c) = (chance.below(kept.held() + 1), chance.below(64) as u8, chance.below(65) as u8);
            match chance.below(8) {
                0..3 if kept.held() == TRAY_LINES => kept.refuses(Refusal::TrayUnfit, |tray| tray.add(&[0; 63])),
                0..3 => kept.add(&any_line(&mut chance)),
                3..7 if i == kept.held() => kept.refuses(Refusal::LineNotHeld, |tray| tray.replace(i as u8, a, c)),
                3..7 if a > LAST_ADDRESS => kept.refuses(Refusal::AddressOver, |tray| tray.replace(i as u8, a, c)),
                3..7 if c == 64 => kept.refuses(Refusal::ValueOver, |tray| tray.replace(i as u8, a, c)),
                3..7 => kept.replace_afresh(i, a, c),
                _ if kept.held() == 0 => kept.refuses(Refusal::LineNotHeld, OpenTray::drop_last),
                _ => kept.drop_last(),
            }
        }
        for i in 0..kept.held() {
            let line = kept.tray.line(i).unwrap();
            assert_eq!(film::read_line(line, 0, None, &mut [0; 63]) == Ok(read_as(line, line)), kept.tray.sums(i) == Some(&[0; SUMS]));
        }
    }
}

/// A line is made wrong at every address and right again: the count follows.
#[test]
fn wrong_and_right() {
    let mut chance = Chance(2);
    let mut kept = Kept::empty(0);
    for i in 0..3 {
        let line = chance.line();
        kept.add(&line);
        for a in chance.addresses(63) {
            kept.replace_afresh(i, a as u8, line[a] ^ chance.error());
            assert_eq!(kept.tray.count(), Ok(1));
            kept.replace_afresh(i, a as u8, line[a]);
            assert_eq!(kept.tray.count(), Ok(0));
        }
    }
}

/// 64 lines and no more; all are dropped, their rooms keep their bytes, and are used again.
#[test]
fn full_and_empty() {
    let mut chance = Chance(3);
    let mut kept = Kept::empty(OLD);
    for _ in 0..2 {
        for _ in 0..TRAY_LINES {
            kept.add(&any_line(&mut chance));
        }
        kept.refuses(Refusal::TrayUnfit, |tray| tray.add(&chance.line()));
        kept.refuses(Refusal::ValueOver, |tray| tray.add(&[64; 63]));
        kept.refuses(Refusal::InputLength, |tray| tray.add(&[64; 62]));
        for _ in 0..TRAY_LINES {
            kept.drop_last();
        }
        kept.refuses(Refusal::LineNotHeld, OpenTray::drop_last);
        kept.refuses(Refusal::LineNotHeld, |tray| tray.replace(0, 63, 64));
    }
}

/// Every number of lines with every count: where they do not fit, each operation says so first, and the lines can be looked at all the same.
#[test]
fn claims() {
    let mut due = Kept::by_hand(&mut Chance(4), 0, 0).due;
    for (held, count) in (0..=255).flat_map(|held| (0..=255).map(move |count| (held, count))) {
        (due[HELD], due[COUNT]) = (held, count);
        let mut kept = Kept::of(due);
        if held as usize <= TRAY_LINES && count <= held {
            assert_eq!(kept.tray.count(), Ok(count));
            continue;
        }
        kept.refuses(Refusal::TrayUnfit, |tray| tray.count());
        kept.refuses(Refusal::TrayUnfit, |tray| tray.add(&[]));
        kept.refuses(Refusal::TrayUnfit, |tray| tray.replace(255, 255, 255));
        kept.refuses(Refusal::TrayUnfit, OpenTray::drop_last);
        let lines = TRAY_LINES.min(held.into());
        assert_eq!((kept.tray.len(), kept.tray.line(lines), kept.tray.sums(lines)), (lines, None, None));
        assert_eq!(kept.tray.line(usize::MAX), None);
        assert!(held == 0 || kept.tray.line(lines - 1).unwrap() == kept.line(lines - 1));
    }
}

/// The order of refusals, and every number that is refused.
#[test]
fn refusals() {
    let mut chance = Chance(5);
    for held in [1, 63, 64] {
        let mut kept = Kept::by_hand(&mut chance, held, 0);
        for length in WRONG_LENGTHS {
            kept.refuses(Refusal::InputLength, |tray| tray.add(&vec![64; length]));
        }
        for (a, over) in (0..63).flat_map(|a| BYTES_OVER.map(|over| (a, over))) {
            let mut line: [u8; 63] = chance.characters();
            line[a] = over;
            kept.refuses(Refusal::ValueOver, |tray| tray.add(&line));
        }
        for i in held..=255 {
            kept.refuses(Refusal::LineNotHeld, |tray| tray.replace(i, 63, 64));
        }
        for over in 63..=255 {
            kept.refuses(Refusal::AddressOver, |tray| tray.replace(held - 1, over, 64));
        }
        for over in 64..=255 {
            kept.refuses(Refusal::ValueOver, |tray| tray.replace(held - 1, 62, over));
        }
        kept.refuses(Refusal::TrayUnfit, |tray| tray.replace(held - 1, 62, 63));
        kept.refuses(Refusal::TrayUnfit, OpenTray::drop_last);
    }
}

/// A byte over 63 in any place of a line: it is neither changed nor dropped; other lines are.
#[test]
fn bytes_by_hand() {
    let mut chance = Chance(6);
    for (place, over) in (0..ROOM).zip(BYTES_OVER.into_iter().cycle()) {
        let mut due = Kept::by_hand(&mut chance, 2, 2).due;
        due[ROOM + place] = over;
        let mut kept = Kept::of(due);
        kept.refuses(Refusal::TrayUnfit, |tray| tray.replace(1, (place % 63) as u8, 0));
        kept.refuses(Refusal::TrayUnfit, OpenTray::drop_last);
        kept.tray.replace(0, 62, 0).unwrap();
        (due[HELD], due[COUNT]) = (1, 1);
        Kept::of(due).add(&chance.line());
    }
}

/// Replacing adds the share of the change to the sums that are held, whatever they are, and the count goes by these.
#[test]
fn sums_by_hand() {
    let mut chance = Chance(7);
    for (address, change) in (0..63).zip(1..=63) {
        let mut kept = Kept::by_hand(&mut chance, 2, 1);
        let before = kept.sums(1).to_vec();
        let (old, added) = (kept.line(1)[address as usize], share(change, address));
        kept.replace(1, address, old ^ change, core::array::from_fn(|k| before[k] ^ added[k]));
        kept.is_due();
        // the share itself: the change back makes every sum 0
        kept.write_sums(1, added);
        kept.replace(1, address, old, [0; SUMS]);
        kept.is_due();
        // one sum that is not 0 while the count is
        kept.write_sums(1, core::array::from_fn(|k| if k == address as usize % SUMS { change } else { 0 }));
        kept.refuses(Refusal::TrayUnfit, |tray| tray.replace(1, address, old));
        kept.refuses(Refusal::TrayUnfit, OpenTray::drop_last);
    }
}

/// A line of zero sums in a tray that counts all of its lines: a change brings the count above them, which the next call refuses.
#[test]
fn a_count_above() {
    for held in [1, 2, 64] {
        let mut kept = Kept::by_hand(&mut Chance(8), held, held);
        kept.write_sums(0, [0; SUMS]);
        let (address, change) = (20, 1);
        let character = kept.line(0)[address as usize] ^ change;
        kept.replace(0, address, character, share(change, address));
        assert_eq!(kept.due[COUNT], held + 1);
        kept.refuses(Refusal::TrayUnfit, |tray| tray.count());
        kept.refuses(Refusal::TrayUnfit, |tray| tray.add(&[]));
        kept.refuses(Refusal::TrayUnfit, |tray| tray.replace(0, address, character));
        kept.refuses(Refusal::TrayUnfit, OpenTray::drop_last);
    }
}

/// An empty tray, a copy, trays that differ in one byte, and how a tray is told.
#[test]
fn as_a_value() {
    const EMPTY: OpenTray = OpenTray::new();
    assert_eq!((EMPTY, TRAY, core::mem::size_of::<OpenTray>()), (OpenTray::default(), 4738, 4738));
    assert_eq!((EMPTY.as_bytes(), TRAY_LINES, SUMS), (&[0; TRAY], 64, 11));
    let mut tray = OpenTray::new();
    tray.add(&[9; 63]).unwrap();
    let copy = tray.clone();
    tray.drop_last().unwrap();
    assert_eq!((copy.len(), tray.len(), copy == tray), (1, 0, false));
    assert_ne!(tray, EMPTY);
    assert_eq!(format!("{:?}", Kept::by_hand(&mut Chance(9), 200, 7).tray), "OpenTray { held: 200, count: 7, .. }");
    for place in 0..TRAY {
        let mut bytes = *copy.as_bytes();
        bytes[place] ^= 1;
        assert!(OpenTray::from_bytes(bytes) != copy && OpenTray::from_bytes(bytes).as_bytes() == &bytes);
    }
}
