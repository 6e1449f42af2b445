//! Records of a site, the book that says which of them are allowed, and their seal.

use crate::families::{Family, WRONG_LENGTH};

pub const OUT_OF_RANGE: u8 = 20;
pub const BAD_NAME: u8 = 21;
pub const DECLARED_ALREADY: u8 = 30;
pub const NOT_DECLARED: u8 = 31;
pub const TOO_LONG: u8 = 32;

pub const ZONES: u32 = 250;
pub const POINTS: u32 = 1000;
pub const LONGEST_NAME: usize = 40;
pub const LONGEST_MESSAGE: usize = 60_000;
pub const PAD_LEN: usize = 8;

#[derive(Clone, Copy)]
pub enum Record<'a> {
    Zone { number: u32, name: &'a [u8] },
    Point { number: u32, zone: u32, kind: u8 },
    Rule { zone: u32, point: u32 },
}

impl Record<'_> {
    fn field_len(&self) -> usize {
        3 + match self {
            Record::Zone { name, .. } => 2 + name.len(),
            Record::Point { .. } => 5,
            Record::Rule { .. } => 4,
        }
    }

    /// The field of a record that the book allows.
    pub fn field(&self) -> Field {
        let mut field = Field { bytes: [0; LONGEST_FIELD], len: self.field_len() };
        match *self {
            Record::Zone { number, name } => {
                let [high, low] = (number as u16).to_be_bytes();
                field.bytes[..5].copy_from_slice(&[1, 0, 2 + name.len() as u8, high, low]);
                field.bytes[5..5 + name.len()].copy_from_slice(name);
            }
            Record::Point { number, zone, kind } => {
                let ([a, b], [c, d]) = ((number as u16).to_be_bytes(), (zone as u16).to_be_bytes());
                field.bytes[..8].copy_from_slice(&[2, 0, 5, a, b, c, d, kind]);
            }
            Record::Rule { zone, point } => {
                let ([a, b], [c, d]) = ((zone as u16).to_be_bytes(), (point as u16).to_be_bytes());
                field.bytes[..7].copy_from_slice(&[3, 0, 4, a, b, c, d]);
            }
        }
        field
    }
}

const LONGEST_FIELD: usize = 5 + LONGEST_NAME;

/// A record as it stands in the message.
pub struct Field {
    bytes: [u8; LONGEST_FIELD],
    len: usize,
}

impl Field {
    pub fn bytes(&self) -> &[u8] {
        &self.bytes[..self.len]
    }
}

/// What was declared so far, each number at its own place, and how long the message is.
struct Book {
    zones: [bool; ZONES as usize + 1],
    points: [bool; POINTS as usize + 1],
    message_len: usize,
}

impl Book {
    fn new() -> Self {
        Book { zones: [false; ZONES as usize + 1], points: [false; POINTS as usize + 1], message_len: 0 }
    }

    /// Takes a record, or refuses it by the first row that fits and stays as it is.
    fn take(&mut self, record: &Record) -> Result<(), u8> {
        self.allow(record)?;
        let message_len = self.message_len + record.field_len();
        if message_len > LONGEST_MESSAGE {
            return Err(TOO_LONG);
        }
        self.message_len = message_len;
        match *record {
            Record::Zone { number, .. } => self.zones[number as usize] = true,
            Record::Point { number, .. } => self.points[number as usize] = true,
            Record::Rule { .. } => (),
        }
        Ok(())
    }

    fn allow(&self, record: &Record) -> Result<(), u8> {
        match *record {
            Record::Zone { number, name } => {
                refuse(!is_zone(number), OUT_OF_RANGE)?;
                refuse(!is_name(name), BAD_NAME)?;
                refuse(self.zones[number as usize], DECLARED_ALREADY)
            }
            Record::Point { number, zone, kind } => {
                refuse(!is_point(number) || !is_zone(zone) || !(1..=4).contains(&kind), OUT_OF_RANGE)?;
                refuse(self.points[number as usize], DECLARED_ALREADY)?;
                refuse(!self.zones[zone as usize], NOT_DECLARED)
            }
            Record::Rule { zone, point } => {
                refuse(!is_zone(zone) || !is_point(point), OUT_OF_RANGE)?;
                refuse(!self.zones[zone as usize] || !self.points[point as usize], NOT_DECLARED)
            }
        }
    }
}

fn refuse(fits: bool, number: u8) -> Result<(), u8> {
    if fits { Err(number) } else { Ok(()) }
}

fn is_zone(number: u32) -> bool {
    (1..=ZONES).contains(&number)
}

fn is_point(number: u32) -> bool {
    (1..=POINTS).contains(&number)
}

fn is_name(name: &[u8]) -> bool {
    (1..=LONGEST_NAME).contains(&name.len()) && name.iter().all(|byte| matches!(byte, b' '..=b'~' | b'\n'))
}

/// A site under way: the book, and the hash of the message so far.
pub struct Site<F> {
    book: Book,
    hash: F,
    pad: u64,
}

impl<F: Family> Site<F> {
    /// Opens a site by a key buffer, key and pad, and clears the buffer in every case.
    pub fn open(buffer: &mut [u8]) -> Result<Self, u8> {
        let site = Self::open_by(buffer);
        buffer.fill(0);
        site
    }

    fn open_by(buffer: &[u8]) -> Result<Self, u8> {
        let (key, pad) = buffer.split_at_checked(F::KEY_LEN).ok_or(WRONG_LENGTH)?;
        let pad: [u8; PAD_LEN] = pad.try_into().map_err(|_| WRONG_LENGTH)?;
        Ok(Site { book: Book::new(), hash: F::open(key)?, pad: u64::from_be_bytes(pad) })
    }

    /// Takes a record and answers its field, or the number by which the book refuses it.
    pub fn take(&mut self, record: &Record) -> Result<Field, u8> {
        self.book.take(record)?;
        let field = record.field();
        self.hash.absorb(field.bytes());
        Ok(field)
    }

    pub fn message_len(&self) -> usize {
        self.book.message_len
    }

    pub fn seal(&mut self) -> u64 {
        self.hash.digest() ^ self.pad
    }
}

#[cfg(test)]
mod tests {
    use super::*;
    use crate::families::Evaluation;

    /// Evaluation at the point 1, with a pad.
    fn site(pad: u64) -> Site<Evaluation> {
        let mut buffer = [1u64.to_be_bytes(), pad.to_be_bytes()].concat();
        let Ok(site) = Site::open(&mut buffer) else { panic!("the key is refused") };
        assert_eq!(buffer, [0; 16]);
        site
    }

    const ZONE: Record = Record::Zone { number: 7, name: b"A" };
    const POINT: Record = Record::Point { number: 3, zone: 7, kind: 1 };
    const RULE: Record = Record::Rule { zone: 7, point: 3 };

    #[test]
    fn fields() {
        assert_eq!(ZONE.field().bytes(), [1, 0, 3, 0, 7, 0x41]);
        assert_eq!(POINT.field().bytes(), [2, 0, 5, 0, 3, 0, 7, 1]);
        assert_eq!(RULE.field().bytes(), [3, 0, 4, 0, 7, 0, 3]);
        let longest = [b'x'; LONGEST_NAME];
        let field = Record::Zone { number: 250, name: &longest }.field();
        assert_eq!(field.bytes()[..5], [1, 0, 42, 0, 250]);
        assert_eq!(field.bytes()[5..], longest);
    }

    #[test]
    fn the_seal_is_the_hash_with_the_pad() {
        let mut site = site(0xFF);
        assert!(site.take(&ZONE).is_ok());
        assert_eq!(site.seal(), 0x0100_0300_0741_8001 ^ 0xFF);
        assert_eq!(site.message_len(), 6);
    }

    fn refusal(taken: &[Record], record: Record) -> u8 {
        let mut site = site(0);
        for record in taken {
            assert!(site.take(record).is_ok());
        }
        site.take(&record).err().unwrap_or(0)
    }

    #[test]
    fn rows_of_the_book() {
        let zone = |number, name| Record::Zone { number, name };
        let point = |number, zone, kind| Record::Point { number, zone, kind };
        let rule = |zone, point| Record::Rule { zone, point };
        for number in [0, 251, 65_536 + 7, 99_999] {
            assert_eq!(refusal(&[ZONE], zone(number, b"")), 20);
            assert_eq!(refusal(&[ZONE], point(1, number, 1)), 20);
            assert_eq!(refusal(&[ZONE, POINT], rule(number, 3)), 20);
        }
        for number in [0, 1001, 99_999] {
            assert_eq!(refusal(&[ZONE], point(number, 7, 1)), 20);
            assert_eq!(refusal(&[ZONE], rule(7, number)), 20);
        }
        for kind in [0, 5, 255] {
            assert_eq!(refusal(&[ZONE, POINT], point(3, 7, kind)), 20);
        }
        for name in [&b""[..], &[b'x'; 41], b"\x1F", b"\x7F", b"\xC3\xA4", b"a\x0D"] {
            assert_eq!(refusal(&[ZONE], zone(7, name)), 21);
        }
        assert_eq!(refusal(&[], zone(250, b" ~\n")), 0);
        assert_eq!(refusal(&[ZONE], zone(7, b"B")), 30);
        assert_eq!(refusal(&[ZONE, POINT], point(3, 8, 1)), 30);
        assert_eq!(refusal(&[ZONE, POINT], point(4, 8, 1)), 31);
        assert_eq!(refusal(&[ZONE, POINT], rule(8, 3)), 31);
        assert_eq!(refusal(&[ZONE, POINT], rule(7, 4)), 31);
        assert_eq!(refusal(&[ZONE, POINT], RULE), 0);
    }

    #[test]
    fn the_8570th_rule_is_too_much() {
        let mut site = site(0);
        let zone = Record::Zone { number: 1, name: b"A" };
        let point = Record::Point { number: 1, zone: 1, kind: 2 };
        let rule = Record::Rule { zone: 1, point: 1 };
        assert!(site.take(&zone).is_ok() && site.take(&point).is_ok());
        for _ in 1..8570 {
            assert!(site.take(&rule).is_ok());
        }
        let seal = site.seal();
        assert_eq!(site.take(&rule).err(), Some(32));
        assert_eq!(site.seal(), seal);
        assert_eq!(site.message_len(), 59_997);
        assert!(site.take(&zone).is_err_and(|number| number == 30));
    }
}
