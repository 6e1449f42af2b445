//! Images: making one of a text, and checking one.

use crate::families::{Family, Gather, UNKNOWN_CODE};
use crate::lines::{self, Line};
use crate::site::{Field, LONGEST_MESSAGE, LONGEST_NAME, Record, Site};
use crate::with_family;

pub const NOT_AN_IMAGE: u8 = 40;
pub const ANOTHER_FAMILY: u8 = 41;
pub const OUTPUT_TOO_SHORT: u8 = 50;

const SEAL_TAG: u8 = 0x53;
pub const SEAL_FIELD_LEN: usize = 12;

/// How many bytes an image has at most.
pub const LONGEST_IMAGE: usize = LONGEST_MESSAGE + SEAL_FIELD_LEN;

/// Why a text has no image. Line and column are 0 where no line is at fault.
#[derive(Debug, PartialEq, Clone, Copy)]
pub struct Refusal {
    pub number: u8,
    pub line: usize,
    pub column: usize,
}

impl Refusal {
    pub fn of_no_line(number: u8) -> Self {
        Refusal { number, line: 0, column: 0 }
    }
}

/// Makes the image of a text in an output, and answers its length. The rest of the output is cleared, and all of it after a refusal; the key
/// buffer in every case.
pub fn make(code: u8, text: &[u8], buffer: &mut [u8], out: &mut [u8]) -> Result<usize, Refusal> {
    let answer = with_family!(code, F => make_with::<F>(text, buffer, out), unknown => {
        buffer.fill(0);
        Err(Refusal::of_no_line(UNKNOWN_CODE))
    });
    out[answer.unwrap_or(0)..].fill(0);
    answer
}

fn make_with<F: Family>(text: &[u8], buffer: &mut [u8], out: &mut [u8]) -> Result<usize, Refusal> {
    let mut site = Site::<Gather<F>>::open(buffer).map_err(Refusal::of_no_line)?;
    let mut written = 0;
    take_text(&mut site, text, |field| {
        // A field that does not fit is left out: the text may still be refused, and only then is it sure that the output is too short.
        let end = written + field.bytes().len();
        if let Some(place) = out.get_mut(written..end) {
            place.copy_from_slice(field.bytes());
        }
        written = end;
    })?;
    let end = written + SEAL_FIELD_LEN;
    let place = out.get_mut(written..end).ok_or(Refusal::of_no_line(OUTPUT_TOO_SHORT))?;
    place.copy_from_slice(&seal_field(F::CODE, site.seal()));
    Ok(end)
}

/// Hands the lines of a text to a site, and the field of each record to `taken`.
pub fn take_text<F: Family>(site: &mut Site<F>, text: &[u8], mut taken: impl FnMut(&Field)) -> Result<(), Refusal> {
    for (line, bytes) in (1..).zip(text.split_inclusive(|&byte| byte == b'\n')) {
        let bytes = bytes.strip_suffix(b"\n").unwrap_or(bytes);
        take_line(site, bytes, &mut taken).map_err(|(number, column)| Refusal { number, line, column })?;
    }
    Ok(())
}

/// Hands one line to a site. A refusal has its number and column, and the book knows no column.
fn take_line<F: Family>(site: &mut Site<F>, line: &[u8], taken: &mut impl FnMut(&Field)) -> Result<(), (u8, usize)> {
    // One byte more than the longest name that is allowed, so that a longer one is still seen to be longer.
    let mut room = [0; LONGEST_NAME + 1];
    let record = match lines::read(line).map_err(|fault| (fault.number, fault.column))? {
        Line::Blank => return Ok(()),
        Line::Zone { number, name } => {
            let len = lines::decode(name, &mut room);
            Record::Zone { number, name: &room[..len] }
        }
        Line::Point { number, zone, kind } => Record::Point { number, zone, kind },
        Line::Rule { zone, point } => Record::Rule { zone, point },
    };
    taken(&site.take(&record).map_err(|number| (number, 0))?);
    Ok(())
}

pub fn seal_field(code: u8, seal: u64) -> [u8; SEAL_FIELD_LEN] {
    let mut field = [SEAL_TAG, 0, 9, code, 0, 0, 0, 0, 0, 0, 0, 0];
    field[4..].copy_from_slice(&seal.to_be_bytes());
    field
}

/// Why an image is refused, and at which offset.
#[derive(Debug, PartialEq, Clone, Copy)]
pub struct ImageRefusal {
    pub number: u8,
    pub offset: usize,
}

/// Whether the seal of an image is the one of its records. Clears the key buffer.
pub fn check(code: u8, buffer: &mut [u8], image: &[u8]) -> Result<bool, ImageRefusal> {
    with_family!(code, F => check_with::<F>(buffer, image), unknown => {
        buffer.fill(0);
        Err(ImageRefusal { number: UNKNOWN_CODE, offset: 0 })
    })
}

fn check_with<F: Family>(buffer: &mut [u8], image: &[u8]) -> Result<bool, ImageRefusal> {
    let mut site = Site::<Gather<F>>::open(buffer).map_err(|number| ImageRefusal { number, offset: 0 })?;
    let mut offset = 0;
    loop {
        let refused = |number| ImageRefusal { number, offset };
        let (tag, value) = next_field(&image[offset..]).ok_or(refused(NOT_AN_IMAGE))?;
        let end = offset + 3 + value.len();
        match read_field(tag, value).ok_or(refused(NOT_AN_IMAGE))? {
            ImageField::Seal { .. } if end < image.len() => return Err(ImageRefusal { number: NOT_AN_IMAGE, offset: end }),
            ImageField::Seal { code, .. } if code != F::CODE => return Err(refused(ANOTHER_FAMILY)),
            ImageField::Seal { seal, .. } => return Ok(seal == site.seal().to_be_bytes()),
            ImageField::Record(record) => site.take(&record).map_err(refused)?,
        };
        offset = end;
    }
}

/// The next field by framing alone: its tag and its value.
fn next_field(rest: &[u8]) -> Option<(u8, &[u8])> {
    let (&[tag, high, low], rest) = rest.split_first_chunk()?;
    let value = rest.get(..u16::from_be_bytes([high, low]) as usize)?;
    Some((tag, value))
}

enum ImageField<'a> {
    Record(Record<'a>),
    Seal { code: u8, seal: &'a [u8] },
}

/// What a field says, or none for an unknown tag or a length that the tag does not allow.
fn read_field(tag: u8, value: &[u8]) -> Option<ImageField<'_>> {
    let number = |high: u8, low: u8| u16::from_be_bytes([high, low]) as u32;
    Some(match (tag, value) {
        (1, &[a, b, ref name @ ..]) => ImageField::Record(Record::Zone { number: number(a, b), name }),
        (2, &[a, b, c, d, kind]) => ImageField::Record(Record::Point { number: number(a, b), zone: number(c, d), kind }),
        (3, &[a, b, c, d]) => ImageField::Record(Record::Rule { zone: number(a, b), point: number(c, d) }),
        (SEAL_TAG, &[code, ref seal @ ..]) if seal.len() == 8 => ImageField::Seal { code, seal },
        _ => return None,
    })
}

#[cfg(test)]
mod tests {
    use super::*;

    fn buffer() -> [u8; 16] {
        [0, 0, 0, 0, 0, 0, 0, 1, 0, 0, 0, 0, 0, 0, 0, 0]
    }

    fn made(text: &[u8], room: usize) -> (Result<usize, Refusal>, Vec<u8>) {
        let (mut buffer, mut out) = (buffer(), vec![0xAA; room]);
        let answer = make(3, text, &mut buffer, &mut out);
        assert_eq!(buffer, [0; 16]);
        (answer, out)
    }

    fn image(text: &[u8]) -> Vec<u8> {
        let (answer, mut out) = made(text, LONGEST_IMAGE);
        out.truncate(answer.unwrap());
        out
    }

    fn checked(code: u8, image: &[u8]) -> Result<bool, ImageRefusal> {
        let mut buffer = buffer();
        let answer = check(code, &mut buffer, image);
        assert_eq!(buffer, [0; 16]);
        answer
    }

    fn refused(number: u8, offset: usize) -> Result<bool, ImageRefusal> {
        Err(ImageRefusal { number, offset })
    }

    const ZONE: &[u8] = b"zone 7 \"A\"\n";
    const ZONE_IMAGE: [u8; 18] = [1, 0, 3, 0, 7, 0x41, 0x53, 0, 9, 3, 1, 0, 3, 0, 7, 0x41, 0x80, 1];

    #[test]
    fn a_zone_and_its_image() {
        assert_eq!(image(ZONE), ZONE_IMAGE);
        assert_eq!(checked(3, &ZONE_IMAGE), Ok(true));
    }

    #[test]
    fn outputs() {
        let (answer, out) = made(ZONE, 20);
        assert_eq!(answer, Ok(18));
        assert_eq!(out, [&ZONE_IMAGE[..], &[0, 0]].concat());
        for room in 0..18 {
            assert_eq!(made(ZONE, room), (Err(Refusal::of_no_line(50)), vec![0; room]));
        }
        assert_eq!(made(b"", 12).0, Ok(12));
        assert_eq!(made(b"", 11).0, Err(Refusal::of_no_line(50)));
    }

    #[test]
    fn lines_of_a_text() {
        let at = |number, line, column| Err(Refusal { number, line, column });
        assert_eq!(made(b"zone 7 \"A\"\n\nzone 07 \"B\"\n", 9).0, at(11, 3, 5));
        assert_eq!(made(b"zone 7 \"A\"\nzone 7 \"A\"", 99).0, at(30, 2, 0));
        assert_eq!(made(b"\n\n# x\nrule 7 3", 99).0, at(31, 4, 0));
        assert_eq!(made(b"zone 7 \"\"", 99).0, at(21, 1, 0));
        assert_eq!(image(b"\n\n\n"), image(b""));
        assert_eq!(image(b"#"), image(b""));
    }

    #[test]
    fn refused_openings() {
        for code in [0, 4, 255] {
            let (mut buffer, mut out) = ([7; 16], [7; 5]);
            assert_eq!(make(code, ZONE, &mut buffer, &mut out), Err(Refusal::of_no_line(4)));
            assert_eq!((buffer, out), ([0; 16], [0; 5]));
            assert_eq!(check(code, &mut [7; 16], &ZONE_IMAGE), refused(4, 0));
        }
        assert_eq!(check(1, &mut [7; 15], &ZONE_IMAGE), refused(1, 0));
        assert_eq!(check(3, &mut [0; 16], &ZONE_IMAGE), refused(2, 0));
    }

    #[test]
    fn images_at_fault() {
        for len in 0..6 {
            assert_eq!(checked(3, &ZONE_IMAGE[..len]), refused(40, 0));
        }
        for len in 6..18 {
            assert_eq!(checked(3, &ZONE_IMAGE[..len]), refused(40, 6));
        }
        assert_eq!(checked(3, &[&ZONE_IMAGE[..], &[0]].concat()), refused(40, 18));
        let mut other = ZONE_IMAGE;
        other[9] = 1;
        assert_eq!(checked(3, &other), refused(41, 6));
        assert_eq!(checked(3, &[&other[..], &[0]].concat()), refused(40, 18));
        let mut other = ZONE_IMAGE;
        other[17] ^= 1;
        assert_eq!(checked(3, &other), Ok(false));
        assert_eq!(checked(3, &[1, 0, 2, 0, 7]), refused(21, 0));
        assert_eq!(checked(3, &[1, 0, 1, 0]), refused(40, 0));
        assert_eq!(checked(3, &[4, 0, 0]), refused(40, 0));
        assert_eq!(checked(3, &[&ZONE_IMAGE[..6], &[2, 0, 5, 0, 1, 0, 7, 9]].concat()), refused(20, 6));
    }
}
