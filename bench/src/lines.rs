//! The lines of a site file.

/// What a line says. A name is as it stands in the line, with its escapes.
#[derive(Debug, PartialEq)]
pub enum Line<'a> {
    Blank,
    Zone { number: u32, name: &'a [u8] },
    Point { number: u32, zone: u32, kind: u8 },
    Rule { zone: u32, point: u32 },
}

pub const SYNTAX: u8 = 11;
pub const ESCAPE: u8 = 12;

/// Why a line says nothing: 11 or 12, and the length of its longest front that could have become a line.
#[derive(Debug, PartialEq)]
pub struct Fault {
    pub number: u8,
    pub column: usize,
}

const KINDS: [(&[u8], u8); 4] = [(b"smoke", 1), (b"heat", 2), (b"call", 3), (b"sounder", 4)];

const MOST_DIGITS: usize = 5;

/// Reads a line, given without its line feed.
pub fn read(line: &[u8]) -> Result<Line<'_>, Fault> {
    let mut cursor = Cursor { line, at: 0 };
    match line.first() {
        None | Some(b'#') => Ok(Line::Blank),
        Some(b'z') => cursor.zone(),
        Some(b'p') => cursor.point(),
        Some(b'r') => cursor.rule(),
        Some(_) => Err(cursor.fault(SYNTAX)),
    }
}

/// A line and how far it is read. Everything before `at` can be completed to a line.
struct Cursor<'a> {
    line: &'a [u8],
    at: usize,
}

impl<'a> Cursor<'a> {
    fn zone(&mut self) -> Result<Line<'a>, Fault> {
        self.literal(b"zone ")?;
        let number = self.number()?;
        self.literal(b" \"")?;
        let name = self.name()?;
        self.end()?;
        Ok(Line::Zone { number, name })
    }

    fn point(&mut self) -> Result<Line<'a>, Fault> {
        self.literal(b"point ")?;
        let number = self.number()?;
        self.literal(b" ")?;
        let zone = self.number()?;
        self.literal(b" ")?;
        let kind = self.kind()?;
        self.end()?;
        Ok(Line::Point { number, zone, kind })
    }

    fn rule(&mut self) -> Result<Line<'a>, Fault> {
        self.literal(b"rule ")?;
        let zone = self.number()?;
        self.literal(b" ")?;
        let point = self.number()?;
        self.end()?;
        Ok(Line::Rule { zone, point })
    }

    fn fault(&self, number: u8) -> Fault {
        Fault { number, column: self.at }
    }

    fn next(&self) -> Option<u8> {
        self.line.get(self.at).copied()
    }

    fn literal(&mut self, expected: &[u8]) -> Result<(), Fault> {
        for &byte in expected {
            if self.next() != Some(byte) {
                return Err(self.fault(SYNTAX));
            }
            self.at += 1;
        }
        Ok(())
    }

    fn number(&mut self) -> Result<u32, Fault> {
        let mut value = match self.next() {
            Some(byte @ b'1'..=b'9') => (byte - b'0') as u32,
            _ => return Err(self.fault(SYNTAX)),
        };
        self.at += 1;
        for _ in 1..MOST_DIGITS {
            let Some(byte @ b'0'..=b'9') = self.next() else { break };
            value = 10 * value + (byte - b'0') as u32;
            self.at += 1;
        }
        Ok(value)
    }

    /// The rest of a name whose quote is read, and its closing quote.
    fn name(&mut self) -> Result<&'a [u8], Fault> {
        let start = self.at;
        loop {
            match self.next() {
                Some(b'"') => break,
                Some(b'\\') => self.escape()?,
                Some(b' '..=b'~') => self.at += 1,
                _ => return Err(self.fault(SYNTAX)),
            }
        }
        let name = &self.line[start..self.at];
        self.at += 1;
        Ok(name)
    }

    fn escape(&mut self) -> Result<(), Fault> {
        self.at += 1;
        match self.next().and_then(unescaped) {
            Some(_) => self.at += 1,
            None => return Err(self.fault(ESCAPE)),
        }
        Ok(())
    }

    /// One of the four words. No word begins another, so that the one with the longest front in common decides.
    fn kind(&mut self) -> Result<u8, Fault> {
        let rest = &self.line[self.at..];
        for (word, number) in KINDS {
            if rest.starts_with(word) {
                self.at += word.len();
                return Ok(number);
            }
        }
        self.at += KINDS.iter().map(|(word, _)| common_front(word, rest)).max().unwrap_or(0);
        Err(self.fault(SYNTAX))
    }

    fn end(&self) -> Result<(), Fault> {
        if self.at == self.line.len() { Ok(()) } else { Err(self.fault(SYNTAX)) }
    }
}

fn common_front(a: &[u8], b: &[u8]) -> usize {
    a.iter().zip(b).take_while(|(a, b)| a == b).count()
}

/// The byte for which an escape stands, by its letter.
fn unescaped(letter: u8) -> Option<u8> {
    match letter {
        b'"' | b'\\' => Some(letter),
        b'n' => Some(b'\n'),
        _ => None,
    }
}

/// Writes the bytes for which a name stands, as far as there is room, and answers how many it wrote.
pub fn decode(name: &[u8], room: &mut [u8]) -> usize {
    let mut rest = name.iter();
    let mut count = 0;
    for place in room {
        let byte = match rest.next() {
            Some(b'\\') => rest.next().and_then(|&letter| unescaped(letter)),
            plain => plain.copied(),
        };
        let Some(byte) = byte else { break };
        *place = byte;
        count += 1;
    }
    count
}

#[cfg(test)]
mod tests {
    use super::*;
    use crate::generate::Random;
    use crate::generate::lines::{any_line, damages};

    /// What a line says, by cutting it up at its spaces and quotes: says nothing of where a fault is.
    fn spelt(line: &[u8]) -> Option<(Vec<u32>, Vec<u8>)> {
        if line.is_empty() || (line[0] == b'#' && !line.contains(&b'\n')) {
            return Some((vec![], vec![]));
        }
        let line = String::from_utf8(line.to_vec()).ok()?;
        if let Some(rest) = line.strip_prefix("zone ") {
            let (number, name) = rest.split_once(' ')?;
            let name = name.strip_prefix('"')?.strip_suffix('"')?;
            return Some((vec![numeral(number)?], plain(name)?));
        }
        let parts: Vec<&str> = line.split(' ').collect();
        match parts[..] {
            ["point", n, z, kind] => {
                let kind = ["smoke", "heat", "call", "sounder"].iter().position(|&word| word == kind)? as u32 + 1;
                Some((vec![numeral(n)?, numeral(z)?, kind], vec![]))
            }
            ["rule", z, n] => Some((vec![numeral(z)?, numeral(n)?], vec![])),
            _ => None,
        }
    }

    fn numeral(part: &str) -> Option<u32> {
        let digits = (1..=5).contains(&part.len()) && part.bytes().all(|byte| byte.is_ascii_digit());
        if digits && !part.starts_with('0') { part.parse().ok() } else { None }
    }

    fn plain(name: &str) -> Option<Vec<u8>> {
        let mut bytes = Vec::new();
        let mut rest = name;
        while let Some(&first) = rest.as_bytes().first() {
            let (byte, length) = match rest.as_bytes() {
                [b'\\', b'"', ..] => (b'"', 2),
                [b'\\', b'\\', ..] => (b'\\', 2),
                [b'\\', b'n', ..] => (b'\n', 2),
                [b'"' | b'\\', ..] => return None,
                _ if (0x20..=0x7E).contains(&first) => (first, 1),
                _ => return None,
            };
            bytes.push(byte);
            rest = &rest[length..];
        }
        Some(bytes)
    }

    /// Whatever can be completed at all is completed by the end of one of these.
    fn completable(front: &[u8]) -> bool {
        let lines = [r#"zone 1 "\n""#, "point 1 1 smoke", "point 1 1 heat", "point 1 1 call", "point 1 1 sounder", "rule 1 1"];
        let completes = |end: &[u8]| spelt(&[front, end].concat()).is_some();
        lines.iter().any(|line| (0..=line.len()).any(|i| completes(&line.as_bytes()[i..])))
    }

    fn column_slowly(line: &[u8]) -> usize {
        (0..=line.len()).rev().find(|&i| completable(&line[..i])).unwrap()
    }

    /// Whether an odd number of backslashes ends a front that stands inside a name: the last of them begins an escape.
    fn in_escape(front: &[u8]) -> bool {
        front.iter().rev().take_while(|&&byte| byte == b'\\').count() % 2 == 1
    }

    fn said(line: &Line) -> (Vec<u32>, Vec<u8>) {
        match *line {
            Line::Blank => (vec![], vec![]),
            Line::Zone { number, name } => {
                let mut bytes = vec![0; name.len()];
                let count = decode(name, &mut bytes);
                bytes.truncate(count);
                (vec![number], bytes)
            }
            Line::Point { number, zone, kind } => (vec![number, zone, kind as u32], vec![]),
            Line::Rule { zone, point } => (vec![zone, point], vec![]),
        }
    }

    fn compare(line: &[u8]) {
        let shown = String::from_utf8_lossy(line);
        match (read(line), spelt(line)) {
            (Ok(answer), Some(expected)) => assert_eq!(said(&answer), expected, "{shown}"),
            (Err(fault), None) => {
                let column = column_slowly(line);
                let number = if in_escape(&line[..column]) { ESCAPE } else { SYNTAX };
                assert_eq!(fault, Fault { number, column }, "{shown}");
            }
            (answer, expected) => panic!("{shown}: {answer:?}, expected {expected:?}"),
        }
    }

    #[test]
    fn worked_faults() {
        let worked: [(&[u8], u8, usize); 9] = [
            (br#"zone 07 "A""#, 11, 5),
            (br#"zone 123456 "A""#, 11, 10),
            (br#"zone 7 "A\q""#, 12, 10),
            (br#"zone 7 "A"#, 11, 9),
            (br#"zone 7 "A\"#, 12, 10),
            (br#"zone 7 "A\\"#, 11, 11),
            (b"rule 7 3 ", 11, 8),
            (b"point 3 7 smog", 11, 13),
            (br#"Zone 7 "A""#, 11, 0),
        ];
        for (line, number, column) in worked {
            assert_eq!(read(line), Err(Fault { number, column }));
        }
    }

    #[test]
    fn a_quote_after_a_backslash_does_not_end_a_name() {
        let Ok(line) = read(br#"zone 2 "Stair \"B\"""#) else { panic!("the line is refused") };
        assert_eq!(said(&line), (vec![2], br#"Stair "B""#.to_vec()));
    }

    #[test]
    fn lines_and_all_their_damages_agree_with_the_grammar() {
        let mut random = Random::new(5);
        for _ in 0..60 {
            let line = any_line(&mut random);
            compare(&line);
            damages(&mut random, &line).iter().filter(|line| !line.contains(&b'\n')).for_each(|line| compare(line));
        }
    }

    #[test]
    fn decoding_stops_where_the_room_ends() {
        let mut room = [9; 3];
        assert_eq!(decode(br#"a\"b\n"#, &mut room), 3);
        assert_eq!(&room, b"a\"b");
        let mut room = [9; 3];
        assert_eq!(decode(br#"\\"#, &mut room), 1);
        assert_eq!(room, [b'\\', 9, 9]);
    }
}
