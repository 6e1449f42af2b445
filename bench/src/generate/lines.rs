//! Lines of the grammar, and what becomes of a line by one mistake.

use super::Random;

pub const KINDS: [&str; 4] = ["smoke", "heat", "call", "sounder"];

/// Some line of the grammar, whether or not a book would take it.
pub fn any_line(random: &mut Random) -> Vec<u8> {
    match random.below(12) {
        0 => Vec::new(),
        1 => comment(random),
        2..=5 => {
            let len = random.below(14);
            zone_line(any_number(random), &written_name(random, len))
        }
        6..=8 => point_line(any_number(random), any_number(random), KINDS[random.below(4)]),
        _ => rule_line(any_number(random), any_number(random)),
    }
}

pub fn comment(random: &mut Random) -> Vec<u8> {
    let len = random.below(12);
    let mut line = random.bytes(len);
    line.retain(|&byte| byte != b'\n');
    line.insert(0, b'#');
    line
}

pub fn zone_line(number: u32, name: &[u8]) -> Vec<u8> {
    [format!("zone {number} \"").as_bytes(), name, b"\""].concat()
}

pub fn point_line(number: u32, zone: u32, kind: &str) -> Vec<u8> {
    format!("point {number} {zone} {kind}").into_bytes()
}

pub fn rule_line(zone: u32, point: u32) -> Vec<u8> {
    format!("rule {zone} {point}").into_bytes()
}

/// A number of one to five digits, the lengths about equally often.
fn any_number(random: &mut Random) -> u32 {
    let most = *random.pick(&[9, 99, 999, 9999, 99_999]);
    random.between(1, most)
}

/// A name of so many characters as it stands in a line, with some escapes.
pub fn written_name(random: &mut Random, characters: usize) -> Vec<u8> {
    let mut name = Vec::new();
    for _ in 0..characters {
        if random.one_in(8) {
            name.extend([b'\\', *random.pick(b"\"\\n")]);
        } else {
            name.push(plain_character(random));
        }
    }
    name
}

fn plain_character(random: &mut Random) -> u8 {
    match random.between(0x20, 0x7E) as u8 {
        b'"' | b'\\' => b'~',
        byte => byte,
    }
}

/// What a byte is changed to, or what is put in front of it.
const STRANGE: [&[u8]; 20] = [
    b" ",
    b"  ",
    b"\t",
    b"\r",
    b"\n",
    b"\0",
    b"\x1F",
    b"\x7F",
    b"\x80",
    b"\xFF",
    b"\xC3\xA4",
    b"\"",
    b"\\",
    b"\\\\",
    b"\\q",
    b"\\\"",
    b"0",
    b"00007",
    b"123456",
    b"#",
];

/// Every single damage of a line at every place.
pub fn damages(random: &mut Random, line: &[u8]) -> Vec<Vec<u8>> {
    let mut damaged = Vec::new();
    for place in 0..=line.len() {
        let (front, back) = line.split_at(place);
        damaged.push(front.to_vec());
        damaged.extend(STRANGE.map(|strange| [front, strange, back].concat()));
        damaged.push([front, &[random.byte()], back].concat());
        if let Some((&byte, back)) = back.split_first() {
            damaged.push([front, back].concat());
            damaged.push([front, &[byte, byte], back].concat());
            damaged.extend(STRANGE.map(|strange| [front, strange, back].concat()));
            let others = [byte ^ 0x20, byte ^ 0x80, byte.wrapping_add(1), byte.wrapping_sub(1), random.byte()];
            damaged.extend(others.map(|other| [front, &[other], back].concat()));
        }
        if let [first, second, back @ ..] = back {
            damaged.push([front, &[*second, *first], back].concat());
        }
    }
    damaged
}

/// One damage of a line at one place.
pub fn damage(random: &mut Random, line: &[u8]) -> Vec<u8> {
    let all = damages(random, line);
    random.pick(&all).clone()
}
