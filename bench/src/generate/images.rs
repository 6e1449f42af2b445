//! Messages as they stand in an image, and images with what can become of them.

use super::Random;
use crate::families::{hash, key_len};
use crate::image::{SEAL_FIELD_LEN, seal_field};
use crate::site::{LONGEST_MESSAGE, LONGEST_NAME, POINTS, ZONES};

/// An image under a key buffer that is key and pad of a family. Its seal is the one of its message, allowed or not, unless it was damaged.
pub fn image(random: &mut Random, code: u8, buffer: &[u8]) -> Vec<u8> {
    let fields = random.below(12);
    let mut image = message(random, fields);
    image.extend(sealed(code, buffer, &image));
    if random.one_in(4) { image } else { damaged(random, code, image) }
}

/// The seal field of a message.
pub fn sealed(code: u8, buffer: &[u8], message: &[u8]) -> [u8; SEAL_FIELD_LEN] {
    let (key, pad) = buffer.split_at(key_len(code).unwrap_or(0).min(buffer.len()));
    let pad = pad.iter().fold(0, |word, &byte| word << 8 | byte as u64);
    seal_field(code, hash(code, false, key, message, 0) ^ pad)
}

/// Some fields. Most are allowed after those before them.
fn message(random: &mut Random, fields: usize) -> Vec<u8> {
    let mut message = Vec::new();
    let (mut zones, mut points) = (0, 0);
    for _ in 0..fields {
        if random.one_in(12) {
            message.extend(doubtful_field(random, zones, points));
        } else if zones == 0 || random.one_in(4) && zones < ZONES {
            zones += 1;
            let len = random.between(1, LONGEST_NAME as u32) as usize;
            message.extend(zone_field(zones, &name(random, len)));
        } else if points == 0 || random.one_in(3) && points < POINTS {
            points += 1;
            message.extend(point_field(points, random.between(1, zones), random.between(1, 4) as u8));
        } else {
            message.extend(rule_field(random.between(1, zones), random.between(1, points)));
        }
    }
    message
}

fn doubtful_field(random: &mut Random, zones: u32, points: u32) -> Vec<u8> {
    let zone = *random.pick(&[0, 1, zones, zones + 1, ZONES, ZONES + 1, 0xFFFF]);
    let point = *random.pick(&[0, 1, points, points + 1, POINTS, POINTS + 1, 0xFFFF]);
    match random.below(6) {
        0 | 1 => {
            let len = *random.pick(&[0, 1, LONGEST_NAME, LONGEST_NAME + 1, 300]);
            let name = if random.one_in(2) { random.bytes(len) } else { name(random, len) };
            zone_field(zone, &name)
        }
        2 => point_field(point, zone, *random.pick(&[0, 1, 4, 5, 255])),
        3 => rule_field(zone, point),
        4 => {
            // A tag with a length that may not be its own.
            let len = random.below(11);
            field(*random.pick(&[1, 2, 3, 0x53]), &random.bytes(len))
        }
        _ => {
            let len = random.below(10);
            field(random.byte(), &random.bytes(len))
        }
    }
}

fn name(random: &mut Random, len: usize) -> Vec<u8> {
    (0..len).map(|_| if random.one_in(15) { b'\n' } else { random.between(0x20, 0x7E) as u8 }).collect()
}

fn field(tag: u8, value: &[u8]) -> Vec<u8> {
    [&[tag], &two_bytes(value.len() as u32)[..], value].concat()
}

fn two_bytes(number: u32) -> [u8; 2] {
    (number as u16).to_be_bytes()
}

fn zone_field(number: u32, name: &[u8]) -> Vec<u8> {
    field(1, &[&two_bytes(number)[..], name].concat())
}

fn point_field(number: u32, zone: u32, kind: u8) -> Vec<u8> {
    field(2, &[&two_bytes(number)[..], &two_bytes(zone), &[kind]].concat())
}

fn rule_field(zone: u32, point: u32) -> Vec<u8> {
    field(3, &[two_bytes(zone), two_bytes(point)].concat())
}

/// One thing that can become of an image on its way.
fn damaged(random: &mut Random, code: u8, mut image: Vec<u8>) -> Vec<u8> {
    let place = random.below(image.len());
    let seal = image.len() - SEAL_FIELD_LEN;
    match random.below(12) {
        0 => image[place] ^= 1 << random.below(8),
        1 => image[place] = random.byte(),
        2 => image.truncate(place),
        3 => image.truncate(seal),
        4 => {
            let len = 1 + random.below(15);
            image.extend(random.bytes(len));
        }
        5 => image.extend_from_within(seal..),
        6 => image[seal + 3] = *random.pick(&[0, 1, 2, 3, 4, 255]),
        7 => image[seal + 4 + random.below(8)] ^= 1 << random.below(8),
        8 => image[seal + 1 + random.below(2)] = *random.pick(&[0, 8, 9, 10]),
        9 => drop(image.remove(place)),
        10 => image.insert(place, random.byte()),
        _ => {
            let strange = if random.one_in(2) { doubtful_field(random, 1, 1) } else { seal_field(code, 0).to_vec() };
            image.splice(seal..seal, strange);
        }
    }
    image
}

/// A message of the longest that is allowed, of a byte less or a byte more, and then perhaps some rules too many.
pub fn about_full(random: &mut Random) -> Vec<u8> {
    let mut message = [zone_field(1, b"A"), point_field(1, 1, 2)].concat();
    let left_over = random.between(2, LONGEST_NAME as u32 - 7) as usize;
    while message.len() + 7 + 5 + left_over <= LONGEST_MESSAGE {
        message.extend(rule_field(1, 1));
    }
    let exact = LONGEST_MESSAGE - 5 - message.len();
    message.extend(zone_field(2, &vec![b'x'; exact - 1 + random.below(3)]));
    while random.one_in(3) {
        message.extend(rule_field(2, 1));
    }
    message
}

#[cfg(test)]
mod tests {
    use super::*;
    use crate::generate::keys::Keys;
    use crate::image::check;

    #[test]
    fn images_have_every_outcome() {
        let mut random = Random::new(11);
        let keys = Keys::new(&mut random);
        let mut outcomes = Vec::new();
        for i in 0..6000u32 {
            let code = (i % 3 + 1) as u8;
            let mut buffer = keys.buffer(&mut random, code);
            let image = image(&mut random, code, &buffer);
            outcomes.push(match check(code, &mut buffer, &image) {
                Ok(passed) => passed as u8,
                Err(refusal) => refusal.number,
            });
        }
        for outcome in [0, 1, 20, 21, 30, 31, 40, 41] {
            assert!(outcomes.contains(&outcome), "{outcome}");
        }
    }

    #[test]
    fn full_messages_are_just_passed_or_just_refused() {
        let mut random = Random::new(12);
        let mut outcomes = Vec::new();
        for _ in 0..60 {
            let mut buffer = [1; 16];
            let mut image = about_full(&mut random);
            image.extend(sealed(3, &buffer, &image));
            outcomes.push(check(3, &mut buffer, &image).map_err(|refusal| refusal.number));
        }
        assert!(outcomes.contains(&Ok(true)) && outcomes.contains(&Err(32)) && !outcomes.contains(&Ok(false)));
    }
}
