//! Texts of whole sites.

use super::Random;
use super::lines::{KINDS, any_line, comment, damage, point_line, rule_line, written_name, zone_line};
use crate::site::{LONGEST_MESSAGE, LONGEST_NAME, POINTS, ZONES};

/// What a text declared so far.
#[derive(Default)]
struct Declared {
    zones: Vec<u32>,
    points: Vec<u32>,
}

/// A text of some lines. One line in `fault_every` may be refused; none is where that is 0.
pub fn text(random: &mut Random, lines: usize, fault_every: usize) -> Vec<u8> {
    let mut declared = Declared::default();
    let mut text = Vec::new();
    for _ in 0..lines {
        let faulty = fault_every != 0 && random.one_in(fault_every);
        let line = if faulty { doubtful_line(random, &declared) } else { sound_line(random, &mut declared) };
        text.extend(line);
        text.push(b'\n');
    }
    if random.one_in(2) {
        text.pop();
    }
    text
}

fn sound_line(random: &mut Random, declared: &mut Declared) -> Vec<u8> {
    match random.below(16) {
        0 => Vec::new(),
        1 => comment(random),
        2..=5 => sound_zone(random, declared),
        6..=10 => sound_point(random, declared),
        _ => sound_rule(random, declared),
    }
}

fn sound_zone(random: &mut Random, declared: &mut Declared) -> Vec<u8> {
    let number = random.between(1, ZONES);
    if declared.zones.contains(&number) {
        return Vec::new();
    }
    declared.zones.push(number);
    let len = random.between(1, LONGEST_NAME as u32) as usize;
    zone_line(number, &written_name(random, len))
}

fn sound_point(random: &mut Random, declared: &mut Declared) -> Vec<u8> {
    let number = random.between(1, POINTS);
    if declared.zones.is_empty() || declared.points.contains(&number) {
        return Vec::new();
    }
    declared.points.push(number);
    point_line(number, *random.pick(&declared.zones), KINDS[random.below(4)])
}

fn sound_rule(random: &mut Random, declared: &Declared) -> Vec<u8> {
    if declared.points.is_empty() {
        return Vec::new();
    }
    rule_line(*random.pick(&declared.zones), *random.pick(&declared.points))
}

/// A line that is likely to be refused: declared twice or not at all, out of range, with a name that is too long or empty, or misspelt.
fn doubtful_line(random: &mut Random, declared: &Declared) -> Vec<u8> {
    let zone = doubtful_number(random, &declared.zones, ZONES);
    let point = doubtful_number(random, &declared.points, POINTS);
    match random.below(5) {
        0 => {
            let len = *random.pick(&[0, 1, LONGEST_NAME, LONGEST_NAME + 1, 100]);
            zone_line(zone, &written_name(random, len))
        }
        1 => point_line(point, zone, KINDS[random.below(4)]),
        2 => rule_line(zone, point),
        3 => any_line(random),
        _ => {
            let line = any_line(random);
            damage(random, &line)
        }
    }
}

fn doubtful_number(random: &mut Random, declared: &[u32], most: u32) -> u32 {
    match random.below(4) {
        0 => *random.pick(&[1, most - 1, most, most + 1, 65_536 + 1, 99_999]),
        1 => random.between(1, most),
        _ if declared.is_empty() => 1,
        _ => *random.pick(declared),
    }
}

/// A text with a message of the greatest length up to `most` bytes: a few zones and points, then rules.
pub fn mostly_rules(random: &mut Random, most: usize) -> Vec<u8> {
    filled(random, 10, 50, most)
}

/// The same with every zone and point that a book has a place for, and rules for less than three quarters of the message.
pub fn mixed(random: &mut Random, most: usize) -> Vec<u8> {
    filled(random, ZONES, POINTS, most)
}

fn filled(random: &mut Random, zones: u32, points: u32, most: usize) -> Vec<u8> {
    let mut text = Vec::new();
    let mut message_len = 0;
    for number in 1..=zones {
        let len = random.between(1, LONGEST_NAME as u32) as usize;
        text.extend(zone_line(number, &written_name(random, len)));
        text.push(b'\n');
        message_len += 5 + len;
    }
    for number in 1..=points {
        text.extend(point_line(number, random.between(1, zones), KINDS[random.below(4)]));
        text.push(b'\n');
        message_len += 8;
    }
    while message_len + 7 <= most {
        text.extend(rule_line(random.between(1, zones), random.between(1, points)));
        text.push(b'\n');
        message_len += 7;
    }
    text
}

/// A text whose message comes to the longest that is allowed, to a byte less or to a byte more, and then goes on a little.
pub fn about_full(random: &mut Random) -> Vec<u8> {
    let mut text = b"zone 1 \"A\"\npoint 1 1 heat\n".to_vec();
    let mut message_len = 6 + 8;
    // Rules leave over so many bytes, or up to six more. They go into a name, which is then one byte too short, exact, or one too long.
    let left_over = random.between(2, LONGEST_NAME as u32 - 7) as usize;
    while message_len + 7 + 5 + left_over <= LONGEST_MESSAGE {
        text.extend(b"rule 1 1\n");
        message_len += 7;
    }
    let exact = LONGEST_MESSAGE - 5 - message_len;
    let name_len = exact - 1 + random.below(3);
    text.extend(zone_line(2, &vec![b'x'; name_len]));
    for line in ["\n# end", "\nrule 2 1", "\n"].iter().take(random.below(4)) {
        text.extend(line.as_bytes());
    }
    text
}

#[cfg(test)]
mod tests {
    use super::*;
    use crate::image::{LONGEST_IMAGE, Refusal, make};

    fn made(text: &[u8]) -> Result<usize, Refusal> {
        make(3, text, &mut [1; 16], &mut vec![0; LONGEST_IMAGE])
    }

    #[test]
    fn sound_texts_are_taken() {
        let mut random = Random::new(7);
        for lines in 0..200 {
            let text = text(&mut random, lines, 0);
            assert!(made(&text).is_ok());
        }
    }

    #[test]
    fn doubtful_texts_are_refused_by_every_number() {
        let mut random = Random::new(8);
        let refused: Vec<u8> = (0..2000).filter_map(|_| made(&text(&mut random, 40, 30)).err()).map(|refusal| refusal.number).collect();
        for number in [11, 12, 20, 21, 30, 31] {
            assert!(refused.contains(&number), "{number}");
        }
    }

    #[test]
    fn filled_texts_come_near_to_their_length() {
        let mut random = Random::new(9);
        for most in [30_000, 59_999, 60_000] {
            for text in [mostly_rules(&mut random, most), mixed(&mut random, most)] {
                let message_len = made(&text).unwrap() - 12;
                assert!(message_len <= most && most < message_len + 7);
            }
        }
    }

    #[test]
    fn full_texts_are_just_taken_or_just_refused() {
        let mut random = Random::new(10);
        let answers: Vec<_> = (0..60).map(|_| made(&about_full(&mut random))).collect();
        assert!(answers.contains(&Ok(60_011)) && answers.contains(&Ok(60_012)));
        assert!(answers.iter().any(|answer| answer.is_err_and(|refusal| refusal.number == 32)));
        assert!(answers.iter().all(|answer| answer.is_ok() || answer.is_err_and(|refusal| refusal.number == 32)));
    }
}
