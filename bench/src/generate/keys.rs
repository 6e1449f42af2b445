//! Keys, strings that are no keys, and polynomials whose factors are known.

use super::Random;
use crate::families::key_len;
use crate::gf2::{irreducible, irreducible_of_any_degree, product};
use crate::site::PAD_LEN;

/// Key polynomials are rare among words, so some are found beforehand.
pub struct Keys {
    irreducible: Vec<u64>,
    /// Irreducible polynomials of a lower degree, each with its degree.
    factors: Vec<(u32, Vec<u64>)>,
}

const FACTOR_DEGREES: [u32; 12] = [1, 2, 8, 16, 21, 31, 32, 33, 43, 48, 56, 63];

impl Keys {
    pub fn new(random: &mut Random) -> Self {
        let irreducible = found(512, || random.word(), irreducible);
        let factors = FACTOR_DEGREES.map(|degree| (degree, factors_of_degree(random, degree))).to_vec();
        Keys { irreducible, factors }
    }

    /// A word p for which x^64 + p is irreducible.
    pub fn irreducible(&self, random: &mut Random) -> u64 {
        *random.pick(&self.irreducible)
    }

    /// A word p for which x^64 + p is a product of two polynomials, irreducible ones among them.
    pub fn reducible(&self, random: &mut Random) -> u64 {
        let (degree, factor) = if random.one_in(2) {
            let (degree, factors) = random.pick(&self.factors);
            (*degree, *random.pick(factors))
        } else {
            let degree = random.between(1, 63);
            (degree, polynomial(random, degree))
        };
        let other = match self.factors.iter().find(|(other, _)| degree + other == 64) {
            Some((_, factors)) if !random.one_in(8) => *random.pick(factors),
            _ => polynomial(random, 64 - degree),
        };
        product(factor, other) as u64
    }

    pub fn key(&self, random: &mut Random, code: u8) -> Vec<u8> {
        let nonzero = random.word().max(1).to_be_bytes();
        match code {
            1 => self.irreducible(random).to_be_bytes().to_vec(),
            2 => [self.irreducible(random).to_be_bytes(), nonzero].concat(),
            _ => nonzero.to_vec(),
        }
    }

    /// A string that is a key for some family, or nearly.
    pub fn doubtful_key(&self, random: &mut Random, code: u8) -> Vec<u8> {
        let mut key = Vec::new();
        for _ in 0..key_len(code).unwrap_or(8) / 8 {
            key.extend(self.doubtful_word(random).to_be_bytes());
        }
        if random.one_in(3) {
            let len = *random.pick(&[0, 1, 7, 8, 9, 15, 16, 17, 23, 24, 25, 32, 64]);
            key.resize(len, random.byte());
        }
        key
    }

    fn doubtful_word(&self, random: &mut Random) -> u64 {
        match random.below(5) {
            0 => 0,
            1 => random.word(),
            2 => self.reducible(random),
            _ => self.irreducible(random),
        }
    }

    /// A key and a pad.
    pub fn buffer(&self, random: &mut Random, code: u8) -> Vec<u8> {
        let mut buffer = self.key(random, code);
        let pad = if random.one_in(4) { vec![0; PAD_LEN] } else { random.bytes(PAD_LEN) };
        buffer.extend(pad);
        buffer
    }

    /// Mostly a key and a pad, and now and then what is none.
    pub fn any_buffer(&self, random: &mut Random, code: u8) -> Vec<u8> {
        if !random.one_in(20) {
            return self.buffer(random, code);
        }
        let mut buffer = self.doubtful_key(random, code);
        let pad_len = if random.one_in(3) { random.below(12) } else { PAD_LEN };
        buffer.extend(random.bytes(pad_len));
        buffer
    }
}

/// A polynomial of a degree, with any coefficients below.
fn polynomial(random: &mut Random, degree: u32) -> u64 {
    let leading = 1 << degree;
    leading | random.word() & (leading - 1)
}

fn factors_of_degree(random: &mut Random, degree: u32) -> Vec<u64> {
    found(4, || polynomial(random, degree), |f| irreducible_of_any_degree(f as u128))
}

/// The first so many that pass a test.
fn found(count: usize, candidate: impl FnMut() -> u64, passes: impl Fn(u64) -> bool) -> Vec<u64> {
    std::iter::repeat_with(candidate).filter(|&word| passes(word)).take(count).collect()
}

#[cfg(test)]
mod tests {
    use super::*;

    #[test]
    fn words_are_what_they_are_called() {
        let mut random = Random::new(6);
        let keys = Keys::new(&mut random);
        for _ in 0..300 {
            assert!(irreducible(keys.irreducible(&mut random)));
            assert!(!irreducible(keys.reducible(&mut random)));
        }
    }
}
