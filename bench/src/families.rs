//! The three families of keyed hashes, and the gather.

use crate::gf2::{double, irreducible};
use std::hint::black_box;

/// Why a string is no key, by its number.
pub const WRONG_LENGTH: u8 = 1;
pub const ZERO: u8 = 2;
pub const REDUCIBLE: u8 = 3;

pub trait Family: Sized {
    const CODE: u8;
    const KEY_LEN: usize;

    /// The first state of a key, or the number by which the string is refused.
    fn open(key: &[u8]) -> Result<Self, u8>;

    /// Goes on by each byte of a part of the message.
    fn absorb(&mut self, part: &[u8]);

    /// The hash of the message so far. More may follow.
    fn digest(&mut self) -> u64;
}

fn word(bytes: &[u8]) -> Option<u64> {
    Some(u64::from_be_bytes(bytes.try_into().ok()?))
}

/// The message with a leading one, times x^64, modulo x^64 + p.
pub struct Division {
    remainder: u64,
    /// t x^64 modulo x^64 + p for each byte t.
    table: [u64; 256],
}

impl Family for Division {
    const CODE: u8 = 1;
    const KEY_LEN: usize = 8;

    fn open(key: &[u8]) -> Result<Self, u8> {
        let p = word(key).ok_or(WRONG_LENGTH)?;
        if !irreducible(p) {
            return Err(REDUCIBLE);
        }
        Ok(Division { remainder: p, table: division_table(p) })
    }

    fn absorb(&mut self, part: &[u8]) {
        let mut remainder = self.remainder;
        for &byte in part {
            remainder = remainder << 8 ^ self.table[((remainder >> 56) as u8 ^ byte) as usize];
        }
        self.remainder = remainder;
    }

    fn digest(&mut self) -> u64 {
        self.remainder
    }
}

fn division_table(p: u64) -> [u64; 256] {
    let mut table = [0; 256];
    let mut row = p;
    for bit in 0..8 {
        let half = 1 << bit;
        for i in 0..half {
            table[half + i] = table[i] ^ row;
        }
        row = double(row, p);
    }
    table
}

/// The sum of those states of a shift register that stand at a one of the message.
pub struct Toeplitz {
    taps: u64,
    state: u64,
    sum: u64,
}

impl Family for Toeplitz {
    const CODE: u8 = 2;
    const KEY_LEN: usize = 16;

    fn open(key: &[u8]) -> Result<Self, u8> {
        if key.len() != Self::KEY_LEN {
            return Err(WRONG_LENGTH);
        }
        let taps = word(&key[..8]).ok_or(WRONG_LENGTH)?;
        let state = word(&key[8..]).ok_or(WRONG_LENGTH)?;
        if state == 0 {
            return Err(ZERO);
        }
        if !irreducible(taps) {
            return Err(REDUCIBLE);
        }
        Ok(Toeplitz { taps, state, sum: 0 })
    }

    fn absorb(&mut self, part: &[u8]) {
        let Toeplitz { taps, mut state, mut sum } = *self;
        for &byte in part {
            for bit in (0..8).rev() {
                sum ^= state & (byte as u64 >> bit & 1).wrapping_neg();
                state = state >> 1 | ((state & taps).count_ones() as u64) << 63;
            }
        }
        (self.state, self.sum) = (state, sum);
    }

    fn digest(&mut self) -> u64 {
        self.sum ^ self.state
    }
}

/// The message's words as coefficients, evaluated at the point.
pub struct Evaluation {
    /// The point times each half byte at each of its sixteen places.
    table: [[u64; 16]; 16],
    value: u64,
    /// The bytes of a word that is not complete yet, and how many they are.
    begun: u64,
    count: u32,
}

const EVALUATION_MODULUS: u64 = 0x1B;

impl Family for Evaluation {
    const CODE: u8 = 3;
    const KEY_LEN: usize = 8;

    fn open(key: &[u8]) -> Result<Self, u8> {
        let point = word(key).ok_or(WRONG_LENGTH)?;
        if point == 0 {
            return Err(ZERO);
        }
        Ok(Evaluation { table: evaluation_table(point), value: 1, begun: 0, count: 0 })
    }

    fn absorb(&mut self, part: &[u8]) {
        let missing = (8 - self.count as usize) % 8;
        let (front, rest) = part.split_at(missing.min(part.len()));
        self.begin(front);
        let (words, end) = rest.as_chunks::<8>();
        let mut value = self.value;
        for bytes in words {
            value = times_point(&self.table, value) ^ u64::from_be_bytes(*bytes);
        }
        self.value = value;
        self.begin(end);
    }

    fn digest(&mut self) -> u64 {
        let last = (self.begun << 8 | 0x80) << (8 * (7 - self.count));
        times_point(&self.table, times_point(&self.table, self.value) ^ last)
    }
}

impl Evaluation {
    /// Takes bytes of one word.
    fn begin(&mut self, bytes: &[u8]) {
        for &byte in bytes {
            self.begun = self.begun << 8 | byte as u64;
        }
        self.count += bytes.len() as u32;
        if self.count == 8 {
            self.value = times_point(&self.table, self.value) ^ self.begun;
            (self.begun, self.count) = (0, 0);
        }
    }
}

fn evaluation_table(point: u64) -> [[u64; 16]; 16] {
    let mut tables = [[0; 16]; 16];
    let mut row = point;
    for table in &mut tables {
        for bit in 0..4 {
            let half = 1 << bit;
            for i in 0..half {
                table[half + i] = table[i] ^ row;
            }
            row = double(row, EVALUATION_MODULUS);
        }
    }
    tables
}

fn times_point(table: &[[u64; 16]; 16], a: u64) -> u64 {
    table.iter().enumerate().fold(0, |sum, (i, row)| sum ^ row[(a >> (4 * i)) as usize & 15])
}

const ROOM: usize = 64;

/// Any family, handed its message in fewer and longer parts.
pub struct Gather<F> {
    below: F,
    held: [u8; ROOM],
    count: usize,
}

impl<F: Family> Gather<F> {
    fn hand_down(&mut self) {
        self.below.absorb(&self.held[..self.count]);
        self.count = 0;
    }
}

impl<F: Family> Family for Gather<F> {
    const CODE: u8 = F::CODE;
    const KEY_LEN: usize = F::KEY_LEN;

    fn open(key: &[u8]) -> Result<Self, u8> {
        Ok(Gather { below: F::open(key)?, held: [0; ROOM], count: 0 })
    }

    fn absorb(&mut self, part: &[u8]) {
        if part.len() > ROOM - self.count {
            self.hand_down();
        }
        if part.len() > ROOM {
            self.below.absorb(part);
        } else {
            self.held[self.count..self.count + part.len()].copy_from_slice(part);
            self.count += part.len();
        }
    }

    fn digest(&mut self) -> u64 {
        self.hand_down();
        self.below.digest()
    }
}

/// The refusal of a code that is none of 01 to 03.
pub const UNKNOWN_CODE: u8 = 4;

/// An expression in the type `$family`, which is the family of a code, or another one where there is no such family.
#[macro_export]
macro_rules! with_family {
    ($code:expr, $family:ident => $answer:expr, unknown => $unknown:expr) => {
        match $code {
            1 => {
                type $family = $crate::families::Division;
                $answer
            }
            2 => {
                type $family = $crate::families::Toeplitz;
                $answer
            }
            3 => {
                type $family = $crate::families::Evaluation;
                $answer
            }
            _ => $unknown,
        }
    };
}

/// How many bytes a key of a family has.
pub fn key_len(code: u8) -> Option<usize> {
    with_family!(code, F => Some(F::KEY_LEN), unknown => None)
}

/// 0 for a key, or the number by which the string is refused.
pub fn open(code: u8, gathered: bool, key: &[u8]) -> u8 {
    fn refusal<F: Family>(key: &[u8]) -> u8 {
        let opened = F::open(key);
        // The state is not used, but setting it up is part of opening and must not be optimised away: it is timed.
        black_box(&opened);
        opened.err().unwrap_or(0)
    }
    with_family!(
        code,
        F => if gathered { refusal::<Gather<F>>(key) } else { refusal::<F>(key) },
        unknown => UNKNOWN_CODE
    )
}

/// The hash of a message that is handed over in parts of a length, or all at once where that is 0. The hash is 0 where there is no key.
pub fn hash(code: u8, gathered: bool, key: &[u8], message: &[u8], part: usize) -> u64 {
    with_family!(
        code,
        F => if gathered { hash_with::<Gather<F>>(key, message, part) } else { hash_with::<F>(key, message, part) },
        unknown => 0
    )
}

fn hash_with<F: Family>(key: &[u8], message: &[u8], part: usize) -> u64 {
    let Ok(mut family) = F::open(key) else { return 0 };
    if part == 0 {
        family.absorb(message);
    } else {
        message.chunks(part).for_each(|part| family.absorb(part));
    }
    family.digest()
}

#[cfg(test)]
mod tests;
