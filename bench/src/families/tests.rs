//! The hashes by slow and plain definitions, and the examples of the documents.

use super::*;
use crate::generate::Random;
use crate::generate::keys::Keys;
use crate::gf2::{product, remainder};

const P: u64 = 0x1B;

fn bits(message: &[u8]) -> Vec<bool> {
    message.iter().flat_map(|byte| (0..8).rev().map(move |i| byte >> i & 1 == 1)).collect()
}

/// Long division, bit by bit.
fn division_slowly(p: u64, message: &[u8]) -> u64 {
    let mut dividend = vec![true];
    dividend.extend(bits(message));
    dividend.extend([false; 64]);
    let divisor: Vec<bool> = [true].into_iter().chain((0..64).rev().map(|i| p >> i & 1 == 1)).collect();
    let quotient_len = dividend.len() - 64;
    for i in 0..quotient_len {
        if dividend[i] {
            for (j, bit) in divisor.iter().enumerate() {
                dividend[i + j] ^= bit;
            }
        }
    }
    dividend[quotient_len..].iter().fold(0, |word, &bit| word << 1 | bit as u64)
}

/// The whole sequence first, then the sum.
fn toeplitz_slowly(p: u64, s: u64, message: &[u8]) -> u64 {
    let mut ones = bits(message);
    ones.push(true);
    let mut sequence: Vec<bool> = (0..64).map(|i| s >> i & 1 == 1).collect();
    for j in 0..ones.len() {
        let next = (0..64).filter(|i| p >> i & 1 == 1).fold(false, |sum, i| sum ^ sequence[j + i]);
        sequence.push(next);
    }
    let state = |j: usize| (0..64).fold(0, |word, i| word | (sequence[j + i] as u64) << i);
    (0..ones.len()).filter(|&j| ones[j]).fold(0, |sum, j| sum ^ state(j))
}

fn times(a: u64, b: u64) -> u64 {
    remainder(product(a, b), 1 << 64 | P as u128) as u64
}

fn power(a: u64, n: usize) -> u64 {
    (0..n).fold(1, |value, _| times(value, a))
}

/// The formula, with each power by itself.
fn evaluation_slowly(a: u64, message: &[u8]) -> u64 {
    let n = message.len() / 8 + 1;
    let mut padded = message.to_vec();
    padded.push(0x80);
    padded.resize(8 * n, 0);
    let words = padded.chunks(8).map(|bytes| bytes.iter().fold(0, |word, &byte| word << 8 | byte as u64));
    let sum = words.enumerate().fold(power(a, n), |sum, (i, word)| sum ^ times(word, power(a, n - 1 - i)));
    times(sum, a)
}

fn slowly(code: u8, key: &[u8], message: &[u8]) -> u64 {
    let first = word(&key[..8]).unwrap();
    match code {
        1 => division_slowly(first, message),
        2 => toeplitz_slowly(first, word(&key[8..]).unwrap(), message),
        _ => evaluation_slowly(first, message),
    }
}

fn whole(code: u8, key: &[u8], message: &[u8]) -> u64 {
    hash(code, false, key, message, 0)
}

#[test]
fn worked_examples() {
    let p = P.to_be_bytes();
    assert_eq!(whole(1, &p, &[]), 0x1B);
    assert_eq!(whole(1, &p, &[1]), 0x1B1B);
    let register = [P.to_be_bytes(), 1u64.to_be_bytes()].concat();
    assert_eq!(whole(2, &register, &[]), 1);
    assert_eq!(whole(2, &register, &[0x80]), 0x0100_0000_0000_0001);
    let zone = [1, 0, 3, 0, 7, 0x41];
    assert_eq!(whole(3, &1u64.to_be_bytes(), &[]), 0x8000_0000_0000_0001);
    assert_eq!(whole(3, &1u64.to_be_bytes(), &zone), 0x0100_0300_0741_8001);
    assert_eq!(whole(3, &2u64.to_be_bytes(), &zone), 0x0200_0600_0E83_0004);
}

#[test]
fn every_family_is_its_formula() {
    let mut random = Random::new(4);
    let keys = Keys::new(&mut random);
    for len in 0..150 {
        for code in 1..=3 {
            let key = keys.key(&mut random, code);
            let message = random.bytes(len);
            let expected = slowly(code, &key, &message);
            for part in [0, 1, 3, 7, 8, 9, 63, 64, 65] {
                for gathered in [false, true] {
                    let answer = hash(code, gathered, &key, &message, part);
                    assert_eq!(answer, expected, "code {code}, {len} bytes in parts of {part}");
                }
            }
        }
    }
}

#[test]
fn a_checksum_is_the_sum_with_as_many_zero_bytes() {
    // The published check value of the CRC with the polynomial of ECMA-182, over the digits 1 to 9.
    let p = 0x42F0_E1EB_A9EA_3693;
    let mut message = Division { remainder: p, table: division_table(p) };
    let mut zeros = Division { remainder: p, table: division_table(p) };
    message.absorb(b"123456789");
    zeros.absorb(&[0; 9]);
    assert_eq!(message.digest() ^ zeros.digest(), 0x6C40_DF5F_0B49_7347);
}

#[test]
fn refused_keys() {
    for code in 1..=3 {
        for len in (0..40).filter(|&len| Some(len) != key_len(code)) {
            assert_eq!(open(code, false, &vec![0x1B; len]), 1);
        }
    }
    assert_eq!(open(1, true, &5u64.to_be_bytes()), 3);
    assert_eq!(open(2, true, &[0; 16]), 2);
    assert_eq!(open(2, true, &[5u64.to_be_bytes(), 1u64.to_be_bytes()].concat()), 3);
    assert_eq!(open(3, true, &[0; 8]), 2);
    assert_eq!(open(4, true, &[0; 8]), 4);
}
