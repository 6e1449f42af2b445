//! Polynomials over GF(2). The bit worth 2^i of a number is the coefficient at x^i. As a modulus, a word p stands for x^64 + p.

const X: u64 = 2;

/// a x modulo x^64 + p.
pub fn double(a: u64, p: u64) -> u64 {
    (a << 1) ^ (p & (a >> 63).wrapping_neg())
}

/// Whether x^64 + p is irreducible, by Rabin's test. The degree 64 has the one prime factor 2, so the test needs x^(2^32) and x^(2^64)
/// and a single greatest common divisor.
pub fn irreducible(p: u64) -> bool {
    if has_linear_factor(p) {
        return false;
    }
    let squaring = Squaring::new(p);
    let half = squaring.repeat(X, 32);
    coprime(p, half ^ X) && squaring.repeat(half, 32) == X
}

/// The same answer by Ben-Or's test, a greatest common divisor after each squaring. It is here to be timed beside the other.
pub fn irreducible_by_turns(p: u64) -> bool {
    if p & 1 == 0 {
        // x divides x^64 + p, and x^2 + x of the first turn.
        return false;
    }
    let squaring = Squaring::new(p);
    let mut power = X;
    (1..=32).all(|_| {
        power = squaring.square(power);
        coprime(p, power ^ X)
    })
}

/// Whether x or x + 1 divides x^64 + p: its value at 0 or at 1 is zero.
fn has_linear_factor(p: u64) -> bool {
    p & 1 == 0 || p.count_ones() & 1 == 1
}

/// Squaring modulo x^64 + p. Squares are additive, so the upper half of a word needs only the remainders of x^(64 + 2i), for i from 0 to
/// 31; they are summed up beforehand for each half byte.
struct Squaring {
    tables: [[u64; 16]; 8],
}

impl Squaring {
    fn new(p: u64) -> Self {
        let mut tables = [[0; 16]; 8];
        let mut row = p;
        for table in &mut tables {
            for bit in 0..4 {
                let half = 1 << bit;
                for i in 0..half {
                    table[half + i] = table[i] ^ row;
                }
                row = double(double(row, p), p);
            }
        }
        Squaring { tables }
    }

    fn square(&self, a: u64) -> u64 {
        let mut sum = spread(a as u32);
        for (i, table) in self.tables.iter().enumerate() {
            sum ^= table[(a >> (32 + 4 * i)) as usize & 15];
        }
        sum
    }

    fn repeat(&self, a: u64, times: u32) -> u64 {
        (0..times).fold(a, |power, _| self.square(power))
    }
}

/// A zero between each two bits: the square of a polynomial of a degree below 32.
fn spread(a: u32) -> u64 {
    let mut a = a as u64;
    a = (a | a << 16) & 0x0000_FFFF_0000_FFFF;
    a = (a | a << 8) & 0x00FF_00FF_00FF_00FF;
    a = (a | a << 4) & 0x0F0F_0F0F_0F0F_0F0F;
    a = (a | a << 2) & 0x3333_3333_3333_3333;
    (a | a << 1) & 0x5555_5555_5555_5555
}

/// Whether x^64 + p, with p odd, and g have no factor in common but 1.
///
/// Factors x of g do not matter, since x^64 + p has none. Of two polynomials with a constant term, the sum has none, and is lower than the
/// higher of the two once its factors x are gone.
fn coprime(p: u64, g: u64) -> bool {
    if g == 0 {
        return false;
    }
    let mut b = g >> g.trailing_zeros();
    let mut a = match p ^ b {
        0 => 1,
        low => low >> low.trailing_zeros() | 1 << (64 - low.trailing_zeros()),
    };
    while a != b {
        let sum = a ^ b;
        b = a.min(b);
        a = sum >> sum.trailing_zeros();
    }
    a == 1
}

/// The product of two polynomials of a degree below 64.
pub fn product(a: u64, b: u64) -> u128 {
    (0..64).filter(|i| b >> i & 1 == 1).fold(0, |sum, i| sum ^ (a as u128) << i)
}

/// The remainder of a by f, with f not zero.
pub fn remainder(mut a: u128, f: u128) -> u128 {
    while a.leading_zeros() <= f.leading_zeros() && a != 0 {
        a ^= f << (f.leading_zeros() - a.leading_zeros());
    }
    a
}

/// Whether f, of a degree from 1 to 64, is irreducible. Slow: it makes factors of a chosen degree for the generator, and tests.
pub fn irreducible_of_any_degree(f: u128) -> bool {
    let degree = f.ilog2();
    let mut power = remainder(X as u128, f);
    (1..=degree / 2).all(|_| {
        power = remainder(product(power as u64, power as u64), f);
        common_divisor(f, power ^ X as u128) == 1
    })
}

fn common_divisor(mut a: u128, mut b: u128) -> u128 {
    while b != 0 {
        (a, b) = (b, remainder(a, b));
    }
    a
}

#[cfg(test)]
mod tests {
    use super::*;
    use crate::generate::Random;

    /// By trial of every polynomial of a lower degree.
    fn irreducible_by_trial(f: u128) -> bool {
        (2..f).take_while(|d| 2 * d.ilog2() <= f.ilog2()).all(|d| remainder(f, d) != 0)
    }

    fn modulus(p: u64) -> u128 {
        1 << 64 | p as u128
    }

    #[test]
    fn low_degrees_agree_with_trial() {
        for f in 2..1 << 10 {
            assert_eq!(irreducible_of_any_degree(f), irreducible_by_trial(f), "{f:b}");
        }
    }

    #[test]
    fn degree_64_agrees_three_ways() {
        let mut random = Random::new(1);
        let words: Vec<u64> = (0..256).chain((0..4000).map(|_| random.word())).collect();
        let mut found = 0;
        for p in words {
            let answer = irreducible_of_any_degree(modulus(p));
            assert_eq!(irreducible(p), answer, "{p:016X}");
            assert_eq!(irreducible_by_turns(p), answer, "{p:016X}");
            found += answer as u32;
        }
        assert!(found > 20);
    }

    #[test]
    fn worked_words() {
        assert!(irreducible(0x1B));
        assert!(!irreducible(5));
        assert!(!irreducible(0));
        assert!(!irreducible(1));
    }

    #[test]
    fn products_of_two_factors_of_degree_32_are_refused() {
        let mut random = Random::new(2);
        let mut factors = Vec::new();
        while factors.len() < 8 {
            let f = 1 << 32 | random.word() & 0xFFFF_FFFF;
            if irreducible_of_any_degree(f as u128) {
                factors.push(f);
            }
        }
        for &f in &factors {
            for &g in &factors {
                let p = product(f, g) as u64;
                // The weaker test, x^(2^64) = x alone, passes the products of two different factors.
                assert_eq!(Squaring::new(p).repeat(X, 64) == X, f != g);
                assert!(!irreducible(p));
                assert!(!irreducible_by_turns(p));
            }
        }
    }

    #[test]
    fn squaring_is_a_product() {
        let mut random = Random::new(3);
        for _ in 0..1000 {
            let (p, a) = (random.word(), random.word());
            assert_eq!(Squaring::new(p).square(a), remainder(product(a, a), modulus(p)) as u64);
        }
    }
}
