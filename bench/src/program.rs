//! What the program `sealsite` answers.

use crate::families::{Family, Gather, UNKNOWN_CODE, WRONG_LENGTH};
use crate::image::{Refusal, SEAL_FIELD_LEN, take_text};
use crate::site::{PAD_LEN, Site};
use crate::with_family;

pub const INPUT_TOO_LONG: u8 = 5;
pub const LONGEST_INPUT: usize = 65_536;

#[derive(Debug, PartialEq, Clone, Copy)]
pub struct Sealed {
    pub image_len: usize,
    pub seal: u64,
}

/// The answer to an input: code, key buffer, text. Clears the input.
pub fn answer(input: &mut [u8]) -> Result<Sealed, Refusal> {
    let answer = answer_to(input);
    input.fill(0);
    answer
}

fn answer_to(input: &mut [u8]) -> Result<Sealed, Refusal> {
    if input.len() > LONGEST_INPUT {
        return Err(Refusal::of_no_line(INPUT_TOO_LONG));
    }
    let (&mut code, rest) = input.split_first_mut().ok_or(Refusal::of_no_line(UNKNOWN_CODE))?;
    with_family!(code, F => seal_with::<F>(rest), unknown => Err(Refusal::of_no_line(UNKNOWN_CODE)))
}

fn seal_with<F: Family>(rest: &mut [u8]) -> Result<Sealed, Refusal> {
    let (buffer, text) = rest.split_at_mut_checked(F::KEY_LEN + PAD_LEN).ok_or(Refusal::of_no_line(WRONG_LENGTH))?;
    let mut site = Site::<Gather<F>>::open(buffer).map_err(Refusal::of_no_line)?;
    take_text(&mut site, text, |_| ())?;
    Ok(Sealed { image_len: site.message_len() + SEAL_FIELD_LEN, seal: site.seal() })
}

/// The line that the program prints.
pub fn printed(answer: &Result<Sealed, Refusal>) -> String {
    match answer {
        Ok(Sealed { image_len, seal }) => format!("sealed {image_len} {seal:016X}\n"),
        Err(Refusal { number, line, column }) => format!("refused {number} line {line} column {column}\n"),
    }
}

#[cfg(test)]
mod tests {
    use super::*;

    fn prints(input: &[u8]) -> String {
        let mut input = input.to_vec();
        let answer = answer(&mut input);
        assert!(input.iter().all(|&byte| byte == 0));
        printed(&answer)
    }

    #[test]
    fn worked_inputs() {
        let key = b"\x03\0\0\0\0\0\0\0\x01\0\0\0\0\0\0\0\0";
        assert_eq!(prints(&[key, &b"zone 7 \"A\"\n"[..]].concat()), "sealed 18 0100030007418001\n");
        assert_eq!(prints(&[key, &b"zone 7 \"A\"\n\nzone 07 \"B\"\n"[..]].concat()), "refused 11 line 3 column 5\n");
        assert_eq!(prints(b"\x01\0\0\0\0\0\0\0\x05\0\0\0\0\0\0\0\0"), "refused 3 line 0 column 0\n");
    }

    #[test]
    fn refused_inputs() {
        assert_eq!(prints(b""), "refused 4 line 0 column 0\n");
        assert_eq!(prints(b"\0"), "refused 4 line 0 column 0\n");
        assert_eq!(prints(&[4; 65_536]), "refused 4 line 0 column 0\n");
        assert_eq!(prints(&[4; 65_537]), "refused 5 line 0 column 0\n");
        for len in 1..17 {
            assert_eq!(prints(&[3; 17][..len]), "refused 1 line 0 column 0\n");
        }
        assert_eq!(prints(&[2; 24]), "refused 1 line 0 column 0\n");
    }
}
