//! The verified library, behind functions that take slices. Refusals come packed in one word, as the library answers them.

use independent::image::{ImageRefusal, Refusal};
use independent::program::Sealed;

#[link(name = "exports", kind = "static")]
unsafe extern "C" {
    fn waq_irreducible(p: u64) -> u8;
    fn waq_open(code: u8, gathered: u8, key: *const u8, key_len: usize) -> u8;
    fn waq_hash(code: u8, gathered: u8, key: *const u8, key_len: usize, message: *const u8, message_len: usize, part: usize) -> u64;
    fn waq_make(code: u8, text: *const u8, text_len: usize, buffer: *mut u8, buffer_len: usize, out: *mut u8, out_len: usize) -> u64;
    fn waq_check(code: u8, buffer: *mut u8, buffer_len: usize, image: *const u8, image_len: usize) -> u64;
    fn waq_seal(input: *mut u8, input_len: usize, seal: *mut u8, seal_len: usize) -> u64;
}

// What makes each call below sound: a slice is handed over as its own pointer and length, slices that are written to are borrowed mutably
// and so overlap with no other, and the library keeps no pointer.

/// 1 where x^64 + p is irreducible, or else 0.
pub fn irreducible(p: u64) -> u8 {
    unsafe { waq_irreducible(p) }
}

/// 0 for a key of a family, or the number by which it is refused.
pub fn open(code: u8, gathered: bool, key: &[u8]) -> u8 {
    unsafe { waq_open(code, gathered as u8, key.as_ptr(), key.len()) }
}

/// The hash of a message in parts of a length, or all at once where that is 0.
pub fn hash(code: u8, gathered: bool, key: &[u8], message: &[u8], part: usize) -> u64 {
    unsafe { waq_hash(code, gathered as u8, key.as_ptr(), key.len(), message.as_ptr(), message.len(), part) }
}

/// Makes the image of a text. See [`packed_length`] for the answer.
pub fn make(code: u8, text: &[u8], buffer: &mut [u8], out: &mut [u8]) -> u64 {
    unsafe { waq_make(code, text.as_ptr(), text.len(), buffer.as_mut_ptr(), buffer.len(), out.as_mut_ptr(), out.len()) }
}

/// Checks an image. See [`packed_verdict`] for the answer.
pub fn check(code: u8, buffer: &mut [u8], image: &[u8]) -> u64 {
    unsafe { waq_check(code, buffer.as_mut_ptr(), buffer.len(), image.as_ptr(), image.len()) }
}

/// The answer of the program to an input, as [`packed_length`] has it, with the seal in a place of eight bytes.
pub fn seal(input: &mut [u8], seal: &mut [u8]) -> u64 {
    unsafe { waq_seal(input.as_mut_ptr(), input.len(), seal.as_mut_ptr(), seal.len()) }
}

const REFUSED: u64 = 1 << 63;
const MOST_LINE: u64 = (1 << 24) - 1;
const MOST_OFFSET: u64 = (1 << 48) - 1;

/// The length of an image, or a refusal with its number from 2^48 on, its line from 2^24 on and its column.
pub fn packed_length(answer: &Result<usize, Refusal>) -> u64 {
    match *answer {
        Ok(length) => length as u64,
        Err(Refusal { number, line, column }) => {
            REFUSED | (number as u64) << 48 | (line as u64).min(MOST_LINE) << 24 | (column as u64).min(MOST_LINE)
        }
    }
}

/// 0 or 1, or a refusal with its number from 2^48 on and its offset.
pub fn packed_verdict(answer: &Result<bool, ImageRefusal>) -> u64 {
    match *answer {
        Ok(passed) => passed as u64,
        Err(ImageRefusal { number, offset }) => REFUSED | (number as u64) << 48 | (offset as u64).min(MOST_OFFSET),
    }
}

/// The answer of the program without its seal.
pub fn packed_sealing(answer: &Result<Sealed, Refusal>) -> u64 {
    packed_length(&answer.map(|sealed| sealed.image_len))
}
