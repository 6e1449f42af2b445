//! Generated inputs to the library and to the independent implementation, whose answers must agree.

use crate::ffi;
use crate::mismatch::{Mismatch, hex};
use independent::families::{self, key_len};
use independent::generate::keys::Keys;
use independent::generate::lines::{any_line, damages};
use independent::generate::{Random, images, lines, sites};
use independent::image::{self, SEAL_FIELD_LEN};
use independent::program::{self, LONGEST_INPUT};
use independent::site::{LONGEST_MESSAGE, PAD_LEN};
use std::fmt;

type Outcome = Result<(), Box<Mismatch>>;

type Group = fn(&mut Generator, usize) -> Outcome;

/// The groups of inputs, with the share of each in hundred cases.
const GROUPS: [(&str, usize, Group); 7] = [
    ("key polynomials", 20, key_polynomials),
    ("openings", 10, openings),
    ("hashes", 20, hashes),
    ("single lines", 25, single_lines),
    ("texts", 10, texts),
    ("images", 10, images_checked),
    ("program inputs", 5, program_inputs),
];

/// Compares so many cases and prints a line for each group, or stops at the first mismatch.
pub fn compare(count: usize, seed: u64) -> Outcome {
    let mut random = Random::new(seed);
    let keys = Keys::new(&mut random);
    let mut generator = Generator { random, keys };
    for (name, share, group) in GROUPS {
        let count = (count * share).div_ceil(100);
        group(&mut generator, count)?;
        println!("{count:>9} agree  {name}");
    }
    far_places(&mut generator)?;
    println!("{:>9} agree  places past 2^24", 2);
    Ok(())
}

struct Generator {
    random: Random,
    keys: Keys,
}

impl Generator {
    /// One of the three codes. Evaluation opens fastest, so it comes more often where the family matters little.
    fn code(&mut self) -> u8 {
        *self.random.pick(&[1, 2, 3, 3])
    }

    /// Mostly one of the three codes.
    fn any_code(&mut self) -> u8 {
        if self.random.one_in(50) { *self.random.pick(&[0, 4, 5, 15, 255]) } else { self.code() }
    }
}

fn key_polynomials(generator: &mut Generator, count: usize) -> Outcome {
    let Generator { random, keys } = generator;
    for i in 0..count {
        match i % 4 {
            0 => key_polynomial(random.word(), None)?,
            // Neither x nor x + 1 divides such a word, so that the check has more to do.
            1 => key_polynomial(random.word() << 2 | [1, 3][random.below(2)], None)?,
            2 => key_polynomial(keys.reducible(random), Some(false))?,
            _ => key_polynomial(keys.irreducible(random), Some(true))?,
        }
    }
    Ok(())
}

/// Both ways of the independent check must give the library's answer, and the one that is known from how the word was made.
fn key_polynomial(p: u64, known: Option<bool>) -> Outcome {
    let library = ffi::irreducible(p);
    let rabin = independent::gf2::irreducible(p);
    let by_turns = independent::gf2::irreducible_by_turns(p);
    if library == rabin as u8 && rabin == by_turns && known.is_none_or(|known| known == rabin) {
        return Ok(());
    }
    Err(Box::new(Mismatch {
        call: "irreducible",
        input: vec![("p", p.to_be_bytes().to_vec())],
        library: library.to_string(),
        independent: format!("{rabin} by Rabin's test, {by_turns} by turns, known {known:?}"),
    }))
}

fn openings(generator: &mut Generator, count: usize) -> Outcome {
    for i in 0..count {
        let code = generator.any_code();
        let Generator { random, keys } = &mut *generator;
        let key = if random.one_in(4) { keys.key(random, code) } else { keys.doubtful_key(random, code) };
        let gathered = i % 2 == 1;
        let library = ffi::open(code, gathered, &key);
        let independent = families::open(code, gathered, &key);
        if library != independent {
            return Err(Box::new(Mismatch {
                call: "open",
                input: vec![("code", vec![code]), ("gathered", vec![gathered as u8]), ("key", key)],
                library: library.to_string(),
                independent: independent.to_string(),
            }));
        }
    }
    Ok(())
}

/// One message in so many is of the greatest length, since it takes as long as hundreds of others.
const LONG_EVERY: usize = 4000;

fn hashes(generator: &mut Generator, count: usize) -> Outcome {
    for i in 0..count {
        let code = if i % 100 == 0 { generator.any_code() } else { i as u8 % 3 + 1 };
        let Generator { random, keys } = &mut *generator;
        let key = if random.one_in(30) { keys.doubtful_key(random, code) } else { keys.key(random, code) };
        let message = if i % LONG_EVERY == 0 { random.bytes(LONGEST_MESSAGE) } else { message(random) };
        let part = match random.below(9) {
            8 => 1 + random.below(300),
            place => [0, 1, 7, 8, 9, 63, 64, 65][place],
        };
        let gathered = random.one_in(2);
        hash(code, gathered, &key, &message, part)?;
    }
    Ok(())
}

/// Mostly short messages, of random bytes, of one byte, or with few bits.
fn message(random: &mut Random) -> Vec<u8> {
    let most = *random.pick(&[20, 80, 80, 300, 300, 300, 300, 300, 300, 4000]);
    let len = random.below(most + 1);
    match random.below(6) {
        0 => vec![*random.pick(&[0, 1, 0x80, 0xFF]); len],
        1 => (0..len).map(|_| if random.one_in(20) { 1 << random.below(8) } else { 0 }).collect(),
        _ => random.bytes(len),
    }
}

fn hash(code: u8, gathered: bool, key: &[u8], message: &[u8], part: usize) -> Outcome {
    let library = ffi::hash(code, gathered, key, message, part);
    let independent = families::hash(code, gathered, key, message, part);
    if library == independent {
        return Ok(());
    }
    Err(Box::new(Mismatch {
        call: "hash",
        input: vec![
            ("code", vec![code]),
            ("gathered", vec![gathered as u8]),
            ("part", part.to_be_bytes().to_vec()),
            ("key", key.to_vec()),
            ("message", message.to_vec()),
        ],
        library: format!("{library:016X}"),
        independent: format!("{independent:016X}"),
    }))
}

/// What fills buffers before a call, so that bytes which are not written show.
const GARBAGE: u8 = 0xA5;

/// Declarations before a line, so that points and rules can be taken.
const DECLARATIONS: &[u8] = b"zone 1 \"A\"\nzone 7 \"B\"\npoint 3 7 call\npoint 1000 1 heat\n";

/// Lines of the grammar, each with all its damages at every place, alone or after some declarations.
fn single_lines(generator: &mut Generator, count: usize) -> Outcome {
    let mut left = count;
    loop {
        let line = any_line(&mut generator.random);
        let mut lines = damages(&mut generator.random, &line);
        lines.push(line);
        for line in lines {
            if left == 0 {
                return Ok(());
            }
            left -= 1;
            single_line(generator, &line)?;
        }
    }
}

fn single_line(generator: &mut Generator, line: &[u8]) -> Outcome {
    let code = generator.code();
    let Generator { random, keys } = generator;
    let mut text = if random.one_in(2) { DECLARATIONS.to_vec() } else { Vec::new() };
    text.extend(line);
    if random.one_in(2) {
        text.push(b'\n');
    }
    let buffer = keys.buffer(random, code);
    make(code, &text, &buffer, 160)
}

/// One text or image in so many comes near to the longest message.
const FULL_EVERY: usize = 400;

fn texts(generator: &mut Generator, count: usize) -> Outcome {
    for i in 0..count {
        let code = generator.any_code();
        let Generator { random, keys } = &mut *generator;
        let text = if i % FULL_EVERY == 0 { sites::about_full(random) } else { any_text(random) };
        let buffer = keys.any_buffer(random, code);
        let out_len = room(random, code, &text, &buffer);
        make(code, &text, &buffer, out_len)?;
    }
    Ok(())
}

fn any_text(random: &mut Random) -> Vec<u8> {
    let most = *random.pick(&[3, 10, 40, 40, 120]);
    let lines = random.below(most + 1);
    let fault_every = *random.pick(&[0, 10, 50]);
    sites::text(random, lines, fault_every)
}

/// A length for the output: exact, one byte too few, longer, or any.
fn room(random: &mut Random, code: u8, text: &[u8], buffer: &[u8]) -> usize {
    let mut out = vec![0; LONGEST_MESSAGE + SEAL_FIELD_LEN];
    let exact = image::make(code, text, &mut buffer.to_vec(), &mut out).unwrap_or(100);
    match random.below(6) {
        0 | 1 => exact,
        2 => exact - 1,
        3 => exact + 1,
        4 => exact + random.below(200),
        _ => random.below(exact + 1),
    }
}

/// The answer of `make` or `check`, with what the call leaves in its buffers.
#[derive(PartialEq)]
struct Left {
    answer: u64,
    buffer: Vec<u8>,
    out: Vec<u8>,
}

impl fmt::Display for Left {
    fn fmt(&self, f: &mut fmt::Formatter) -> fmt::Result {
        write!(f, "{:016X}, key buffer {}, output {}", self.answer, hex(&self.buffer), hex(&self.out))
    }
}

fn make(code: u8, text: &[u8], buffer: &[u8], out_len: usize) -> Outcome {
    let mut library = Left { answer: 0, buffer: buffer.to_vec(), out: vec![GARBAGE; out_len] };
    library.answer = ffi::make(code, text, &mut library.buffer, &mut library.out);
    let mut independent = Left { answer: 0, buffer: buffer.to_vec(), out: vec![GARBAGE; out_len] };
    let answer = image::make(code, text, &mut independent.buffer, &mut independent.out);
    independent.answer = ffi::packed_length(&answer);
    if library == independent && all_zeros(&library.buffer) {
        return Ok(());
    }
    Err(Box::new(Mismatch {
        call: "make",
        input: vec![("code", vec![code]), ("key buffer", buffer.to_vec()), ("text", text.to_vec())],
        library: library.to_string(),
        independent: independent.to_string(),
    }))
}

fn all_zeros(bytes: &[u8]) -> bool {
    bytes.iter().all(|&byte| byte == 0)
}

fn images_checked(generator: &mut Generator, count: usize) -> Outcome {
    for i in 0..count {
        let code = generator.code();
        let Generator { random, keys } = &mut *generator;
        let buffer = keys.any_buffer(random, code);
        let image = match i % FULL_EVERY {
            0 => {
                let message = images::about_full(random);
                let seal = images::sealed(code, &buffer, &message);
                [&message[..], &seal].concat()
            }
            _ => images::image(random, code, &buffer),
        };
        // Now and then the image is checked as one of another family, or of none.
        let code = if i % 20 == 1 { generator.any_code() } else { code };
        check(code, &buffer, &image)?;
    }
    Ok(())
}

fn check(code: u8, buffer: &[u8], image: &[u8]) -> Outcome {
    let mut library = Left { answer: 0, buffer: buffer.to_vec(), out: Vec::new() };
    library.answer = ffi::check(code, &mut library.buffer, image);
    let mut independent = Left { answer: 0, buffer: buffer.to_vec(), out: Vec::new() };
    independent.answer = ffi::packed_verdict(&image::check(code, &mut independent.buffer, image));
    if library == independent && all_zeros(&library.buffer) {
        return Ok(());
    }
    Err(Box::new(Mismatch {
        call: "check",
        input: vec![("code", vec![code]), ("key buffer", buffer.to_vec()), ("image", image.to_vec())],
        library: library.to_string(),
        independent: independent.to_string(),
    }))
}

fn program_inputs(generator: &mut Generator, count: usize) -> Outcome {
    for i in 0..count {
        let code = generator.any_code();
        let Generator { random, keys } = &mut *generator;
        let mut input = vec![code];
        input.extend(keys.any_buffer(random, code));
        match random.below(20) {
            0 => input.truncate(random.below(input.len() + 1)),
            _ => input.extend(any_text(random)),
        }
        if i % FULL_EVERY == 0 {
            let front = 1 + key_len(code).unwrap_or(8) + PAD_LEN;
            let len = LONGEST_INPUT - 1 + random.below(4);
            lengthen(random, &mut input, front, len);
        }
        seal(&input)?;
    }
    Ok(())
}

/// Brings an input to a length by rules after its front, the code and the key buffer, or by a comment.
fn lengthen(random: &mut Random, input: &mut Vec<u8>, front: usize, len: usize) {
    if random.one_in(2) {
        input.truncate(front);
        input.extend(b"zone 1 \"A\"\npoint 1 1 heat\n");
        while input.len() + b"rule 1 1\n".len() < len {
            input.extend(b"rule 1 1\n");
        }
    }
    input.extend(b"\n#");
    input.resize(len, b'.');
}

/// The answer of the program, the seal where there is one, and what is left of the input.
#[derive(PartialEq)]
struct Answered {
    answer: u64,
    seal: Option<u64>,
    input: Vec<u8>,
}

impl fmt::Display for Answered {
    fn fmt(&self, f: &mut fmt::Formatter) -> fmt::Result {
        write!(f, "{:016X}, seal {:016X?}, input {}", self.answer, self.seal, hex(&self.input))
    }
}

fn seal(input: &[u8]) -> Outcome {
    let mut library = Answered { answer: 0, seal: None, input: input.to_vec() };
    let mut place = [GARBAGE; 8];
    library.answer = ffi::seal(&mut library.input, &mut place);
    let mut independent = Answered { answer: 0, seal: None, input: input.to_vec() };
    let answer = program::answer(&mut independent.input);
    independent.answer = ffi::packed_sealing(&answer);
    if let Ok(sealed) = answer {
        independent.seal = Some(sealed.seal);
        library.seal = Some(u64::from_be_bytes(place));
    }
    if library == independent && all_zeros(&library.input) {
        return Ok(());
    }
    Err(Box::new(Mismatch {
        call: "seal",
        input: vec![("input", input.to_vec())],
        library: library.to_string(),
        independent: independent.to_string(),
    }))
}

/// A fault so far on that the packed answer has no room for its line or its column.
fn far_places(generator: &mut Generator) -> Outcome {
    let Generator { random, keys } = generator;
    let far = (1 << 24) + 5;
    let buffer = keys.buffer(random, 3);
    let mut far_line = vec![b'\n'; far];
    far_line.push(b'x');
    make(3, &far_line, &buffer, 20)?;
    let mut far_column = lines::zone_line(1, &vec![b'a'; far]);
    far_column.pop();
    make(3, &far_column, &buffer, 20)
}
