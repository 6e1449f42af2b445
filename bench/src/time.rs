//! How long the library and the independent implementation take for the same work.

use crate::ffi;
use independent::generate::keys::Keys;
use independent::generate::{Random, sites};
use independent::site::{LONGEST_MESSAGE, PAD_LEN};
use independent::{families, gf2, image, program};
use std::hint::black_box;
use std::io::{self, Write};
use std::path::PathBuf;
use std::process::{Command, Stdio};
use std::time::{Duration, Instant};

const FAMILIES: [(u8, &str); 3] = [(1, "division"), (2, "Toeplitz"), (3, "evaluation")];

/// How many runs the median is taken of.
const RUNS: usize = 15;

/// How long a run lasts at least: many times what reading the clock takes.
const SHORTEST_RUN: Duration = Duration::from_millis(4);

/// Times everything and prints the table.
pub fn time(seed: u64) {
    let mut random = Random::new(seed);
    let keys = Keys::new(&mut random);
    println!("ratio = library / independent; medians of {RUNS} runs");
    println!("{:>6}  {:>10}  {:>11}  {:<12}  row", "ratio", "library", "independent", "unit");
    key_checks(&mut random, &keys);
    set_ups(&mut random, &keys);
    hashes(&mut random, &keys);
    images(&mut random, &keys);
    println!();
    sealings(&mut random, &keys);
    println!();
    processes(&mut random, &keys);
}

/// Times two calls for the same work and prints a row. One call does `amount` units.
fn row<A, B>(name: &str, unit: &str, amount: usize, mut library: impl FnMut() -> A, mut independent: impl FnMut() -> B) {
    let times = [repeats(&mut library), repeats(&mut independent)];
    let mut runs = [Vec::new(), Vec::new()];
    // In turns, so that whatever else the machine does falls on both.
    for _ in 0..RUNS {
        runs[0].push(run(&mut library, times[0]) / amount as f64);
        runs[1].push(run(&mut independent, times[1]) / amount as f64);
    }
    let [library, independent] = runs.map(median);
    println!("{:>6.2}  {library:>10.2}  {independent:>11.2}  {unit:<12}  {name}", library / independent);
}

/// Nanoseconds for one of so many calls.
fn run<A>(call: &mut impl FnMut() -> A, times: u32) -> f64 {
    elapsed(call, times).as_nanos() as f64 / times as f64
}

fn elapsed<A>(call: &mut impl FnMut() -> A, times: u32) -> Duration {
    let start = Instant::now();
    for _ in 0..times {
        black_box(call());
    }
    start.elapsed()
}

/// How many calls make a run that is long enough. The calls that find it out also warm up.
fn repeats<A>(call: &mut impl FnMut() -> A) -> u32 {
    let mut times = 1;
    while elapsed(call, times) < SHORTEST_RUN {
        times *= 2;
    }
    times
}

fn median(mut numbers: Vec<f64>) -> f64 {
    numbers.sort_by(f64::total_cmp);
    numbers[numbers.len() / 2]
}

fn key_checks(random: &mut Random, keys: &Keys) {
    const WORDS: usize = 256;
    let irreducible: Vec<u64> = (0..WORDS).map(|_| keys.irreducible(random)).collect();
    let reducible: Vec<u64> = std::iter::repeat_with(|| random.word()).filter(|&p| !gf2::irreducible(p)).take(WORDS).collect();
    for (kind, words) in [("irreducible", irreducible), ("reducible", reducible)] {
        let library = || each(&words, |p| ffi::irreducible(p) == 1);
        let by_rabin = || each(&words, gf2::irreducible);
        let by_turns = || each(&words, gf2::irreducible_by_turns);
        row(&format!("key check, {kind} words, against Rabin's test"), "ns/word", WORDS, library, by_rabin);
        row(&format!("key check, {kind} words, against Ben-Or's test"), "ns/word", WORDS, library, by_turns);
    }
}

fn each(words: &[u64], check: impl Fn(u64) -> bool) {
    for &p in words {
        black_box(check(black_box(p)));
    }
}

/// The hash of the empty message: unlike an opening alone, it needs the tables as far as a compiler can tell.
fn set_ups(random: &mut Random, keys: &Keys) {
    for (code, family) in FAMILIES {
        let key = keys.key(random, code);
        let library = || ffi::hash(code, false, &key, black_box(&[]), 0);
        let independent = || families::hash(code, false, &key, black_box(&[]), 0);
        row(&format!("set-up, {family}"), "ns", 1, library, independent);
    }
}

fn hashes(random: &mut Random, keys: &Keys) {
    let message = random.bytes(LONGEST_MESSAGE);
    for (code, family) in FAMILIES {
        let key = keys.key(random, code);
        for (gathered, way) in [(false, "straight"), (true, "gathered")] {
            for (part, parts) in [(0, "all at once"), (7, "in parts of 7 bytes")] {
                let library = || ffi::hash(code, gathered, &key, black_box(&message), part);
                let independent = || families::hash(code, gathered, &key, black_box(&message), part);
                row(&format!("hash, {family}, {way}, {parts}"), "ns/byte", message.len(), library, independent);
            }
        }
    }
}

fn images(random: &mut Random, keys: &Keys) {
    let texts = [
        ("mostly rules", sites::mostly_rules(random, LONGEST_MESSAGE)),
        ("zones, points and rules", sites::mixed(random, LONGEST_MESSAGE)),
    ];
    for (code, family) in FAMILIES {
        let buffer = keys.buffer(random, code);
        for (kind, text) in &texts {
            let mut out = vec![0; image::LONGEST_IMAGE];
            let length = image::make(code, text, &mut buffer.clone(), &mut out).expect("the text is sound");
            let made = out[..length].to_vec();
            make_row(&format!("make, {family}, {kind}"), code, text, &buffer);
            check_row(&format!("check, {family}, {kind}"), code, &made, &buffer);
        }
    }
}

fn make_row(name: &str, code: u8, text: &[u8], buffer: &[u8]) {
    let (mut out, mut other_out) = (vec![0; image::LONGEST_IMAGE], vec![0; image::LONGEST_IMAGE]);
    let library = || ffi::make(code, black_box(text), &mut buffer.to_vec(), &mut out);
    let independent = || image::make(code, black_box(text), &mut buffer.to_vec(), &mut other_out);
    row(name, "ns/text byte", text.len(), library, independent);
}

fn check_row(name: &str, code: u8, image: &[u8], buffer: &[u8]) {
    let library = || assert_eq!(ffi::check(code, &mut buffer.to_vec(), black_box(image)), 1);
    let independent = || assert_eq!(image::check(code, &mut buffer.to_vec(), black_box(image)), Ok(true));
    row(name, "ns/byte", image.len(), library, independent);
}

/// Times making the image of a text with the longest message beside the hash of that message and one copy of the image: what reading, cutting, parsing and
/// writing cost on top.
fn sealings(random: &mut Random, keys: &Keys) {
    println!("ratio = make / (hash of the message at once + copy of the image), all of the library");
    println!("{:>6}  {:>10}  {:>11}  {:<12}  row", "ratio", "make", "hash, copy", "unit");
    let text = sites::mostly_rules(random, LONGEST_MESSAGE);
    for (code, family) in FAMILIES {
        let buffer = keys.buffer(random, code);
        let key = &buffer[..buffer.len() - PAD_LEN];
        let (mut out, mut copy) = (vec![0; image::LONGEST_IMAGE], vec![0; image::LONGEST_IMAGE]);
        let length = image::make(code, &text, &mut buffer.clone(), &mut out).expect("the text is sound");
        let made = out[..length].to_vec();
        let message = &made[..length - image::SEAL_FIELD_LEN];
        let make = || ffi::make(code, black_box(&text), &mut buffer.to_vec(), &mut out);
        let parts = || {
            copy[..length].copy_from_slice(black_box(&made));
            ffi::hash(code, true, key, black_box(message), 0)
        };
        row(&format!("sealing, {family}, message of {} bytes", message.len()), "ns", 1, make, parts);
    }
}

/// Times the whole program, from its start to its end, if it was built.
fn processes(random: &mut Random, keys: &Keys) {
    let program = PathBuf::from(env!("CARGO_MANIFEST_DIR")).join("../crates/sealsite/out/sealsite");
    if !program.exists() {
        println!("sealsite was not built: {} is not there", program.display());
        return;
    }
    for (code, family) in FAMILIES {
        let input = longest_input(random, keys, code);
        match process(&program, &input) {
            Ok((milliseconds, len)) => {
                println!("{milliseconds:>6.2} ms  sealsite, {family}, {} bytes, message of {len} bytes", input.len())
            }
            Err(error) => println!("sealsite, {family}: {error}"),
        }
    }
}

/// An input with as many rules as the program takes.
fn longest_input(random: &mut Random, keys: &Keys, code: u8) -> Vec<u8> {
    const RULE: &[u8] = b"rule 1 1\n";
    let mut input = vec![code];
    input.extend(keys.buffer(random, code));
    input.extend(b"zone 1 \"A\"\npoint 1 1 heat\n");
    while input.len() + RULE.len() <= program::LONGEST_INPUT {
        input.extend(RULE);
    }
    input
}

/// The median of fifty runs in milliseconds, and the length of the message. What the program prints has to be right.
fn process(program: &PathBuf, input: &[u8]) -> io::Result<(f64, usize)> {
    let sealed = program::answer(&mut input.to_vec());
    let expected = program::printed(&sealed);
    let mut times = Vec::new();
    for _ in 0..50 {
        let start = Instant::now();
        let mut child = Command::new(program).stdin(Stdio::piped()).stdout(Stdio::piped()).spawn()?;
        child.stdin.take().expect("the input is piped").write_all(input)?;
        let output = child.wait_with_output()?;
        times.push(start.elapsed().as_secs_f64() * 1000.0);
        let printed = String::from_utf8_lossy(&output.stdout);
        if printed != expected {
            return Err(io::Error::other(format!("it printed {printed:?}, and not {expected:?}")));
        }
    }
    let message_len = sealed.map_or(0, |sealed| sealed.image_len - image::SEAL_FIELD_LEN);
    Ok((median(times), message_len))
}
