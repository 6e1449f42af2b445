//! Compares the verified library with the independent implementation, then times both.
//!
//!     bench [compare | time] [COUNT [SEED]]

mod compare;
mod ffi;
mod mismatch;
mod time;

use std::env;
use std::process::ExitCode;

const DEFAULT_COUNT: u64 = 1_000_000;
const DEFAULT_SEED: u64 = 1;

struct Order {
    compare: bool,
    time: bool,
    count: u64,
    seed: u64,
}

/// What the arguments ask for, or none where they make no sense.
fn order(arguments: &[String]) -> Option<Order> {
    let (compare, time, numbers) = match arguments.first().map(String::as_str) {
        Some("compare") => (true, false, &arguments[1..]),
        Some("time") => (false, true, &arguments[1..]),
        _ => (true, true, arguments),
    };
    let number = |i: usize, default| numbers.get(i).map_or(Some(default), |number| number.parse().ok());
    let order = Order { compare, time, count: number(0, DEFAULT_COUNT)?, seed: number(1, DEFAULT_SEED)? };
    if numbers.len() > 2 { None } else { Some(order) }
}

fn main() -> ExitCode {
    let arguments: Vec<String> = env::args().skip(1).collect();
    let Some(order) = order(&arguments) else {
        eprintln!("usage: bench [compare | time] [COUNT [SEED]]");
        return ExitCode::from(2);
    };
    if order.compare {
        println!("comparing {} cases, seed {}", order.count, order.seed);
        if let Err(mismatch) = compare::compare(order.count as usize, order.seed) {
            println!("{mismatch}");
            return ExitCode::from(1);
        }
    }
    if order.time {
        time::time(order.seed);
    }
    ExitCode::SUCCESS
}
