//! generate-block SEED GATES STEPS [DELAY [ACTIVITY]]: prints the text description of a random series-parallel block, each
//! gate with so many steps; with DELAY in edition 2, each wire with a delay from 0 to DELAY; with ACTIVITY in edition 3, each
//! net with an activity from 0 to ACTIVITY besides.

use reference::arguments::{numbers, usage};
use reference::block::{Block, MAX_GATES, MAX_STEPS, MAX_WIRE_DELAY};
use reference::edition::max_activity;
use reference::generate::{benchmark_block, benchmark_with_activities, benchmark_with_delays, series_parallel};
use reference::random::Random;
use reference::text::write;
use std::io::Write;
use std::process::exit;

fn usage_line() -> String {
    format!(
        "generate-block SEED GATES STEPS [DELAY [ACTIVITY]] \
        (1 to {MAX_GATES} gates, 0 to {MAX_STEPS} steps, delay 0 to {MAX_WIRE_DELAY}, activity 0 to {})",
        max_activity(3)
    )
}

/// The seed, and the other numbers in order, each where it is given. All are in range.
fn arguments() -> Option<(u64, Vec<u32>)> {
    let words: Vec<String> = std::env::args().skip(1).collect();
    let numbers = numbers(&words, 3, 5)?;
    let most = [MAX_GATES as u64, MAX_STEPS as u64, u64::from(MAX_WIRE_DELAY), u64::from(max_activity(3))];
    let ranges = [1..=most[0], 0..=most[1], 0..=most[2], 0..=most[3]];
    let in_range = numbers[1..].iter().zip(&ranges).all(|(number, range)| range.contains(number));
    let rest = numbers[1..].iter().map(|&number| number as u32).collect();
    Some((numbers[0], rest)).filter(|_| in_range)
}

fn generated(seed: u64, numbers: &[u32]) -> Block {
    let (gates, steps) = (numbers[0] as usize, numbers[1] as usize);
    let random = &mut Random::from_seed(seed);
    let wires = series_parallel(random, gates);
    let mut block = benchmark_block(random, gates, wires, steps);
    if let Some(&most) = numbers.get(2) {
        block = benchmark_with_delays(random, block, most);
    }
    if let Some(&most) = numbers.get(3) {
        block = benchmark_with_activities(random, block, most);
    }
    block
}

fn main() {
    let (seed, numbers) = arguments().unwrap_or_else(|| usage(&usage_line()));
    let text = write(&generated(seed, &numbers));
    let mut output = std::io::stdout();
    if let Err(error) = output.write_all(text.as_bytes()).and_then(|_| output.flush()) {
        eprintln!("generate-block: the description cannot be written: {error}");
        exit(2);
    }
}
