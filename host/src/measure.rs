//! Measuring two calls beside each other: the same block files in the same run, each time the least of several rounds, the rounds
//! of the two in turn.

use crate::block::{encode, MAX_GATES};
use crate::generate::editions::in_edition_3;
use crate::generate::{benchmark_block, benchmark_with_delays, MIDDLE_GATES};
use crate::random::Random;
use crate::shapes::{wires, Shape};
use std::mem::ManuallyDrop;
use std::time::{Duration, Instant};

const BLOCKS: usize = 40;
const LEAST_ROUNDS: usize = 9;
const LEAST_TIME: Duration = Duration::from_millis(200);
pub const SIZES: [usize; 6] = [8, 16, 32, MIDDLE_GATES, 128, MAX_GATES];
/// The place among these up to which, and from which on, growth is measured.
pub const MIDDLE: usize = 3;
/// Wires take up to as long as gates.
pub const MOST_WIRE_DELAY: u32 = 50;

/// Microseconds a call, of the call that is measured and of the one that it is measured against.
pub struct Times {
    pub against: f64,
    pub measured: f64,
}

impl Times {
    pub fn ratio(&self) -> f64 {
        self.measured / self.against
    }
}

/// The same value, of which the compiler knows nothing, so that no work on it is left out.
pub fn kept<T>(value: T) -> T {
    let value = ManuallyDrop::new(value);
    // SAFETY: it is read once, and what it is read from is not dropped.
    unsafe { std::ptr::read_volatile(&*value) }
}

/// Microseconds for each call of one round.
fn average<T>(files: &[T], mut call: impl FnMut(&T)) -> f64 {
    let begin = Instant::now();
    for file in files {
        call(kept(file));
    }
    begin.elapsed().as_secs_f64() * 1e6 / files.len() as f64
}

/// The least times of both calls on these files.
pub fn least_times<T>(files: &[T], mut against: impl FnMut(&T), mut measured: impl FnMut(&T)) -> Times {
    let mut least = Times { against: f64::INFINITY, measured: f64::INFINITY };
    let begin = Instant::now();
    let mut rounds = 0;
    while rounds < LEAST_ROUNDS || begin.elapsed() < LEAST_TIME {
        rounds += 1;
        least.against = least.against.min(average(files, &mut against));
        least.measured = least.measured.min(average(files, &mut measured));
    }
    least
}

/// Block files of one shape; those of edition 2 are those of edition 1 with wire delays and another deadline, those of edition
/// 3 say the same as those of edition 2.
pub fn files(edition: u8, shape: Shape, gates: usize, steps: usize) -> Vec<Vec<u8>> {
    let seed = (100 * gates + steps) as u64;
    let (random, delays) = (&mut Random::from_seed(seed), &mut Random::from_seed(seed + 1));
    let mut file = || {
        let wires = wires(random, shape, gates);
        let mut block = benchmark_block(random, gates, wires, steps);
        if edition >= 2 {
            block = benchmark_with_delays(delays, block, MOST_WIRE_DELAY);
        }
        encode(&if edition >= 3 { in_edition_3(block) } else { block })
    };
    (0..BLOCKS).map(|_| file()).collect()
}

/// Gates, steps and the times of random blocks of that many.
pub type Cell = (usize, usize, Times);

/// Random blocks, one size and count of steps after another.
pub fn cells(edition: u8, measure: impl Fn(&[Vec<u8>]) -> Times) -> Vec<Cell> {
    let cells = SIZES.iter().flat_map(|&gates| [1, 4, 8].map(|steps| (gates, steps)));
    cells.map(|(gates, steps)| (gates, steps, measure(&files(edition, Shape::Random, gates, steps)))).collect()
}

/// A line for each cell; the two names stand over the columns of their times.
pub fn print_cells(against: &str, measured: &str, cells: &[Cell]) {
    println!("gates steps {against} (us) {measured} (us) ratio");
    let (wide, wider) = (against.len() + 5, measured.len() + 5);
    for (gates, steps, times) in cells {
        println!("{gates:5} {steps:5} {:wide$.2} {:wider$.2} {:5.2}", times.against, times.measured, times.ratio());
    }
}

/// The geometric mean and the greatest of the ratios.
pub fn print_ratios(cells: &[Cell]) {
    let product: f64 = cells.iter().map(|cell| cell.2.ratio()).product();
    println!("geometric mean of the ratios: {:.2}", product.powf(1.0 / cells.len() as f64));
    let worst = cells.iter().max_by(|a, b| a.2.ratio().total_cmp(&b.2.ratio())).expect("a cell");
    println!("worst ratio: {:.2} ({} gates, {} steps)", worst.2.ratio(), worst.0, worst.1);
}
