//! Random blocks that still fit a file in ticks m times as fine (document 02, K14).

use super::editions::in_edition;
use super::ties::tied_block;
use super::{block, set_times_up_to, Wires, ALL_VALUES};
use crate::block::{Block, Gate, MAX_TIME};
use crate::finer::{scaled, times_of};
use crate::random::Random;
use crate::{network, search};

/// How many times as fine the ticks become. 3 and 5 divide every limit of a file, so that the finer block can reach each of
/// them; with 4,095 a gate that takes time takes as long as it can.
pub const FACTORS: [u32; 9] = [2, 3, 4, 5, 7, 10, 13, 100, 4_095];

/// How many lists the block has in ticks m times as fine, which a file can say.
fn finer_lists(block: &Block, m: u32) -> u64 {
    search::count_of_lists(&scaled(block, m).expect("a block that fits a file"))
}

/// Makes the last step of a gate half as wide, or takes it away where it is one tick wide.
fn narrow(gate: &mut Gate) {
    match gate.steps.last_mut() {
        Some(step) if step.width > 1 => step.width /= 2,
        _ => {
            gate.steps.pop();
        }
    }
}

/// The block with every time at most the m-th part of what a file can say, with steps made narrower until it has at most so
/// many lists in ticks m times as fine, and with arrival and deadline set anew.
fn fitted(random: &mut Random, mut block: Block, m: u32, most_lists: u64) -> Block {
    for (time, most) in times_of(&mut block) {
        *time = (*time).min(most / m);
    }
    while finer_lists(&block, m) > most_lists {
        let gate = random.below(block.gates.len());
        narrow(&mut block.gates[gate]);
    }
    set_times_up_to(random, &mut block, MAX_TIME / m);
    block
}

/// A block of edition 1 with wires and values of any kind; one of five is not series-parallel, or may not be.
fn any_values(random: &mut Random, gates: usize) -> Block {
    let kinds = [Wires::SeriesParallel, Wires::SeriesParallel, Wires::SeriesParallel, Wires::Wide];
    let kind = if random.chance(1, 5) { random.pick(&[Wires::Nearly, Wires::Bridged]) } else { random.pick(&kinds) };
    let values = random.pick(&ALL_VALUES);
    let most_steps = random.pick(&[1, 2, 3, 8]);
    block(random, kind, values, gates, most_steps)
}

/// A block of so many gates in an edition, without loop and without fault at the ends, that still fits a file in ticks m times
/// as fine, with at most so many lists there. Every fourth one is made for ties.
pub fn block_to_scale(random: &mut Random, edition: u8, gates: usize, m: u32, most_lists: u64) -> Block {
    loop {
        let block = if gates > 2 && random.chance(1, 4) {
            tied_block(random, edition, gates)
        } else {
            let block = any_values(random, gates);
            in_edition(random, block, edition)
        };
        if network::check(&block).is_ok() {
            return fitted(random, block, m, most_lists);
        }
    }
}

/// Such a block of at most 7 gates and so many wires, with more than two lists to choose from.
pub fn small_block_to_scale(random: &mut Random, edition: u8, m: u32, most_lists: u64, most_wires: usize) -> Block {
    loop {
        let gates = 1 + random.below(7);
        let block = block_to_scale(random, edition, gates, m, most_lists);
        if search::count_of_lists(&block) > 2 && block.wires.len() <= most_wires {
            return block;
        }
    }
}
