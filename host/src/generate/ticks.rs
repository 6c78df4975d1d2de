//! Blocks of which most wanted savings lie between those of two numbers of ticks (document 02, K6), and such wanted savings.

use super::editions::{set_activities, with_wire_delays, ALL_WIRE_DELAYS};
use super::{bare_block, series_parallel, set_times, steps};
use crate::block::{Block, MAX_DROP, MAX_STEPS};
use crate::edition::max_activity;
use crate::random::Random;
use crate::search::Curve;
use std::iter::repeat_with;

/// An odd number from 1 to `most`.
fn odd(random: &mut Random, most: u32) -> u32 {
    2 * random.between(0, (most - 1) / 2) + 1
}

/// A series-parallel block of so many gates in an edition, with steps up to so wide. Drops, probabilities and activities are odd,
/// so that in edition 3 most gains are.
pub fn uneven_block(random: &mut Random, edition: u8, gates: usize, widest: u32) -> Block {
    let wires = series_parallel(random, gates);
    let mut block = bare_block(gates, wires);
    for gate in &mut block.gates {
        let count = random.pick(&[1, 2, 3, MAX_STEPS]);
        gate.delay = random.between(0, 2 * widest.min(20));
        gate.switching = odd(random, 255);
        gate.steps = steps(random, count, widest, MAX_DROP / 2);
        gate.steps.iter_mut().for_each(|step| step.drop = 2 * step.drop - 1);
    }
    set_times(random, &mut block);
    if edition >= 2 {
        let delays = random.pick(&ALL_WIRE_DELAYS);
        block = with_wire_delays(random, block, delays);
    }
    if edition >= 3 {
        let most = random.pick(&[9, 255, max_activity(3)]);
        set_activities(&mut block, repeat_with(|| odd(random, most)));
    }
    block
}

/// A saving that needs so many ticks, one or more, on a curve that has them: any above what one tick less earns.
fn needing(random: &mut Random, curve: &Curve, ticks: u64) -> u64 {
    let below = curve.counted_off(ticks - 1);
    let gain = curve.counted_off(ticks) - below;
    below + 1 + random.next() % gain
}

/// Savings that need anything from one tick to all that the curve has, so many of them; none where it has no tick.
pub fn scattered(random: &mut Random, curve: &Curve, count: usize) -> Vec<u64> {
    let all = curve.ticks() as usize;
    let mut any = || {
        let ticks = 1 + random.below(all) as u64;
        needing(random, curve, ticks)
    };
    (0..if all == 0 { 0 } else { count }).map(|_| any()).collect()
}
