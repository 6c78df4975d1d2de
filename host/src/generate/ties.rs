//! Blocks in which ticks of equal gain abound, and whether the order of ties decides (document 02, K8).

use super::bare_block;
use super::editions::{set_activities, with_wire_delays, WireDelays};
use crate::block::{Block, Step, Wire};
use crate::edition::{max_activity, MAX_EDITION};
use crate::exact;
use crate::random::Random;
use std::iter::repeat;

/// Whether the order of ties decides: from gate 0 on, document 01's order before K8, another list is the best. The block has no
/// loop and no fault at the ends.
pub fn has_ties(block: &Block) -> bool {
    exact::is_tied(block)
}

/// A network that is being built, and what a tick of each gate is to gain.
struct Built {
    wires: Vec<Wire>,
    gains: Vec<u32>,
}

impl Built {
    /// Puts the gates into a part from a to b: one of them and two parts in series, a tick of each of which gains the same, or two
    /// parts side by side that gain it together.
    fn add_part(&mut self, random: &mut Random, a: usize, b: usize, inside: &[usize], gain: u32) {
        match inside {
            [] => self.wires.push(Wire::without_delay(a, b)),
            [_, _, ..] if gain > 1 && random.chance(1, 3) => {
                let (one, other) = inside.split_at(1 + random.below(inside.len() - 1));
                let share = random.between(1, gain - 1);
                self.add_part(random, a, b, one, share);
                self.add_part(random, a, b, other, gain - share);
            }
            [gate, rest @ ..] => {
                let (before, behind) = rest.split_at(random.below(rest.len() + 1));
                self.gains[*gate] = gain;
                self.add_part(random, a, *gate, before, gain);
                self.add_part(random, *gate, b, behind, gain);
            }
        }
    }

    /// A series-parallel network of at least two gates, numbered in any order, in which a tick is to gain the same wherever it
    /// goes.
    fn network(random: &mut Random, gates: usize, gain: u32) -> Built {
        let mut inside: Vec<usize> = (1..gates - 1).collect();
        random.shuffle(&mut inside);
        let mut built = Built { wires: Vec::new(), gains: vec![gain; gates] };
        built.add_part(random, 0, gates - 1, &inside, gain);
        random.shuffle(&mut built.wires);
        built
    }
}

/// Sets a deadline that leaves spare for some of the ticks that earn and not for all, where there are two or more.
fn spare_some(random: &mut Random, block: &mut Block) {
    let curve = exact::curve(block);
    let earning: u64 = curve.pairs.iter().map(|pair| pair.0).sum();
    let spare = 1 + random.below(earning.saturating_sub(1).max(1) as usize) as u32;
    block.arrival = random.pick(&[0, 0, 1, 300]);
    block.deadline = block.arrival + curve.start as u32 + spare;
}

/// Gives the gates delays, mostly 0, so that branches are often equally long, and a step of about the gain that each is to have;
/// to some a second one that gains half of it.
fn set_gates(random: &mut Random, block: &mut Block, gains: &[u32]) {
    for (g, gate) in block.gates.iter_mut().enumerate() {
        let wires_in = block.wires.iter().filter(|wire| wire.to == g).count().max(1) as u32;
        let drop = (gains[g] / wires_in).max(1);
        gate.delay = random.pick(&[0, 0, 0, 1]);
        gate.steps.push(Step { width: random.between(1, 3), drop });
        if drop > 1 && random.chance(1, 2) {
            gate.steps.push(Step { width: random.between(1, 2), drop: drop / 2 });
        }
    }
}

/// A series-parallel block of at least two gates in an edition, with few different gains of gates and parts, one activity
/// throughout and wire delays of a few ticks. In three of four the first gate and the last have no step: of equal gains the one
/// is always slowed first and the other last, so that fewer ticks are left to what is between them.
pub fn tied_block(random: &mut Random, edition: u8, gates: usize) -> Block {
    let gain = random.pick(&[6, 12, 24]);
    let Built { wires, gains } = Built::network(random, gates, gain);
    let mut block = bare_block(gates, wires);
    set_gates(random, &mut block, &gains);
    if random.chance(3, 4) {
        block.gates[0].steps.clear();
        block.gates[gates - 1].steps.clear();
    }
    if edition >= 2 {
        let delays = random.pick(&[WireDelays::Small, WireDelays::Small, WireDelays::Zero]);
        block = with_wire_delays(random, block, delays);
    }
    if edition >= 3 {
        let activity = random.between(1, max_activity(3));
        set_activities(&mut block, repeat(activity));
    }
    spare_some(random, &mut block);
    block
}

/// Such a block of three gates or more, in any edition.
pub fn any_tied_block(random: &mut Random, most_gates: usize) -> Block {
    let edition = random.between(1, u32::from(MAX_EDITION)) as u8;
    let gates = 3 + random.below(most_gates - 2);
    tied_block(random, edition, gates)
}
