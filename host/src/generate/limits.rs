//! Blocks at the limits of what a file can say (document 02, K10).

use super::bare_block;
use super::editions::{delay_wires, set_activities};
use crate::block::{decode, encode, Block, Step, Wire};
use crate::block::{MAX_DELAY, MAX_DROP, MAX_GATES, MAX_STEPS, MAX_TIME, MAX_WIDTH, MAX_WIRES, MAX_WIRE_DELAY};
use crate::edition::max_activity;
use std::iter::repeat;

/// Gates of which a wire leads from every other one into the last, which has a step of 2 ticks and the greatest drop.
pub fn wires_from_all(gates: usize) -> Block {
    let last = gates - 1;
    let mut wires = vec![Wire::without_delay(0, last)];
    for gate in 1..last {
        wires.push(Wire::without_delay(0, gate));
        wires.push(Wire::without_delay(gate, last));
    }
    let mut block = bare_block(gates, wires);
    block.gates[last].steps = vec![Step { width: 2, drop: MAX_DROP }];
    block.deadline = 1;
    block
}

/// The same in edition 3 with the greatest activity throughout.
pub fn measured_wires_from_all(gates: usize) -> Block {
    let mut block = wires_from_all(gates);
    set_activities(&mut block, repeat(max_activity(3)));
    block
}

/// The largest gain of a pair up to edition 2, with p 128 throughout.
pub fn largest_gain() -> Block {
    wires_from_all(MAX_GATES)
}

/// The largest gain of a pair in edition 3.
pub fn largest_measured_gain() -> Block {
    measured_wires_from_all(MAX_GATES)
}

/// A chain of so many gates without delay and steps.
pub fn bare_chain(gates: usize) -> Block {
    bare_block(gates, (1..gates).map(|gate| Wire::without_delay(gate - 1, gate)).collect())
}

/// A chain of the most gates with the most steps each, all of different gains: the most pairs that a curve can have. There are
/// fewer drops than steps, so both halves of the chain have the same, the first one with p 128, the second one with p 127 at its
/// gates' inputs.
pub fn most_pairs() -> Block {
    let half = MAX_GATES / 2;
    let mut block = bare_chain(MAX_GATES);
    for (g, gate) in block.gates.iter_mut().enumerate() {
        let highest = MAX_DROP - (g % half) as u32;
        gate.delay = 1;
        gate.switching = if g < half - 1 { 128 } else { 127 };
        gate.steps = (0..MAX_STEPS as u32).map(|i| Step { width: 1 + i, drop: highest - half as u32 * i }).collect();
    }
    block.deadline = 1_000;
    block
}

/// A chain of the most gates without delay, each with the most steps, all of the greatest width, and the drops 8 to 1: the most
/// ticks that a curve can have, far more than a deadline can leave.
pub fn most_ticks() -> Block {
    let mut block = bare_chain(MAX_GATES);
    for gate in &mut block.gates {
        gate.steps = (1..=MAX_STEPS as u32).rev().map(|drop| Step { width: MAX_WIDTH, drop }).collect();
    }
    block.deadline = MAX_TIME;
    block
}

/// The most gates and wires, no loop, ends right; not series-parallel.
pub fn most_wires() -> Block {
    let mut wires = Vec::new();
    for gap in 1..MAX_GATES {
        for from in 0..MAX_GATES - gap {
            if wires.len() < MAX_WIRES {
                wires.push(Wire::without_delay(from, from + gap));
            }
        }
    }
    bare_block(MAX_GATES, wires)
}

/// The longest file: the most gates, all with the most steps, and the most wires, in edition 2. No two wires have the same delay.
/// The wires between neighbours come last, so that a file cut short of them has gates without a wire in.
pub fn largest_file() -> Vec<u8> {
    let mut block = most_wires();
    block.deadline = MAX_TIME;
    block.wires.reverse();
    for (g, gate) in block.gates.iter_mut().enumerate() {
        gate.delay = MAX_DELAY - g as u32;
        gate.steps = (0..MAX_STEPS as u32).map(|i| Step { width: MAX_WIDTH - i, drop: MAX_DROP - i }).collect();
    }
    delay_wires(&mut block, (0..).map(|i| MAX_WIRE_DELAY - 6 * i));
    encode(&block)
}

/// The same in edition 3, no two nets with the same activity, none with one that a probability could be.
pub fn largest_measured_file() -> Vec<u8> {
    let mut block = decode(&largest_file()).expect("the longest file");
    set_activities(&mut block, (0..).map(|i| max_activity(3) - 300 * i));
    encode(&block)
}
