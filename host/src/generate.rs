//! Random blocks: networks of every kind, and values that press on one rule each.

pub mod editions;
pub mod finer;
pub mod limits;
pub mod ticks;
pub mod ties;

use crate::block::{stands_in, Block, Gate, Step, Wire};
use crate::block::{MAX_DELAY, MAX_DROP, MAX_TIME, MAX_WIDTH, MAX_WIRES};
use crate::random::Random;
use crate::{network, timing};
use editions::{delay_wires, in_any_edition, set_activities};
use std::iter::repeat_with;
use ties::any_tied_block;

/// Gates of a middle-sized block, at most. Blocks that were drawn with this limit, before document 02's K10, stay the same.
pub const MIDDLE_GATES: usize = 64;

/// What the numbers of a block are like.
#[derive(Clone, Copy, Debug, PartialEq)]
pub enum Values {
    /// Few and small, for the exhaustive search.
    Small,
    /// Few different gains, so that ties abound.
    Equal,
    /// Long delays and short widths: short branches cannot reach the longest.
    Exhausted,
    /// Anything of middle size.
    Plain,
    /// Delays, widths and drops at their limits.
    Huge,
}

pub const ALL_VALUES: [Values; 5] = [Values::Small, Values::Equal, Values::Exhausted, Values::Plain, Values::Huge];

/// What the wires of a block are like.
#[derive(Clone, Copy, Debug, PartialEq)]
pub enum Wires {
    SeriesParallel,
    /// Series-parallel, with many gates side by side.
    Wide,
    /// Series-parallel, then one wire more or elsewhere.
    Nearly,
    /// Series-parallel but for a bridge, so that few gates are left (document 02, K1).
    Bridged,
    /// No loop and no fault at the ends, else anything.
    General,
    /// Loops, or faults at the ends.
    Faulty,
}

/// Gives the gates between the first and the last random numbers, and the wires a random order.
pub fn shuffled(random: &mut Random, gates: usize, wires: Vec<(usize, usize)>) -> Vec<Wire> {
    let mut number: Vec<usize> = (0..gates).collect();
    if gates > 2 {
        random.shuffle(&mut number[1..gates - 1]);
    }
    let mut wires: Vec<Wire> = wires.iter().map(|&(a, b)| Wire::without_delay(number[a], number[b])).collect();
    random.shuffle(&mut wires);
    wires
}

/// A series-parallel network of any shape: gate after gate is put on a wire, or beside it.
pub fn series_parallel(random: &mut Random, gates: usize) -> Vec<Wire> {
    if gates == 1 {
        return Vec::new();
    }
    let beside = random.pick(&[0, 1, 5, 9, 10]);
    let newest = random.pick(&[0, 5, 10]);
    let mut wires = vec![(0, gates - 1)];
    for gate in 1..gates - 1 {
        let at = if random.chance(newest, 10) { wires.len() - 1 } else { random.below(wires.len()) };
        let (a, b) = wires[at];
        if !random.chance(beside, 10) {
            wires.remove(at);
        }
        wires.push((a, gate));
        wires.push((gate, b));
    }
    shuffled(random, gates, wires)
}

/// A chain of two or three gates, and all other gates side by side between neighbours of it.
fn wide(random: &mut Random, gates: usize) -> Vec<Wire> {
    let chain = if random.chance(1, 2) { vec![0, gates - 1] } else { vec![0, 1, gates - 1] };
    let mut wires: Vec<(usize, usize)> = chain.windows(2).map(|ends| (ends[0], ends[1])).collect();
    for gate in chain.len() - 1..gates - 1 {
        let (a, b) = wires[random.below(chain.len() - 1)];
        wires.push((a, gate));
        wires.push((gate, b));
    }
    shuffled(random, gates, wires)
}

/// A series-parallel network with one wire more, or one that ends elsewhere; no loop.
fn nearly_series_parallel(random: &mut Random, gates: usize) -> Vec<Wire> {
    let mut wires = series_parallel(random, gates);
    let block = bare_block(gates, wires.clone());
    let order = timing::order(&block);
    for _ in 0..20 {
        let (a, b) = (random.below(gates), random.below(gates));
        let wire = Wire::without_delay(order[a.min(b)], order[a.max(b)]);
        if a != b && !stands_in(&wires, &wire) {
            if random.chance(1, 3) {
                wires.swap_remove(random.below(block.wires.len()));
            }
            wires.push(wire);
            break;
        }
    }
    wires
}

/// A series-parallel network with a bridge in place of one of its wires; at least four gates.
fn bridged(random: &mut Random, gates: usize) -> Vec<Wire> {
    let (c, d, last) = (gates - 3, gates - 2, gates - 1);
    let around = series_parallel(random, gates - 2);
    // The network around numbers its last gate as c.
    let number = |gate: usize| if gate == c { last } else { gate };
    let mut wires: Vec<(usize, usize)> = around.iter().map(|w| (number(w.from), number(w.to))).collect();
    let (a, b) = wires.swap_remove(random.below(around.len()));
    wires.extend([(a, c), (a, d), (c, d), (c, b), (d, b)]);
    shuffled(random, gates, wires)
}

/// Any network without loop whose ends are right, with as many wires as a file can have at most.
fn general(random: &mut Random, gates: usize) -> Vec<Wire> {
    let mut wires: Vec<(usize, usize)> = Vec::new();
    let extra = random.below(2 * gates);
    let mut add = |a: usize, b: usize| {
        if !wires.contains(&(a, b)) && wires.len() < MAX_WIRES {
            wires.push((a, b));
        }
    };
    for gate in 1..gates {
        add(random.below(gate), gate);
    }
    for gate in 0..gates - 1 {
        add(gate, gate + 1 + random.below(gates - 1 - gate));
    }
    for _ in 0..extra {
        let (a, b) = (random.below(gates), random.below(gates));
        if a != b {
            add(a.min(b), a.max(b));
        }
    }
    shuffled(random, gates, wires)
}

/// A network with a wire turned back, taken out, led into the first gate or out of the last.
fn faulty(random: &mut Random, gates: usize) -> Vec<Wire> {
    let mut wires = if random.chance(1, 2) { series_parallel(random, gates) } else { general(random, gates) };
    for _ in 0..1 + random.below(2) {
        let at = random.below(wires.len().max(1));
        let any = random.below(gates);
        let added = match random.below(4) {
            0 if at < wires.len() => Wire::without_delay(wires[at].to, wires[at].from),
            1 => Wire::without_delay(any, 0),
            2 => Wire::without_delay(gates - 1, any),
            _ => {
                if at < wires.len() {
                    wires.swap_remove(at);
                }
                continue;
            }
        };
        if added.from != added.to && !stands_in(&wires, &added) {
            wires.push(added);
        }
    }
    wires
}

pub fn wires(random: &mut Random, kind: Wires, gates: usize) -> Vec<Wire> {
    match kind {
        Wires::SeriesParallel => series_parallel(random, gates),
        Wires::Wide if gates > 2 => wide(random, gates),
        Wires::Nearly if gates > 2 => nearly_series_parallel(random, gates),
        Wires::Bridged if gates > 3 => bridged(random, gates),
        Wires::General if gates > 1 => general(random, gates),
        Wires::Faulty if gates > 1 => faulty(random, gates),
        _ => series_parallel(random, gates),
    }
}

/// A block of gates without delay and steps, in edition 1.
pub fn bare_block(gates: usize, wires: Vec<Wire>) -> Block {
    let gate = Gate { delay: 0, switching: 128, steps: Vec::new() };
    Block { edition: 1, arrival: 0, deadline: 0, switching: 128, gates: vec![gate; gates], wires }
}

/// So many steps: widths up to `widest`, drops up to `largest`, falling strictly.
fn steps(random: &mut Random, count: usize, widest: u32, largest: u32) -> Vec<Step> {
    let mut drops: Vec<u32> = Vec::new();
    for _ in 0..count {
        let drop = random.between(1, largest);
        if !drops.contains(&drop) {
            drops.push(drop);
        }
    }
    drops.sort_by(|a, b| b.cmp(a));
    drops.iter().map(|&drop| Step { width: random.between(1, widest), drop }).collect()
}

/// A gate of edition 1.
fn gate(random: &mut Random, values: Values, most_steps: usize) -> Gate {
    let count = random.below(most_steps + 1);
    let any_p = random.between(0, 256);
    match values {
        Values::Small => {
            let switching = random.pick(&[128, 128, 64, 192, 0, 256, 200]);
            Gate { delay: random.between(0, 4), switching, steps: steps(random, count.min(2), 3, 5) }
        }
        Values::Equal => Gate {
            delay: random.between(0, 6),
            switching: random.pick(&[128, 128, 128, 0]),
            steps: steps(random, count.min(3), 6, 3),
        },
        Values::Exhausted => {
            Gate { delay: random.between(0, 90), switching: any_p, steps: steps(random, count, 3, 20) }
        }
        Values::Plain => {
            Gate { delay: random.between(0, 50), switching: any_p, steps: steps(random, count, 20, MAX_DROP) }
        }
        Values::Huge => {
            let mut steps = steps(random, count, 1, MAX_DROP);
            for step in &mut steps {
                step.width = random.pick(&[MAX_WIDTH, MAX_WIDTH - 1, 1]);
            }
            if let Some(step) = steps.first_mut() {
                step.drop = MAX_DROP;
            }
            let delay = random.pick(&[0, 0, 0, 0, 1, 7, MAX_DELAY]);
            Gate { delay, switching: random.pick(&[128, 127, 1, 256]), steps }
        }
    }
}

/// Sets arrival and deadline: spare 0, -1, within the widths, at their end or beyond; or a deadline that heeds no path.
pub fn set_times(random: &mut Random, block: &mut Block) {
    set_times_up_to(random, block, MAX_TIME);
}

/// The same with neither of the two above `most`.
fn set_times_up_to(random: &mut Random, block: &mut Block, most: u32) {
    block.arrival = random.pick(&[0, 0, 1, 300, 1_000]).min(most / 4);
    let most_time = i64::from(most);
    if random.chance(1, 20) || network::check(block).is_err() {
        block.deadline = random.pick(&[0, block.arrival, block.arrival.saturating_sub(1), most.min(20), most]);
        return;
    }
    let start = timing::start(block) as i64;
    let widths: Vec<u32> = block.gates.iter().map(|g| g.widths()).collect();
    let room = timing::longest(block, &widths) as i64 - start;
    let spare = match random.below(12) {
        0 => 0,
        1 => -1,
        2 => room,
        3 => room + i64::from(random.between(1, 9)),
        _ => random.below(room as usize + 1) as i64,
    };
    if random.chance(1, 10) {
        block.arrival = (most_time - start - spare).clamp(0, most_time) as u32;
    }
    block.deadline = (i64::from(block.arrival) + start + spare).clamp(0, most_time) as u32;
}

/// A block of so many gates, in edition 1.
pub fn block(random: &mut Random, kind: Wires, values: Values, gates: usize, most_steps: usize) -> Block {
    let wires = wires(random, kind, gates);
    block_with_wires(random, gates, wires, values, most_steps)
}

/// The same with these wires.
pub fn block_with_wires(
    random: &mut Random,
    gates: usize,
    wires: Vec<Wire>,
    values: Values,
    most_steps: usize,
) -> Block {
    let mut block = bare_block(gates, wires);
    for g in 0..gates {
        block.gates[g] = gate(random, values, most_steps);
    }
    block.switching = random.pick(&[128, 128, 77, 0, 256, 1]);
    set_times(random, &mut block);
    block
}

/// Sets a deadline that leaves about half of the room, as far as a deadline can.
fn halve_room(block: &mut Block) {
    let widths: Vec<u32> = block.gates.iter().map(|g| g.widths()).collect();
    let (start, end) = (timing::start(block), timing::longest(block, &widths));
    block.deadline = ((start + end) / 2).min(u64::from(MAX_TIME)) as u32;
}

/// A block of edition 1 with every gate of exactly so many steps and about half of the room used: for the benchmark.
pub fn benchmark_block(random: &mut Random, gates: usize, wires: Vec<Wire>, step_count: usize) -> Block {
    let mut block = bare_block(gates, wires);
    for gate in &mut block.gates {
        gate.delay = random.between(0, 50);
        gate.switching = random.between(16, 240);
        while gate.steps.len() < step_count {
            gate.steps = steps(random, step_count, 20, MAX_DROP);
        }
    }
    halve_room(&mut block);
    block
}

/// A benchmark block in edition 2, with wire delays from 0 to `most`.
pub fn benchmark_with_delays(random: &mut Random, mut block: Block, most: u32) -> Block {
    delay_wires(&mut block, repeat_with(|| random.between(0, most)));
    halve_room(&mut block);
    block
}

/// A benchmark block in edition 3, with activities from 0 to `most`.
pub fn benchmark_with_activities(random: &mut Random, mut block: Block, most: u32) -> Block {
    set_activities(&mut block, repeat_with(|| random.between(0, most)));
    block
}

/// A block of any kind, in edition 1.
pub fn any_block(random: &mut Random, most_gates: usize) -> Block {
    let kinds = [
        Wires::SeriesParallel,
        Wires::SeriesParallel,
        Wires::SeriesParallel,
        Wires::Nearly,
        Wires::General,
        Wires::Faulty,
    ];
    let kind = random.pick(&kinds);
    let values = random.pick(&ALL_VALUES);
    let gates = 1 + random.below(most_gates);
    let most_steps = random.pick(&[0, 1, 2, 8]);
    block(random, kind, values, gates, most_steps)
}

/// A block with a bridge, of four gates or more, in edition 1.
pub fn bridged_block(random: &mut Random, most_gates: usize) -> Block {
    let values = random.pick(&ALL_VALUES);
    let gates = 4 + random.below(most_gates - 3);
    let most_steps = random.pick(&[0, 1, 2, 8]);
    block(random, Wires::Bridged, values, gates, most_steps)
}

/// A block of any kind in any edition: every eighth one with a bridge, so that 11 comes at many places, and as many made for
/// ties.
pub fn compared_block(random: &mut Random, most_gates: usize) -> Block {
    let block = match random.below(8) {
        0 => bridged_block(random, most_gates),
        1 => return any_tied_block(random, most_gates),
        _ => any_block(random, most_gates),
    };
    in_any_edition(random, block)
}
