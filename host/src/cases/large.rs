//! The cases that came with the limits of document 02's K10: boundaries, blocks worked out by hand, and random blocks of more gates
//! than before.

use super::groups::{of_boundaries, of_worked};
use super::Case;
use crate::block::{encode, Block, Wire, MAX_GATES, MAX_PAIRS, MAX_WIDTH};
use crate::boundaries;
use crate::edition::MAX_EDITION;
use crate::generate::editions::{in_edition, with_activities, Activities};
use crate::generate::limits::bare_chain;
use crate::generate::ticks::uneven_block;
use crate::generate::ties::tied_block;
use crate::generate::{bare_block, block_with_wires, shuffled, wires, Values, Wires, ALL_VALUES, MIDDLE_GATES};
use crate::random::Random;
use crate::shapes::{self, Shape};
use crate::{parts, worked};

/// Random blocks of each edition: twice as many as there are kinds.
const ROUNDS: usize = 24;

/// How many gates a large block has.
fn large(random: &mut Random) -> usize {
    random.between(MIDDLE_GATES as u32 + 1, MAX_GATES as u32) as usize
}

/// Chains of about equal length side by side between the first gate and the last.
fn fan(random: &mut Random, gates: usize) -> Vec<Wire> {
    let last = gates - 1;
    let length = random.between(2, 9) as usize;
    let between: Vec<usize> = (1..last).collect();
    let mut wires = Vec::new();
    for chain in between.chunks(length) {
        let ends = [&[0], chain, &[last]].concat();
        wires.extend(ends.windows(2).map(|ends| (ends[0], ends[1])));
    }
    shuffled(random, gates, wires)
}

/// Series-parallel but for a bridge, of which no gate is left but the first and higher ones than there were before.
fn high_bridge(random: &mut Random, gates: usize) -> Vec<Wire> {
    loop {
        let wires = wires(random, Wires::Bridged, gates);
        let lowest = parts::lowest_left(&bare_block(gates, wires.clone()), random).expect("a bridge");
        if lowest >= MIDDLE_GATES {
            return wires;
        }
    }
}

/// The wires of a large block: a shape of its own, or one of the kinds of random networks.
fn network(random: &mut Random, round: usize, gates: usize) -> Vec<Wire> {
    match round % 12 {
        0 => shapes::wires(random, Shape::Chain, gates),
        1 => shapes::wires(random, Shape::Ladder, gates),
        2 => shapes::wires(random, Shape::Wide, gates),
        3 => shapes::wires(random, Shape::Nested, gates),
        4 => fan(random, gates),
        5 => wires(random, Wires::Wide, gates),
        6 => wires(random, Wires::Nearly, gates),
        7 => wires(random, Wires::General, gates),
        8 => high_bridge(random, gates),
        9 if round >= 12 => wires(random, Wires::Faulty, gates),
        _ => wires(random, Wires::SeriesParallel, gates),
    }
}

/// A large block in an edition, of one kind after another: every third one has as many gates as there can be; some are made for
/// ties, some have uneven gains, and half of edition 3 has delays, widths, drops and activities at their limits.
fn large_block(random: &mut Random, edition: u8, round: usize) -> Block {
    let gates = if round % 3 == 1 { MAX_GATES } else { large(random) };
    match round % 12 {
        10 => return tied_block(random, edition, gates),
        11 => return uneven_block(random, edition, gates, if round < 12 { 20 } else { MAX_WIDTH }),
        _ => {}
    }
    let wires = network(random, round, gates);
    let at_limits = edition == 3 && round >= 12;
    let values = if at_limits { Values::Huge } else { ALL_VALUES[(round + usize::from(edition)) % ALL_VALUES.len()] };
    let most_steps = if values == Values::Plain { 8 } else { 3 };
    let block = block_with_wires(random, gates, wires, values, most_steps);
    let block = in_edition(random, block, edition);
    if at_limits {
        with_activities(random, block, Activities::Huge)
    } else {
        block
    }
}

/// Slices of just enough elements and of too few for a chain of the most gates.
fn short_slices() -> Vec<Case> {
    let of = |lent| {
        let all = Case::of(encode(&bare_chain(MAX_GATES)), MAX_GATES - 1);
        Case { lent, lent_widths: MAX_PAIRS, lent_gains: MAX_PAIRS, ..all }
    };
    [MAX_GATES, MAX_GATES - 1, MIDDLE_GATES].map(of).into()
}

/// The random blocks, of one edition after another.
fn random_blocks() -> Vec<Block> {
    let random = &mut Random::from_seed(8_018);
    let editions = |round| (1..=MAX_EDITION).map(move |edition| (edition, round));
    (0..ROUNDS).flat_map(editions).map(|(edition, round)| large_block(random, edition, round)).collect()
}

pub fn all() -> Vec<Case> {
    let mut cases: Vec<Case> = of_worked(worked::large::all()).collect();
    cases.extend(of_boundaries(boundaries::large::all()));
    cases.extend(short_slices());
    cases.extend(random_blocks().iter().enumerate().map(|(i, block)| Case::of(encode(block), MAX_GATES - 1 - i)));
    cases
}

#[cfg(test)]
mod tests {
    use super::*;
    use crate::answers;
    use crate::block::decode;
    use crate::search::Curve;

    /// How many of the random blocks have what is asked.
    fn count(blocks: &[Block], has: impl Fn(&Block) -> bool) -> usize {
        blocks.iter().filter(|block| has(block)).count()
    }

    /// Among the random blocks are some that are given a best list, some with more wires than a byte can number, some with a gain
    /// of more than 32 bits, and some with each refusal, 11 at a gate that there was not before.
    #[test]
    fn random_blocks_are_of_every_kind() {
        let blocks = random_blocks();
        let refused =
            |block: &Block| answers::best_increases(&encode(block), MAX_GATES).err().map(|r| (r.number, r.place));
        assert!(blocks.iter().all(|block| block.gates.len() > MIDDLE_GATES && decode(&encode(block)).is_ok()));
        assert!(count(&blocks, |block| refused(block).is_none()) >= 30);
        assert!(count(&blocks, |block| block.wires.len() > usize::from(u8::MAX) + 1) >= 12);
        assert!(count(&blocks, |block| block.gates.len() == MAX_GATES) >= 24);
        let curve = |block: &Block| answers::curve(&encode(block), MAX_PAIRS, MAX_PAIRS).ok();
        let beyond_32_bits = |curve: Curve| curve.pairs.iter().any(|pair| pair.1 > u64::from(u32::MAX));
        assert!(count(&blocks, |block| curve(block).map_or(false, beyond_32_bits)) >= 3);
        for number in [8, 9, 11, 12] {
            assert!(count(&blocks, |block| refused(block).map_or(false, |r| r.0 == number)) >= 1, "{number}");
        }
        let high = |block: &Block| matches!(refused(block), Some((11, place)) if place >= MIDDLE_GATES as u32);
        assert!(count(&blocks, high) >= 6);
    }
}
