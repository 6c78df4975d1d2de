//! What each call answers: its refusals in the order of document 01's table, then its values.

use crate::block::{decode, refuse, Block, Refusal, MAX_PAIRS};
use crate::random::Random;
use crate::search::{Best, Curve};
use crate::{exact, network, parts, timing};

/// The fewest ticks for one wanted saving (document 02, K6), or the refusal.
pub type FewestTicks = Result<u64, Refusal>;

/// What the three calls that write to lent slices answer for one file.
#[derive(Clone, Debug, PartialEq, Eq)]
pub struct Answers {
    pub slacks: Result<Vec<i64>, Refusal>,
    pub curve: Result<Curve, Refusal>,
    pub best: Result<Best, Refusal>,
}

/// The block that the file holds, or one of the refusals 1 to 9.
pub fn well_formed(file: &[u8]) -> Result<Block, Refusal> {
    let block = decode(file)?;
    network::check(&block)?;
    Ok(block)
}

/// Slacks, to a slice of `lent` elements.
pub fn slacks(file: &[u8], lent: usize) -> Result<Vec<i64>, Refusal> {
    let block = well_formed(file)?;
    if lent < block.gates.len() {
        return refuse(10, block.gates.len());
    }
    Ok(timing::slacks(&block))
}

/// Refusal 11, its place the lowest gate left other than 0 and n - 1 (document 02, K1).
pub fn check_parts(block: &Block) -> Result<(), Refusal> {
    if parts::reduces(block) {
        return Ok(());
    }
    refuse(11, parts::lowest_left(block, &mut Random::from_seed(11)).expect("a gate between the first and the last"))
}

/// The curve, its pairs to slices of so many elements.
pub fn curve(file: &[u8], lent_widths: usize, lent_gains: usize) -> Result<Curve, Refusal> {
    let block = well_formed(file)?;
    if lent_widths < MAX_PAIRS || lent_gains < MAX_PAIRS {
        return refuse(10, MAX_PAIRS);
    }
    check_parts(&block)?;
    Ok(exact::curve(&block))
}

/// The first number of ticks, counted off the curve, that earns the wanted saving, by halving the range that it lies in; 17 where
/// the whole curve earns less.
pub fn fewest_on(curve: &Curve, wanted: u64) -> FewestTicks {
    let (mut least, mut most) = (0, curve.ticks());
    if curve.counted_off(most) < wanted {
        return refuse(17, 0);
    }
    while least < most {
        let middle = (least + most) / 2;
        if curve.counted_off(middle) < wanted {
            least = middle + 1;
        } else {
            most = middle;
        }
    }
    Ok(most)
}

/// The fewest spare ticks, in place of the file's own, with which some list saves at least the wanted (document 02, K6). Only the
/// file is lent, so there is no 10, and the block's own arrival and deadline play no part, so there is no 12.
pub fn fewest_ticks(file: &[u8], wanted: u64) -> FewestTicks {
    let curve = curve(file, MAX_PAIRS, MAX_PAIRS)?;
    fewest_on(&curve, wanted)
}

/// The best list of a well-formed block, where the slice has `lent` elements of which `needed` are wanted.
fn best_of(block: &Block, lent: usize, needed: usize) -> Result<Best, Refusal> {
    if lent < needed {
        return refuse(10, needed);
    }
    check_parts(block)?;
    match exact::best(block) {
        Some(best) => Ok(best),
        None => refuse(12, 0),
    }
}

/// The best increases, to a slice of `lent` elements.
pub fn best_increases(file: &[u8], lent: usize) -> Result<Best, Refusal> {
    let block = well_formed(file)?;
    best_of(&block, lent, block.gates.len())
}

/// The layout editor's call, to `lent` bytes.
pub fn layout_call(file: &[u8], lent: usize) -> Result<Best, Refusal> {
    let block = well_formed(file)?;
    best_of(&block, lent, 4 * block.gates.len())
}

/// The saving of a proposed list for a well-formed block.
pub fn judge_of(block: &Block, lent: &[u32]) -> Result<u64, Refusal> {
    let n = block.gates.len();
    if lent.len() < n {
        return refuse(10, n);
    }
    timing::judge(block, &lent[..n])
}

/// The saving of a proposed list.
pub fn judge(file: &[u8], lent: &[u32]) -> Result<u64, Refusal> {
    judge_of(&well_formed(file)?, lent)
}

#[cfg(test)]
mod tests {
    use super::*;

    #[test]
    fn the_fewest_ticks_on_a_curve_by_hand() {
        let curve = Curve { start: 5, at_start: 10, pairs: vec![(3, 3), (2, 2)] };
        let savings = [10, 13, 16, 19, 21, 23];
        for wanted in 0..=23 {
            let first = savings.iter().position(|&saving| saving >= wanted).expect("a saving") as u64;
            assert_eq!(fewest_on(&curve, wanted), Ok(first), "{wanted}");
        }
        assert_eq!([24, u64::MAX].map(|wanted| fewest_on(&curve, wanted)), [refuse(17, 0), refuse(17, 0)]);
    }

    #[test]
    fn without_pairs_only_the_saving_at_start_is_reached() {
        let curve = Curve { start: 0, at_start: 7, pairs: Vec::new() };
        assert_eq!([0, 7, 8].map(|wanted| fewest_on(&curve, wanted)), [Ok(0), Ok(0), refuse(17, 0)]);
    }
}
