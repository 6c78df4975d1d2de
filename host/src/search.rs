//! The best list, the best saving for every spare, the curve, and the fewest ticks for a wanted saving, by trying every list. For
//! small blocks.

use crate::block::Block;
use crate::timing::{all_paths, gain_of_tick, path_delay};

/// A list of increases and its saving.
#[derive(Clone, Debug, PartialEq, Eq)]
pub struct Best {
    pub increases: Vec<u32>,
    pub saving: u64,
}

/// Start, saving at start, and pairs of width and gain.
#[derive(Clone, Debug, PartialEq, Eq)]
pub struct Curve {
    pub start: u64,
    pub at_start: u64,
    pub pairs: Vec<(u64, u64)>,
}

impl Curve {
    /// The ticks of all pairs; more earn nothing.
    pub fn ticks(&self) -> u64 {
        self.pairs.iter().map(|pair| pair.0).sum()
    }

    /// The saving with so many spare ticks, counted off from the front; those beyond the end earn 0.
    pub fn counted_off(&self, spare: u64) -> u64 {
        let mut left = spare;
        let mut saving = self.at_start;
        for &(width, gain) in &self.pairs {
            saving += left.min(width) * gain;
            left -= left.min(width);
        }
        saving
    }
}

/// How many lists of increases lie within the gates' widths.
pub fn count_of_lists(block: &Block) -> u64 {
    block.gates.iter().fold(1u64, |count, g| count.saturating_mul(u64::from(g.widths()) + 1))
}

/// One list within the widths after another, with how long each path lasts under it and what it saves.
struct Lists {
    /// The gain of each tick of each gate.
    gains: Vec<Vec<u64>>,
    /// The numbers of the paths that each gate is on.
    paths_through: Vec<Vec<usize>>,
    increases: Vec<u32>,
    lasts: Vec<u64>,
    saving: u64,
}

impl Lists {
    /// The list without any increase.
    fn first(block: &Block) -> Lists {
        let (gates, paths) = (0..block.gates.len(), all_paths(block));
        let gains_of = |g| (0..).map_while(|tick| gain_of_tick(block, g, tick)).collect();
        let through = |g| (0..paths.len()).filter(|&p| paths[p].contains(&g)).collect();
        Lists {
            gains: gates.clone().map(gains_of).collect(),
            paths_through: gates.clone().map(through).collect(),
            increases: vec![0; gates.len()],
            lasts: paths.iter().map(|path| path_delay(block, path)).collect(),
            saving: 0,
        }
    }

    fn longest(&self) -> u64 {
        *self.lasts.iter().max().expect("a block has a path")
    }

    /// The list that follows: one tick more at the last gate that has one left, none at the gates behind it.
    fn next(&mut self) -> bool {
        for (g, gains) in self.gains.iter().enumerate().rev() {
            let increase = self.increases[g];
            if let Some(gain) = gains.get(increase as usize) {
                self.increases[g] += 1;
                self.saving += gain;
                self.paths_through[g].iter().for_each(|&p| self.lasts[p] += 1);
                return true;
            }
            self.increases[g] = 0;
            self.saving -= gains.iter().sum::<u64>();
            self.paths_through[g].iter().for_each(|&p| self.lasts[p] -= u64::from(increase));
        }
        false
    }
}

/// The order of ties (document 02, K8): compared from gate n - 1 downwards, the list with the smaller increase at the first
/// difference comes first.
fn comes_before(one: &[u32], other: &[u32]) -> bool {
    for (a, b) in one.iter().zip(other).rev() {
        if a != b {
            return a < b;
        }
    }
    false
}

/// Of all lists in time the one that saves most and, of those, comes first; `None` if no list is in time.
pub fn best(block: &Block) -> Option<Best> {
    let mut lists = Lists::first(block);
    let mut best: Option<Best> = None;
    loop {
        if u64::from(block.arrival) + lists.longest() <= u64::from(block.deadline) {
            let (increases, saving) = (&lists.increases, lists.saving);
            let better = match &best {
                None => true,
                Some(b) => saving > b.saving || saving == b.saving && comes_before(increases, &b.increases),
            };
            if better {
                best = Some(Best { increases: increases.clone(), saving });
            }
        }
        if !lists.next() {
            return best;
        }
    }
}

/// Start, and the best saving if spare were 0, 1, 2 and so on, up to a spare at which every list is in time.
pub fn best_savings(block: &Block) -> (u64, Vec<u64>) {
    let mut lists = Lists::first(block);
    let start = lists.longest();
    let mut savings = vec![0u64];
    loop {
        let needed = (lists.longest() - start) as usize;
        savings.resize(savings.len().max(needed + 1), 0);
        savings[needed] = savings[needed].max(lists.saving);
        if !lists.next() {
            break;
        }
    }
    for k in 1..savings.len() {
        savings[k] = savings[k].max(savings[k - 1]);
    }
    (start, savings)
}

/// The curve, or `None` if the best savings have no pairs of strictly falling gain.
pub fn curve(block: &Block) -> Option<Curve> {
    let (start, savings) = best_savings(block);
    let mut pairs: Vec<(u64, u64)> = Vec::new();
    let mut bound = u64::MAX;
    for k in 1..savings.len() {
        let gain = savings[k] - savings[k - 1];
        if gain > bound {
            return None;
        }
        match pairs.last_mut() {
            Some(pair) if pair.1 == gain => pair.0 += 1,
            _ if gain > 0 => pairs.push((1, gain)),
            _ => {}
        }
        bound = gain;
    }
    Some(Curve { start, at_start: savings[0], pairs })
}

/// For each of the wanted savings the fewest spare ticks, in place of the block's own, with which some list saves at least so much
/// (document 02, K6): the least by which a list that does makes the longest path longer; `None` if no list does.
pub fn each_fewest_ticks(block: &Block, wanted: &[u64]) -> Vec<Option<u64>> {
    let mut lists = Lists::first(block);
    let start = lists.longest();
    let mut fewest: Vec<Option<u64>> = vec![None; wanted.len()];
    loop {
        let ticks = lists.longest() - start;
        for (fewest, _) in fewest.iter_mut().zip(wanted).filter(|(_, wanted)| **wanted <= lists.saving) {
            *fewest = Some(fewest.map_or(ticks, |found| found.min(ticks)));
        }
        if !lists.next() {
            return fewest;
        }
    }
}

/// The same for one wanted saving.
pub fn fewest_ticks(block: &Block, wanted: u64) -> Option<u64> {
    each_fewest_ticks(block, &[wanted])[0]
}

#[cfg(test)]
mod tests {
    use super::*;
    use crate::generate::{self, Values, Wires};
    use crate::random::Random;
    use crate::timing;
    use crate::worked::{diamond, U};
    use std::collections::HashSet;

    #[test]
    fn the_highest_gate_that_differs_decides() {
        let in_order: [[u32; 3]; 6] = [[9, 9, 0], [0, 0, 1], [1, 0, 1], [0, 1, 1], [4, 2, 2], [2, 4, 2]];
        for (i, one) in in_order.iter().enumerate() {
            for (j, other) in in_order.iter().enumerate() {
                assert_eq!(comes_before(one, other), i < j, "{one:?} {other:?}");
            }
        }
    }

    #[test]
    fn every_list_comes_once_with_its_longest_path_and_its_saving() {
        let random = &mut Random::from_seed(3);
        for round in 0..200 {
            let block = generate::block(random, Wires::General, Values::Small, 1 + round % 6, 2);
            let mut lists = Lists::first(&block);
            let mut seen = HashSet::new();
            loop {
                assert_eq!(lists.longest(), timing::longest(&block, &lists.increases));
                assert_eq!(lists.saving, timing::saving(&block, &lists.increases));
                assert!(seen.insert(lists.increases.clone()));
                if !lists.next() {
                    break;
                }
            }
            assert_eq!(seen.len() as u64, count_of_lists(&block));
        }
    }

    /// D's best savings, 8 20 32 44 56 68 77 86 88 90 92 in U, whatever its deadline.
    #[test]
    fn the_fewest_ticks_by_hand() {
        for deadline in [10, 6, 0] {
            let block = diamond(deadline);
            assert_eq!(fewest_ticks(&block, 0), Some(0));
            for (ticks, saving) in [8, 20, 32, 44, 56, 68, 77, 86, 88, 90, 92].into_iter().enumerate() {
                let after = (ticks < 10).then_some(ticks as u64 + 1);
                assert_eq!(fewest_ticks(&block, saving * U), Some(ticks as u64));
                assert_eq!(fewest_ticks(&block, saving * U + 1), after);
            }
            assert_eq!(fewest_ticks(&block, u64::MAX), None);
        }
    }
}
