//! Finer blocks by hand, and mistakes in scaling that the comparison must notice.

use super::*;
use crate::block::{decode, encode};
use crate::generate::finer::{block_to_scale, small_block_to_scale, FACTORS};
use crate::random::Random;
use crate::worked::{self, finer::diamond_in_tenths, U};

#[test]
fn the_diamond_by_hand() {
    let (coarse, finer) = (worked::diamond(10), decode(&diamond_in_tenths(100)).expect("a block"));
    assert_eq!(scaled(&coarse, 10).as_ref(), Some(&finer));
    assert_eq!(scaled(&coarse, 1).as_ref(), Some(&coarse));
    let curve = Curve { start: 70, at_start: 80 * U, pairs: vec![(50, 12 * U), (20, 9 * U), (30, 2 * U)] };
    let best = Best { increases: vec![0, 0, 20, 30], saving: 440 * U };
    let right = Answers { slacks: Ok(vec![30, 30, 50, 30]), curve: Ok(curve), best: Ok(best) };
    for method in [by_flows, by_trying] {
        assert_eq!((method(&finer), scaled_answers(&method(&coarse), 10)), (right.clone(), right.clone()));
    }
    let late = scaled_answers(&by_flows(&worked::diamond(6)), 10);
    assert_eq!((late.slacks, late.curve, late.best), (Ok(vec![-10, -10, 10, -10]), right.curve, refuse(12, 0)));
}

/// Each number of a block by itself, just within the limit and just beyond it.
#[test]
fn what_no_longer_fits_a_file_is_left_out() {
    let drawn = worked::delayed_diamond([1, 0, 0, 2]);
    let numbers = times_of(&mut drawn.clone()).len();
    assert_eq!(numbers, 2 + 4 + 4 + 4);
    for at in 0..numbers {
        for m in [2, 3, 10, 4_095] {
            let mut block = drawn.clone();
            times_of(&mut block).into_iter().for_each(|(time, _)| *time = 1);
            let most = times_of(&mut block)[at].1;
            *times_of(&mut block)[at].0 = most / m;
            let finer = scaled(&block, m).expect("a block that fits a file");
            assert_eq!(decode(&encode(&finer)), Ok(finer));
            *times_of(&mut block)[at].0 = most / m + 1;
            assert_eq!(scaled(&block, m), None);
        }
    }
}

/// Changes the finer block by a mistake; the block itself and m are there to look at.
type Mistake = fn(&mut Block, &Block, u32);

const MISTAKES: [(&str, Mistake); 8] = [
    ("gate delays left", |finer, block, _| {
        finer.gates.iter_mut().zip(&block.gates).for_each(|(gate, old)| gate.delay = old.delay);
    }),
    ("wire delays left", |finer, block, _| finer.wires = block.wires.clone()),
    ("widths left", |finer, block, _| {
        let steps = finer.gates.iter_mut().flat_map(|gate| &mut gate.steps);
        let old = block.gates.iter().flat_map(|gate| &gate.steps);
        steps.zip(old).for_each(|(step, old)| step.width = old.width);
    }),
    ("arrival left", |finer, block, _| finer.arrival = block.arrival),
    ("deadline left", |finer, block, _| finer.deadline = block.deadline),
    ("drops scaled", |finer, _, m| {
        finer.gates.iter_mut().flat_map(|gate| &mut gate.steps).for_each(|step| step.drop *= m);
    }),
    ("measured activities scaled", |finer, _, m| {
        if finer.edition == 3 {
            finer.gates.iter_mut().for_each(|gate| gate.switching *= m);
        }
    }),
    ("a tick more of one wire", |finer, _, _| finer.wires.iter_mut().take(1).for_each(|wire| wire.delay += 1)),
];

/// In how many of some blocks the comparison by this method notices the change.
fn noticed(method: Method, blocks: &[(Block, u32)], change: Mistake) -> usize {
    let differs = |(block, m): &&(Block, u32)| {
        let mut finer = scaled(block, *m).expect("a block that fits a file");
        change(&mut finer, block, *m);
        difference(method, block, &finer, *m).is_some()
    };
    blocks.iter().filter(differs).count()
}

fn every_mistake_is_noticed(method: Method, blocks: &[(Block, u32)]) {
    assert_eq!(noticed(method, blocks, |_, _, _| ()), 0);
    for (name, mistake) in MISTAKES {
        assert!(noticed(method, blocks, mistake) >= 5, "{name}");
    }
}

#[test]
fn mistakes_are_noticed_by_flows() {
    let random = &mut Random::from_seed(14);
    let mut any = |round: usize| {
        let m = FACTORS[round % FACTORS.len()];
        (block_to_scale(random, 1 + (round % 3) as u8, 1 + round % 24, m, u64::MAX), m)
    };
    every_mistake_is_noticed(by_flows, &(0..200).map(&mut any).collect::<Vec<_>>());
}

#[test]
fn mistakes_are_noticed_by_trying_every_list() {
    let random = &mut Random::from_seed(15);
    let mut any = |round: usize| {
        let m = FACTORS[round % 4];
        (small_block_to_scale(random, 1 + (round % 3) as u8, m, 2_000, 8), m)
    };
    every_mistake_is_noticed(by_trying, &(0..100).map(&mut any).collect::<Vec<_>>());
}
