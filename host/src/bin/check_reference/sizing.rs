//! Best lists and curves: every list, flows and list merging against each other; damaged files.

use crate::networks::small_block;
use reference::answers;
use reference::block::{decode, encode, Block, MAX_GATES, MAX_PAIRS, MAX_TICKS};
use reference::edition::max_gain;
use reference::generate::editions::{in_any_edition, Counted};
use reference::generate::ties::any_tied_block;
use reference::generate::{self, any_block, Values, Wires, ALL_VALUES, MIDDLE_GATES};
use reference::random::Random;
use reference::{damage, exact, merging, parts, search, timing};

/// Flows find what trying every list finds: best list, best saving for every spare, curve. Returns which blocks there were,
/// how many spares, and how many blocks were late.
pub fn check_exact(random: &mut Random) -> (Counted, usize, usize) {
    let (mut counted, mut lists, mut late) = (Counted::default(), 0, 0);
    for _ in 0..6_000 {
        let kind = random.pick(&[Wires::SeriesParallel, Wires::SeriesParallel, Wires::General]);
        let block = small_block(random, kind);
        counted.count(&block);
        let tried = search::best(&block);
        late += usize::from(tried.is_none());
        assert_eq!(exact::best(&block), tried, "{block:?}");
        let (start, savings) = search::best_savings(&block);
        for (k, saving) in savings.iter().enumerate() {
            let within = exact::best_within(&block, start as i64 + k as i64).expect("a list");
            assert_eq!(within.saving, *saving, "spare {k}: {block:?}");
            lists += 1;
        }
        if parts::reduces(&block) {
            assert_eq!(Some(exact::curve(&block)), search::curve(&block), "{block:?}");
        }
    }
    assert!(
        counted.delayed > 1_000 && counted.measured > 1_000 && counted.tied > 250 && late > 100,
        "{counted} {late}"
    );
    (counted, lists, late)
}

/// A block of any kind in any edition; every fourth one is made for ties.
fn merged_block(random: &mut Random, round: usize) -> Block {
    let most_gates = match round % 100 {
        0 | 1 => MAX_GATES,
        of_hundred if of_hundred % 10 == 0 => MIDDLE_GATES,
        _ => 16,
    };
    if round % 4 == 0 {
        return any_tied_block(random, most_gates);
    }
    let block = any_block(random, most_gates);
    in_any_edition(random, block)
}

/// Merging gives the best list, ties included, with its saving, and the same refusals. Returns how many blocks are sized, which
/// these are, and how many are refused.
pub fn check_merging(random: &mut Random) -> (usize, Counted, usize) {
    let (mut accepted, mut counted, mut refused) = (0, Counted::default(), 0);
    for round in 0..4_000 {
        let block = merged_block(random, round);
        let mut file = encode(&block);
        if random.chance(1, 4) {
            file = damage::damaged(random, &file);
        }
        let mut increases = [0; MAX_GATES];
        let merged = merging::best_increases(&file, &mut increases);
        match answers::best_increases(&file, MAX_GATES) {
            Err(refusal) => {
                assert_eq!(merged, Err(refusal), "{block:?}");
                refused += 1;
            }
            Ok(best) => {
                assert_eq!(merged, Ok((best.increases.len(), best.saving)), "{block:?}");
                assert_eq!(increases[..best.increases.len()], best.increases, "{block:?}");
                assert_eq!(answers::judge(&file, &increases), Ok(best.saving), "{block:?}");
                accepted += 1;
                counted.count(&decode(&file).expect("a block"));
            }
        }
    }
    assert!(accepted > 1_000 && refused > 1_000, "{accepted} {refused}");
    assert!(counted.delayed > 300 && counted.measured > 300 && counted.tied > 300, "{counted}");
    (accepted, counted, refused)
}

/// The best saving of a block of which one gate is slowed by exactly so many ticks, by list merging.
fn best_saving_with(block: &mut Block, gate: usize, increase: u32) -> Option<u64> {
    let own = timing::saving_of_gate(block, gate, increase);
    let drawn = block.gates[gate].clone();
    block.gates[gate].delay += increase;
    block.gates[gate].steps.clear();
    let found = merging::best_increases(&encode(block), &mut [0; MAX_GATES]);
    block.gates[gate] = drawn;
    found.ok().map(|(_, saving)| saving + own)
}

/// A series-parallel block of 8 gates or more in any edition.
fn larger_block(random: &mut Random) -> Block {
    let values = random.pick(&[Values::Equal, Values::Equal, Values::Exhausted, Values::Plain]);
    let gates = random.between(8, MIDDLE_GATES as u32) as usize;
    let block = generate::block(random, Wires::SeriesParallel, values, gates, 3);
    in_any_edition(random, block)
}

/// The order of ties on larger blocks: gate after gate, from n - 1 down (document 02, K8), the increase allows the best saving
/// and one tick less does not. (The increases of one gate that allow it lie side by side.) Returns how many blocks and gates
/// there were, and which blocks.
pub fn check_ties(random: &mut Random) -> (usize, usize, Counted) {
    let (mut blocks, mut gates, mut counted) = (0, 0, Counted::default());
    while blocks < 300 {
        let mut block = if blocks % 2 == 0 { larger_block(random) } else { any_tied_block(random, MIDDLE_GATES) };
        let best = match exact::best(&block) {
            Some(best) => best,
            None => continue,
        };
        counted.count(&block);
        let mut earned = 0;
        for (gate, &increase) in best.increases.iter().enumerate().rev() {
            let whole = |found: Option<u64>| found.map(|saving| saving + earned);
            assert_eq!(whole(best_saving_with(&mut block, gate, increase)), Some(best.saving));
            if increase > 0 {
                assert!(whole(best_saving_with(&mut block, gate, increase - 1)) < Some(best.saving));
            }
            earned += timing::saving_of_gate(&block, gate, increase);
            block.gates[gate].delay += increase;
            block.gates[gate].steps.clear();
            gates += 1;
        }
        blocks += 1;
    }
    assert!(counted.delayed > 60 && counted.measured > 60 && counted.tied > 100, "{counted}");
    (blocks, gates, counted)
}

/// The curve says what the best list saves, at the block's own spare and at some others.
pub fn check_curve(random: &mut Random) -> usize {
    for round in 0..300 {
        let values = random.pick(&ALL_VALUES);
        let gates = 1 + random.below(if round % 20 == 0 { MAX_GATES } else { 40 });
        let block = generate::block(random, Wires::SeriesParallel, values, gates, 8);
        let block = in_any_edition(random, block);
        let curve = exact::curve(&block);
        assert!(curve.pairs.len() <= MAX_PAIRS && curve.ticks() <= MAX_TICKS);
        assert!(curve.pairs.iter().all(|p| p.0 >= 1 && (1..=max_gain(block.edition)).contains(&p.1)));
        assert!(curve.pairs.windows(2).all(|p| p[0].1 > p[1].1));
        let all: u64 = curve.pairs.iter().map(|p| p.0).sum();
        for _ in 0..4 {
            let spare = random.below(all as usize + 2) as u64;
            let best = exact::best_within(&block, (curve.start + spare) as i64).expect("a list");
            assert_eq!(best.saving, curve.counted_off(spare), "spare {spare}: {block:?}");
        }
    }
    300
}

/// Damaged files get an answer, whose place lies within the file; what is read is what was written.
pub fn check_damage(random: &mut Random) -> usize {
    let mut count = 0;
    for _ in 0..20 {
        let block = any_block(random, 8);
        let file = encode(&in_any_edition(random, block));
        for damaged in damage::every_cut(&file).into_iter().chain(damage::every_byte_changed(&file)) {
            match decode(&damaged) {
                Ok(block) => assert_eq!(encode(&block), damaged),
                Err(refusal) => assert!(refusal.place as usize <= damaged.len() && (1..=7).contains(&refusal.number)),
            }
            count += 1;
        }
    }
    count
}
