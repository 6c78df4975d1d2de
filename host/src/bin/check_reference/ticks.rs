//! The fewest ticks for wanted savings (document 02, K6): the curve against every list, and against best lists.

use crate::networks::small_block;
use reference::answers::{self, FewestTicks};
use reference::block::{encode, refuse, Block, Refusal, MAX_GATES};
use reference::generate::editions::Counted;
use reference::generate::ticks::uneven_block;
use reference::generate::Wires;
use reference::random::Random;
use reference::{exact, parts, search, timing};
use std::fmt::{Display, Formatter, Result};

/// How many blocks and wanted savings there were, how often each answer was given, and which the blocks were.
#[derive(Default)]
pub struct Asked {
    blocks: usize,
    wanted: usize,
    none: usize,
    given: usize,
    too_much: usize,
    others: usize,
    late: usize,
    counted: Counted,
}

impl Asked {
    fn count(&mut self, answer: &FewestTicks) {
        self.wanted += 1;
        match answer {
            Ok(0) => self.none += 1,
            Ok(_) => self.given += 1,
            Err(refusal) if refusal.number == 17 => self.too_much += 1,
            Err(_) => self.others += 1,
        }
    }

    fn count_block(&mut self, block: &Block) {
        self.blocks += 1;
        self.late += usize::from(timing::spare(block) < 0);
        self.counted.count(block);
    }
}

impl Display for Asked {
    fn fmt(&self, f: &mut Formatter) -> Result {
        let Asked { blocks, wanted, none, given, too_much, others, late, counted } = self;
        write!(f, "{blocks} blocks, {late} late, {counted}, {wanted} wanted savings: {none} need no tick, {given} need some, ")?;
        write!(f, "{too_much} get 17, {others} get 11")
    }
}

/// Nothing, all that 64 bits hold, and each of these savings, one below it and one above it.
fn around(savings: &[u64]) -> Vec<u64> {
    let mut wanted = vec![0, u64::MAX];
    wanted.extend(savings.iter().flat_map(|&saving| [saving.saturating_sub(1), saving, saving + 1]));
    wanted
}

/// What trying every list finds, in small blocks of any kind, at the best saving for each number of ticks and beside it.
pub fn check_small(random: &mut Random) -> Asked {
    let mut asked = Asked::default();
    for _ in 0..3_000 {
        let kind = random.pick(&[Wires::SeriesParallel, Wires::SeriesParallel, Wires::SeriesParallel, Wires::General]);
        let block = small_block(random, kind);
        let series_parallel = parts::reduces(&block);
        let wanted = around(&search::best_savings(&block).1);
        asked.count_block(&block);
        for (&wanted, ticks) in wanted.iter().zip(search::each_fewest_ticks(&block, &wanted)) {
            let answer = answers::fewest_ticks(&encode(&block), wanted);
            asked.count(&answer);
            let right = ticks.map_or(refuse(17, 0), Ok);
            let refused_11 = matches!(answer, Err(Refusal { number: 11, .. }));
            assert!(if series_parallel { answer == right } else { refused_11 }, "{wanted}: {answer:?}, {block:?}");
        }
    }
    let Asked { none, given, too_much, others, late, counted, .. } = &asked;
    let counts = [*none, *given, *too_much, *others, *late, counted.delayed, counted.measured];
    assert!(counts.iter().all(|&count| count > 100), "{asked}");
    asked
}

/// Larger blocks: with the fewest ticks the best list saves what is wanted, and with one less it does not.
pub fn check_large(random: &mut Random) -> Asked {
    let mut asked = Asked::default();
    for round in 0..300 {
        let edition = 1 + (round % 3) as u8;
        let gates = 1 + random.below(if round % 20 == 0 { MAX_GATES } else { 40 });
        let widest = random.pick(&[3, 20, 4_095]);
        let block = uneven_block(random, edition, gates, widest);
        let (file, curve) = (encode(&block), exact::curve(&block));
        let within = |ticks: u64| exact::best_within(&block, (curve.start + ticks) as i64).expect("a list").saving;
        asked.count_block(&block);
        let ticks = random.below(curve.ticks() as usize + 1) as u64;
        for wanted in around(&[within(ticks), curve.counted_off(u64::MAX)]) {
            let answer = answers::fewest_ticks(&file, wanted);
            asked.count(&answer);
            match answer {
                Ok(ticks) => {
                    assert!(within(ticks) >= wanted && (ticks == 0 || within(ticks - 1) < wanted), "{block:?}")
                }
                Err(refusal) => assert!(refuse(17, 0) == Err::<(), _>(refusal) && within(curve.ticks()) < wanted),
            }
        }
    }
    asked
}
