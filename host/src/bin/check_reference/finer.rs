//! Blocks in finer ticks against the blocks themselves (document 02, K14).

use reference::answers::check_parts;
use reference::block::{decode, encode, Block, MAX_GATES};
use reference::edition::MAX_EDITION;
use reference::finer::{by_flows, by_trying, difference, scaled, times_of, Method};
use reference::generate::editions::Counted;
use reference::generate::finer::{block_to_scale, small_block_to_scale, FACTORS};
use reference::generate::MIDDLE_GATES;
use reference::random::Random;
use reference::{exact, timing};
use std::fmt::{Display, Formatter, Result};

/// Small blocks have at most so many lists in finer ticks.
const MOST_LISTS: u64 = 100_000;
const MOST_WIRES: usize = 21;

/// How many blocks were compared, and of which kinds.
#[derive(Default)]
pub struct Kinds {
    blocks: usize,
    in_time: usize,
    late: usize,
    /// Refused with 11.
    others: usize,
    /// Whose spare ends inside a curve of two pairs or more.
    choosing: usize,
    /// That reach a limit of the file in finer ticks.
    at_limits: usize,
    counted: Counted,
}

impl Kinds {
    fn count(&mut self, block: &Block, finer: &mut Block) {
        self.blocks += 1;
        self.at_limits += usize::from(times_of(finer).into_iter().any(|(time, most)| *time == most));
        if check_parts(block).is_err() {
            self.others += 1;
            return;
        }
        let (spare, pairs) = (timing::spare(block), exact::curve(block).pairs);
        let earning: u64 = pairs.iter().map(|pair| pair.0).sum();
        self.in_time += usize::from(spare >= 0);
        self.late += usize::from(spare < 0);
        self.choosing += usize::from(pairs.len() > 1 && (1..earning as i64).contains(&spare));
        self.counted.count(block);
    }

    /// That at least so many blocks of each kind were compared.
    fn hold(&self, least: usize) {
        let Counted { delayed, measured, tied, .. } = self.counted;
        let Kinds { in_time, late, others, choosing, at_limits, .. } = *self;
        let kinds = [in_time, late, others, choosing, at_limits, delayed, measured, tied];
        assert!(kinds.iter().all(|&kind| kind >= least), "{self}");
    }
}

impl Display for Kinds {
    fn fmt(&self, f: &mut Formatter) -> Result {
        let Kinds { blocks, in_time, late, others, choosing, at_limits, counted } = self;
        write!(f, "{blocks} blocks, {in_time} in time, {late} late, {others} not series-parallel, ")?;
        write!(f, "{choosing} with a choice, {at_limits} at a limit of the file; of the series-parallel ones {counted}")
    }
}

/// Compares one block by this method with the same in ticks m times as fine, which a file can say.
fn compare(kinds: &mut Kinds, method: Method, block: &Block, m: u32) {
    let mut finer = scaled(block, m).expect("a block that fits a file");
    assert_eq!(decode(&encode(&finer)), Ok(finer.clone()));
    if let Some(difference) = difference(method, block, &finer, m) {
        panic!("{difference}");
    }
    kinds.count(block, &mut finer);
}

/// Small blocks of every edition in turn, by trying every list. The finer one has to be small enough for that, so most m are.
pub fn check_small(random: &mut Random) -> Kinds {
    let mut kinds = Kinds::default();
    for round in 0..200 {
        let m = [2, 3, 4, 5, 2, 3, 4, 5, 10, 100, 4_095][round % 11];
        for edition in 1..=MAX_EDITION {
            let block = small_block_to_scale(random, edition, m, MOST_LISTS, MOST_WIRES);
            compare(&mut kinds, by_trying, &block, m);
        }
    }
    kinds.hold(25);
    kinds
}

/// Middle-sized and some large blocks, by flows.
pub fn check_large(random: &mut Random) -> Kinds {
    let mut kinds = Kinds::default();
    for round in 0..200 {
        let m = FACTORS[round % FACTORS.len()];
        for edition in 1..=MAX_EDITION {
            let gates = 1 + random.below(if round % 20 == 0 { MAX_GATES } else { MIDDLE_GATES });
            let block = block_to_scale(random, edition, gates, m, u64::MAX);
            compare(&mut kinds, by_flows, &block, m);
        }
    }
    kinds.hold(40);
    kinds
}
