//! Which cases are stored, group after group.

use super::large;
use super::ticks::MOST_WANTED;
use super::{Case, MOST_LENT, MOST_LENT_PAIRS, MOST_LISTS, MOST_WIRES};
use crate::block::{encode, Block, MAX_PAIRS, MAX_WIDTH};
use crate::boundaries::{self, Boundary};
use crate::edition::MAX_EDITION;
use crate::finer::scaled;
use crate::generate::editions::{in_edition_3, set_activities, with_activities, with_wire_delays};
use crate::generate::editions::{WireDelays, ALL_ACTIVITIES, ALL_WIRE_DELAYS};
use crate::generate::finer::{block_to_scale, small_block_to_scale, FACTORS};
use crate::generate::ticks::{scattered, uneven_block};
use crate::generate::ties::{has_ties, tied_block};
use crate::generate::{self, any_block, bridged_block, Values, Wires, ALL_VALUES, MIDDLE_GATES};
use crate::random::Random;
use crate::worked::{self, Worked};
use crate::{damage, exact, search, timing};

/// Blocks that are looked at for one with ties.
const MOST_TRIES: usize = 200;
/// Of blocks of at most so many lists and wires host/python/second_opinion.py tries every list.
const FEW_LISTS: u64 = 2_000;
const FEW_WIRES: usize = 8;
/// Blocks with ties of each edition.
const TIED: usize = 100;
/// Random blocks that are stored once more in finer ticks, of each edition, and the most lists of the middle ones in these.
const SCALED: usize = 70;
const MIDDLE_LISTS: u64 = 500_000;
/// Random blocks with uneven gains of each edition.
const UNEVEN: usize = 20;

/// A case of each file, with one gate after another as the one whose width is passed.
fn of_files(files: impl Iterator<Item = Vec<u8>>) -> impl Iterator<Item = Case> {
    files.enumerate().map(|(i, file)| Case::of(file, i))
}

pub fn of_worked(worked: Vec<Worked>) -> impl Iterator<Item = Case> {
    of_files(worked.into_iter().map(|w| w.file))
}

pub fn of_boundaries(boundaries: Vec<Boundary>) -> impl Iterator<Item = Case> {
    of_files(boundaries.into_iter().map(|b| b.file))
}

/// Slices of just enough elements and of one too few, for blocks that are in time, late, and not series-parallel.
fn short_slices() -> Vec<Case> {
    let bridge = boundaries::all().into_iter().find(|b| b.name == "the bridge, late").expect("a boundary").file;
    let mut cases = Vec::new();
    for file in [encode(&worked::diamond(10)), encode(&worked::diamond(6)), bridge] {
        let (enough, fewer) = (MAX_PAIRS, MAX_PAIRS - 1);
        for (lent, lent_widths, lent_gains) in [
            (4, enough, enough),
            (3, fewer, enough),
            (3, enough, fewer),
            (0, 0, 0),
            (4, fewer, fewer),
            (MOST_LENT, MOST_LENT_PAIRS, fewer),
            (3, enough, enough),
        ] {
            cases.push(Case { lent, lent_widths, lent_gains, ..Case::of(file.clone(), 1) });
        }
    }
    cases.push(Case { lent: 0, ..Case::of(Vec::new(), 0) });
    cases
}

/// A file cut at every byte, and with every byte changed.
fn damaged(file: Vec<u8>) -> Vec<Case> {
    of_files(damage::every_cut(&file).into_iter().chain(damage::every_byte_changed(&file))).collect()
}

fn small_blocks(random: &mut Random) -> Vec<Case> {
    (0..150).map(|i| Case::of(encode(&any_block(random, 7)), i)).collect()
}

/// How many gates a middle-sized block has.
fn middle(random: &mut Random) -> usize {
    random.between(12, MIDDLE_GATES as u32) as usize
}

fn middle_block(random: &mut Random, round: usize) -> Block {
    let kind = match round % 10 {
        0 => Wires::Nearly,
        1 => Wires::General,
        2 if round % 20 == 2 => Wires::Faulty,
        _ => Wires::SeriesParallel,
    };
    let values = ALL_VALUES[round % 5];
    let gates = if round % 3 == 0 { MIDDLE_GATES } else { middle(random) };
    let most_steps = random.pick(&[1, 2, 4, 8]);
    generate::block(random, kind, values, gates, most_steps)
}

/// Whether a block in time has spare ticks, and fewer than could earn something.
fn has_to_choose(block: &Block) -> bool {
    let earning: u64 = exact::curve(block).pairs.iter().map(|pair| pair.0).sum();
    (1..earning as i64).contains(&timing::spare(block))
}

/// What an edition changes of a random block of edition 1; the number chooses among the kinds of change.
type Change = fn(&mut Random, Block, usize) -> Block;

/// Leaves the block as it is.
fn unchanged(_: &mut Random, block: Block, _: usize) -> Block {
    block
}

/// The block in edition 2, with wire delays of one kind after another.
fn delayed(random: &mut Random, block: Block, kind: usize) -> Block {
    let kinds = [WireDelays::Small, WireDelays::Middle, WireDelays::Any, WireDelays::Huge];
    with_wire_delays(random, block, kinds[kind % 4])
}

/// The block in edition 3, with wire delays and measured activities of one kind after another.
fn measured(random: &mut Random, block: Block, kind: usize) -> Block {
    let block = with_wire_delays(random, block, ALL_WIRE_DELAYS[kind % 5]);
    with_activities(random, block, ALL_ACTIVITIES[kind % 4])
}

/// A series-parallel block of 8 to 12 gates, no chain, with just so many lists that all of them can be tried; in one of few
/// different gains the order of ties decides, unless none such comes in many tries because no two activities are equal.
fn searched_block(random: &mut Random, round: usize, change: Change) -> Block {
    let kind = if round % 4 == 0 { Wires::Wide } else { Wires::SeriesParallel };
    let values = [Values::Small, Values::Equal, Values::Exhausted][round % 3];
    let mut tries = 0;
    loop {
        let block = generate::block(random, kind, values, 8 + round % 5, 2);
        let lists = search::count_of_lists(&block);
        let many = lists >= MOST_LISTS / 4 && lists <= MOST_LISTS && timing::all_paths(&block).len() > 2;
        if !many {
            continue;
        }
        let block = change(random, block, round / 4);
        if !has_to_choose(&block) {
            continue;
        }
        tries += 1;
        if values != Values::Equal || tries == MOST_TRIES || has_ties(&block) {
            return block;
        }
    }
}

/// The cases of edition 1.
fn edition_1() -> Vec<Case> {
    let random = &mut Random::from_seed(2_023);
    let searched = &mut Random::from_seed(8_012);
    let bridged = &mut Random::from_seed(464);
    let mut cases: Vec<Case> = Vec::new();
    cases.extend(of_worked(worked::edition_1()));
    cases.extend(of_boundaries(boundaries::edition_1()));
    cases.extend(short_slices());
    cases.extend(damaged(encode(&worked::diamond(10))));
    cases.extend(small_blocks(random));
    cases.extend((0..300).map(|round| Case::of(encode(&middle_block(random, round)), round)));
    cases.extend((0..40).map(|round| Case::of(encode(&searched_block(searched, round, unchanged)), round)));
    cases.extend((0..40).map(|round| Case::of(encode(&bridged_block(bridged, MIDDLE_GATES)), round)));
    cases
}

/// A small block of any kind, whose lists can all be tried.
fn small_block(random: &mut Random) -> Block {
    loop {
        let block = any_block(random, 7);
        if search::count_of_lists(&block) <= MOST_LISTS {
            return block;
        }
    }
}

/// Random blocks changed by an edition: small ones, series-parallel ones of many lists, larger ones, and some with a bridge.
fn random_blocks(random: &mut Random, searched: &mut Random, change: Change) -> Vec<Case> {
    let mut cases: Vec<Case> = Vec::new();
    let mut add = |block: &Block, round: usize| cases.push(Case::of(encode(block), round));
    for round in 0..100 {
        let block = small_block(random);
        add(&change(random, block, round), round);
    }
    for round in 0..40 {
        add(&searched_block(searched, round, change), round);
    }
    for round in 0..100 {
        let block = middle_block(random, round);
        add(&change(random, block, round / 10), round);
    }
    for round in 0..20 {
        let block = bridged_block(random, MIDDLE_GATES);
        add(&change(random, block, round), round);
    }
    cases
}

/// Blocks worked out by hand, boundaries, and a file cut and changed at every byte.
fn by_hand(worked: Vec<Worked>, boundaries: Vec<Boundary>, file: Vec<u8>) -> Vec<Case> {
    of_worked(worked).chain(of_boundaries(boundaries)).chain(damaged(file)).collect()
}

/// The cases that came with edition 2.
fn edition_2() -> Vec<Case> {
    let diamond = worked::delayed_diamond([1, 0, 0, 2]);
    let mut cases = by_hand(worked::edition_2(), boundaries::edition_2::all(), encode(&diamond));
    cases.extend(random_blocks(&mut Random::from_seed(2_024), &mut Random::from_seed(8_013), delayed));
    cases
}

/// The cases that came with edition 3.
fn edition_3() -> Vec<Case> {
    let mut diamond = worked::delayed_diamond([1, 0, 0, 2]);
    set_activities(&mut diamond, [40_001, 513, 258, 65_535, 772]);
    let mut cases = by_hand(worked::edition_3::all(), boundaries::edition_3::all(), encode(&diamond));
    cases.extend(random_blocks(&mut Random::from_seed(2_025), &mut Random::from_seed(8_014), measured));
    cases
}

/// A block in an edition in which the order of ties decides. Two of five are so small that the second opinion tries every list,
/// two that the exhaustive search does, and one is middle-sized. At most one of five is a chain.
fn block_with_ties(random: &mut Random, edition: u8, round: usize) -> Block {
    loop {
        let (gates, most_lists, most_wires) = match round % 5 {
            0 | 1 => (3 + random.below(5), FEW_LISTS, FEW_WIRES),
            2 | 3 => (6 + random.below(7), MOST_LISTS, MOST_WIRES),
            _ => (middle(random), u64::MAX, usize::MAX),
        };
        let block = tied_block(random, edition, gates);
        let fits = search::count_of_lists(&block) <= most_lists && block.wires.len() <= most_wires;
        let is_chain = block.wires.len() < gates;
        if fits && (round % 5 == 0 || !is_chain) && has_ties(&block) {
            return block;
        }
    }
}

/// The cases that came with the order of ties from gate n - 1 down (document 02, K8): blocks worked out by hand, and random
/// blocks in every edition, each with another best list in the order before.
fn ties() -> Vec<Case> {
    let random = &mut Random::from_seed(8_015);
    let mut cases: Vec<Case> = of_worked(worked::ties::all()).collect();
    for round in 0..TIED {
        for edition in 1..=MAX_EDITION {
            let case = Case::of(encode(&block_with_ties(random, edition, round)), round);
            assert!(case.has_ties(), "edition {edition}, round {round}");
            cases.push(case);
        }
    }
    cases
}

/// A block in an edition and an m, such that the block still fits a file in ticks m times as fine. In these, two of five are so
/// small that the second opinion tries every list, one that the exhaustive search does, and two are middle-sized.
fn block_with_factor(random: &mut Random, edition: u8, round: usize) -> (Block, u32) {
    let few = [2, 3, 4, 5, 10];
    let m = if round % 5 < 2 { few[round / 5 % 5] } else { FACTORS[round / 5 % FACTORS.len()] };
    let block = match round % 5 {
        0 | 1 => small_block_to_scale(random, edition, m, FEW_LISTS, FEW_WIRES),
        2 => small_block_to_scale(random, edition, m, MIDDLE_LISTS, MOST_WIRES),
        _ => {
            let gates = middle(random);
            block_to_scale(random, edition, gates, m, u64::MAX)
        }
    };
    (block, m)
}

/// The cases that came with finer ticks (document 02, K14): blocks worked out by hand, and random blocks in every edition, each
/// followed by the same in ticks m times as fine.
fn finer() -> Vec<Case> {
    let random = &mut Random::from_seed(8_016);
    let mut cases: Vec<Case> = of_worked(worked::finer::all()).collect();
    for round in 0..SCALED {
        for edition in 1..=MAX_EDITION {
            let (block, m) = block_with_factor(random, edition, round);
            let finer = scaled(&block, m).expect("a block that fits a file");
            cases.push(Case::of(encode(&block), round));
            cases.push(Case::in_finer_ticks(encode(&finer), round, m));
        }
    }
    cases
}

/// A block in an edition with uneven gains. Two of five are so small that the second opinion tries every list, one that the
/// exhaustive search does, and two are middle-sized, one of them with steps of up to 4,095 ticks.
fn block_with_uneven_gains(random: &mut Random, edition: u8, round: usize) -> Block {
    let (least_gates, most_gates, widest, lists, most_wires) = match round % 5 {
        0 | 1 => (2, 5, 4, 3..=FEW_LISTS, FEW_WIRES),
        2 => (2, 8, 9, FEW_LISTS + 1..=MIDDLE_LISTS, MOST_WIRES),
        3 => (12, MIDDLE_GATES, 20, 3..=u64::MAX, usize::MAX),
        _ => (12, MIDDLE_GATES, MAX_WIDTH, 3..=u64::MAX, usize::MAX),
    };
    loop {
        let gates = least_gates + random.below(most_gates - least_gates + 1);
        let block = uneven_block(random, edition, gates, widest);
        if lists.contains(&search::count_of_lists(&block)) && block.wires.len() <= most_wires {
            return block;
        }
    }
}

/// The cases that came with the fewest ticks (document 02, K6): blocks worked out by hand, D with nothing and with one saving
/// wanted, and random series-parallel blocks in every edition, with wanted savings that need anything from one tick to all, all
/// that can be saved, and one more.
fn fewest_ticks() -> Vec<Case> {
    let random = &mut Random::from_seed(8_017);
    let mut cases: Vec<Case> = of_worked(worked::ticks::all()).collect();
    for wanted in [vec![], vec![44 * worked::U + 1]] {
        cases.push(Case { wanted, ..Case::of(encode(&worked::diamond(10)), 1) });
    }
    for round in 0..UNEVEN {
        for edition in 1..=MAX_EDITION {
            let block = block_with_uneven_gains(random, edition, round);
            let curve = exact::curve(&block);
            let whole = curve.counted_off(curve.ticks());
            let mut wanted = scattered(random, &curve, MOST_WANTED - 2);
            wanted.extend([whole, whole + 1]);
            cases.push(Case { wanted, ..Case::of(encode(&block), round) });
        }
    }
    cases
}

/// The cases once more in a later edition, but for those that are such already, and for those of files that cannot be read.
fn twins(cases: &[Case], edition: u8, restated: fn(Block) -> Block) -> Vec<Case> {
    let first = cases.iter().enumerate().filter(|(_, case)| case.twin_of.is_none());
    first.filter_map(|(number, case)| case.twin(number, edition, restated)).collect()
}

/// Every stored case, in order.
pub fn all() -> Vec<Case> {
    let mut cases = edition_1();
    cases.extend(twins(&cases, 2, |block| Block { edition: 2, ..block }));
    cases.extend(edition_2());
    cases.extend(twins(&cases, 3, in_edition_3));
    cases.extend(edition_3());
    cases.extend(ties());
    cases.extend(finer());
    cases.extend(fewest_ticks());
    cases.extend(large::all());
    cases
}
