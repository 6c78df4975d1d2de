//! Paths, series-parallel networks, and what the generator makes.

use reference::block::{decode, encode, Block, Refusal, Wire, MAX_GATES};
use reference::edition::{has_wire_delays, is_measured};
use reference::generate::editions::{in_any_edition, in_edition_3, Counted};
use reference::generate::ties::{has_ties, tied_block};
use reference::generate::{self, any_block, Values, Wires, MIDDLE_GATES};
use reference::random::Random;
use reference::{merging, network, parts, search, timing};
use std::collections::HashSet;

/// A block, in any edition, whose lists the exhaustive search can try.
pub fn small_block(random: &mut Random, kind: Wires) -> Block {
    loop {
        let values = random.pick(&[Values::Small, Values::Equal]);
        let gates = 1 + random.below(7);
        let block = generate::block(random, kind, values, gates, 2);
        let block = in_any_edition(random, block);
        if network::check(&block).is_ok() && search::count_of_lists(&block) <= 3_000 {
            return block;
        }
    }
}

/// Longest path and slacks, carried along the wires, are what the paths say.
pub fn check_paths(random: &mut Random) -> Counted {
    let mut counted = Counted::default();
    for _ in 0..3_000 {
        let kind = random.pick(&[Wires::SeriesParallel, Wires::General]);
        let block = small_block(random, kind);
        counted.count(&block);
        let delay = |path: &[usize]| timing::path_delay(&block, path) as i64;
        let paths = timing::all_paths(&block);
        assert_eq!(paths.iter().map(|p| delay(p)).max(), Some(timing::start(&block) as i64));
        let slacks = timing::slacks(&block);
        for (gate, slack) in slacks.iter().enumerate() {
            let longest = paths.iter().filter(|p| p.contains(&gate)).map(|p| delay(p)).max().expect("a path");
            assert_eq!(*slack, i64::from(block.deadline) - i64::from(block.arrival) - longest);
        }
    }
    assert!(counted.delayed > 500 && counted.measured > 500, "{counted}");
    counted
}

/// The reduction decides as building up does, and an inner gate is left where both say no; both kinds occur.
pub fn check_parts(random: &mut Random) -> (usize, usize) {
    let (mut yes, mut no) = (0, 0);
    while yes + no < 4_000 {
        let kind = random.pick(&[Wires::SeriesParallel, Wires::Wide, Wires::Nearly, Wires::Nearly, Wires::General]);
        let gates = 1 + random.below(7);
        let block = generate::block(random, kind, Values::Small, gates, 0);
        let block = in_any_edition(random, block);
        if network::check(&block).is_err() || block.wires.len() > 11 {
            continue;
        }
        let reduces = parts::reduces(&block);
        assert_eq!(reduces, parts::built_up(&block), "{block:?}");
        assert_eq!(reduces, parts::lowest_left(&block, random).is_none(), "{block:?}");
        assert!(reduces || !matches!(kind, Wires::SeriesParallel | Wires::Wide), "{block:?}");
        yes += usize::from(reduces);
        no += usize::from(!reduces);
    }
    assert!(yes > 500 && no > 500);
    (yes, no)
}

/// Every network of so many gates whose ends are right and which has no loop.
fn every_network(gates: usize) -> Vec<Block> {
    let ends = |a: usize, b: usize| a != b && a != gates - 1 && b != 0;
    let pairs = (0..gates).flat_map(|a| (0..gates).map(move |b| (a, b)));
    let wires: Vec<Wire> = pairs.filter(|&(a, b)| ends(a, b)).map(|(a, b)| Wire::without_delay(a, b)).collect();
    let mut networks = Vec::new();
    for choice in 0u32..1 << wires.len() {
        let chosen = (0..wires.len()).filter(|i| choice >> i & 1 == 1).map(|i| wires[i]).collect();
        let block = generate::bare_block(gates, chosen);
        if network::check(&block).is_ok() {
            networks.push(block);
        }
    }
    networks
}

/// The same on every network of up to 5 gates, and the generator makes each series-parallel one of up to 4.
pub fn check_every_network(random: &mut Random) -> (usize, usize) {
    let (mut yes, mut no) = (0, 0);
    for gates in 1..=5 {
        let mut made: HashSet<Vec<Wire>> = HashSet::new();
        for _ in 0..20_000 {
            let mut wires = generate::series_parallel(random, gates);
            wires.sort();
            made.insert(wires);
        }
        for block in every_network(gates) {
            let reduces = parts::reduces(&block);
            assert_eq!(reduces, parts::built_up(&block), "{block:?}");
            assert_eq!(reduces, parts::lowest_left(&block, random).is_none(), "{block:?}");
            assert!(gates == 5 || reduces == made.contains(&block.wires), "{block:?}");
            yes += usize::from(reduces);
            no += usize::from(!reduces);
        }
    }
    (yes, no)
}

/// Random orders of taking gates away and merging wires leave the same gates (document 02, K1), one of them between the first
/// and the last exactly where the block does not reduce. Returns how many blocks reduce, how many do not, and how many
/// different places these have.
pub fn check_left(random: &mut Random) -> (usize, usize, usize) {
    let (mut yes, mut small, mut large) = (0, 0, 0);
    let mut places = HashSet::new();
    for round in 0..8_000 {
        let kind = random.pick(&[Wires::SeriesParallel, Wires::Wide, Wires::Nearly, Wires::Bridged, Wires::General]);
        let most_gates = [if round % 80 == 0 { MAX_GATES } else { MIDDLE_GATES }, 10, 10, 10][round % 4];
        let gates = 1 + random.below(most_gates);
        let block = generate::block(random, kind, Values::Small, gates, 0);
        let block = in_any_edition(random, block);
        if network::check(&block).is_err() {
            continue;
        }
        let left = parts::gates_left(&block, random);
        for _ in 0..5 {
            assert_eq!(parts::gates_left(&block, random), left, "{block:?}");
        }
        let place = parts::lowest_left(&block, random);
        assert_eq!(place.is_none(), parts::reduces(&block), "{block:?}");
        assert!(place.is_some() || kind != Wires::Bridged || gates < 4, "{block:?}");
        yes += usize::from(place.is_none());
        small += usize::from(place.is_some() && gates <= 10);
        large += usize::from(place.is_some() && gates > 10);
        places.extend(place);
    }
    assert!(yes > 2_000 && small > 1_000 && large > 500 && places.len() > 20, "{yes} {small} {large} {}", places.len());
    (yes, small + large, places.len())
}

/// The generator makes what its kinds promise in an edition, with wire delays where it has them.
pub fn check_generator(random: &mut Random, edition: u8) -> usize {
    let (mut loops, mut ends, mut not_series_parallel, mut ties, mut late, mut barely_late, mut full) =
        (0, 0, 0, 0, 0, 0, 0);
    let mut blocks = 0;
    while blocks < 4_000 {
        let block = any_block(random, 12);
        let block = in_any_edition(random, block);
        if block.edition != edition || block.is_delayed() != has_wire_delays(edition) {
            continue;
        }
        blocks += 1;
        assert_eq!(decode(&encode(&block)), Ok(block.clone()));
        match network::check(&block) {
            Err(refusal) => {
                loops += usize::from(refusal.number == 8);
                ends += usize::from(refusal.number == 9);
            }
            Ok(()) if !parts::reduces(&block) => not_series_parallel += 1,
            Ok(()) => {
                let spare = timing::spare(&block);
                late += usize::from(spare < 0);
                barely_late += usize::from(spare == -1);
                full += usize::from(spare == 0);
                ties += usize::from(has_ties(&block));
            }
        }
    }
    let counts = [loops, ends, not_series_parallel, ties, late, barely_late, full];
    assert!(counts.iter().all(|&count| count >= 40), "{counts:?}");
    blocks
}

/// In more than four of five blocks that are made for it the order of ties decides (document 02, K8). Returns how many blocks
/// there were, and in how many it does.
pub fn check_tied(random: &mut Random, edition: u8) -> (usize, usize) {
    let (blocks, mut tied) = (500, 0);
    for round in 0..blocks {
        let gates = if round % 50 == 0 { MAX_GATES - round / 50 } else { 3 + round % (MIDDLE_GATES - 2) };
        let block = tied_block(random, edition, gates);
        assert_eq!((block.edition, decode(&encode(&block))), (edition, Ok(block.clone())));
        assert!(parts::reduces(&block) && timing::spare(&block) > 0, "{block:?}");
        tied += usize::from(has_ties(&block));
    }
    assert!(5 * tied > 4 * blocks, "{tied}");
    (blocks, tied)
}

/// What list merging answers, and the increases that it writes.
fn merged(block: &Block) -> (Result<(usize, u64), Refusal>, [u32; MAX_GATES]) {
    let mut increases = [0; MAX_GATES];
    (merging::best_increases(&encode(block), &mut increases), increases)
}

/// A block with probabilities and the same in edition 3 have the same activities, and list merging answers both alike.
pub fn check_twins(random: &mut Random) -> usize {
    let mut twins = 0;
    while twins < 2_000 {
        let block = any_block(random, 12);
        let block = in_any_edition(random, block);
        if is_measured(block.edition) {
            continue;
        }
        twins += 1;
        let twin = in_edition_3(block.clone());
        assert_eq!((twin.edition, decode(&encode(&twin))), (3, Ok(twin.clone())));
        for gate in 0..block.gates.len() {
            assert_eq!(timing::input_activity(&block, gate), timing::input_activity(&twin, gate), "{block:?}");
        }
        assert_eq!(merged(&block), merged(&twin), "{block:?}");
    }
    twins
}

/// The measured activities that the generator makes reach both limits, and most of them are such that no probability yields
/// them. Returns how many nets there were.
pub fn check_activities(random: &mut Random) -> usize {
    let yielded: HashSet<u32> = (0..=256).map(|p| 2 * p * (256 - p)).collect();
    let (mut nets, mut silent, mut greatest, mut unyielded) = (0, 0, 0, 0);
    while nets < 10_000 {
        let block = any_block(random, 12);
        let block = in_any_edition(random, block);
        if !is_measured(block.edition) {
            continue;
        }
        for activity in block.gates.iter().map(|gate| gate.switching).chain([block.switching]) {
            nets += 1;
            silent += usize::from(activity == 0);
            greatest += usize::from(activity == 65_535);
            unyielded += usize::from(!yielded.contains(&activity));
        }
    }
    assert!(silent > 500 && greatest > 500 && 2 * unyielded > nets, "{silent} {greatest} {unyielded} {nets}");
    nets
}
