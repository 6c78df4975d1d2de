//! The boundaries of 17 (document 02, K6), and which refusals come before it: each file with a wanted saving and the refusal of
//! the fewest ticks, by hand.

use super::{and, bridge, cut, d, gate, lone, plain, wired, with, LAST};
use crate::block::{encode, Block};
use crate::generate::limits::{largest_gain, largest_measured_gain, most_pairs, most_ticks, most_wires};
use crate::worked::{delayed_diamond, diamond, U};

/// A file and a wanted saving, and the number and place of the refusal, or `None` where the fewest ticks are given.
pub struct Wanted {
    pub name: &'static str,
    pub file: Vec<u8>,
    pub wanted: u64,
    pub refused: Option<(u32, u32)>,
}

/// All that a block can save, which is reached, and one more, which is not.
fn whole(name: &'static str, file: Vec<u8>, saving: u64) -> [Wanted; 3] {
    let at = |wanted, refused| Wanted { name, file: file.clone(), wanted, refused };
    [at(saving, None), at(saving + 1, Some((17, 0))), at(u64::MAX, Some((17, 0)))]
}

/// Another refusal, which comes before 17 and does not depend on what is wanted.
fn before(name: &'static str, file: Vec<u8>, number: u32, place: u32) -> [Wanted; 3] {
    [0, 1, u64::MAX].map(|wanted| Wanted { name, file: file.clone(), wanted, refused: Some((number, place)) })
}

/// What blocks can save at most: in time, late, without any step or activity, and at the limits.
fn wholes() -> Vec<[Wanted; 3]> {
    vec![
        whole("D", d(), 92 * U),
        whole("D, spare -1", encode(&diamond(6)), 92 * U),
        whole("D, deadline 0", encode(&diamond(0)), 92 * U),
        whole("D, arrival 65,535 and deadline 0", with(5, &[255, 255, 0, 0]), 92 * U),
        whole("D with wire delays", encode(&delayed_diamond([4_095, 0, 0, 4_095])), 92 * U),
        whole("one gate", lone(gate(&[(2, 3)])), 6 * U),
        whole("one gate of a tick", lone(gate(&[(1, 1)])), U),
        whole("one gate without a step", lone(gate(&[])), 0),
        whole("one gate without activity", encode(&Block { switching: 0, ..plain(1, &[]) }), 0),
        // 4 gates, each 2 x 3U but the last, which has two wires in
        whole("a diamond of plain gates", wired(4, &[(0, 1), (0, 2), (1, 3), (2, 3)]), 30 * U),
        whole("the largest gain", encode(&largest_gain()), 398_000 * U),
        whole("the largest gain of edition 3", encode(&largest_measured_gain()), 2 * 13_041_465_000),
        // steps of width 1 + i and drop 1,000 - 100i - g, of 100 gates: 36,000 - 100 x 168 - 36g each; all of it twice
        whole("the most pairs", encode(&most_pairs()), (100 * 19_200 - 36 * 4_950) * (U + 32_766)),
        whole("the most ticks", encode(&most_ticks()), 29_484_000 * U),
    ]
}

/// Refusals 1 to 9 and 11, of which some files get 12 from the best increases.
fn others() -> Vec<[Wanted; 3]> {
    let full = encode(&most_wires());
    let end = full.len() as u32;
    vec![
        before("no byte", Vec::new(), 1, 0),
        before("a body of one byte less", cut(10), 1, 0),
        before("tag 2 for the block", with(0, &[2]), 2, 0),
        before("a gate of 3 bytes", with(12, &[0, 3]), 3, 11),
        before("edition 0", with(3, &[0]), 4, 0),
        before("a wire to gate n", with(73, &[0, 4]), 4, 70),
        before("equal drops", lone(gate(&[(1, 2), (1, 2)])), 5, 11),
        before("a wire that stood before", and(d(), &[3, 0, 2, 0, 1]), 6, 75),
        before("a wire more", and(full, &[3, 0, 2, 0, LAST]), 7, end),
        before("a loop of two", wired(4, &[(0, 1), (1, 2), (2, 1), (2, 3)]), 8, 1),
        before("a wire too few", cut(70), 9, 2),
        before("the bridge", wired(4, &bridge(0, 1, 2, 3)), 11, 1),
        before("the bridge, late", encode(&Block { deadline: 1, ..plain(4, &bridge(0, 1, 2, 3)) }), 11, 1),
        before("the bridge behind a gate", wired(5, &[&[(0, 1)], &bridge(1, 2, 3, 4)[..]].concat()), 11, 1),
    ]
}

pub fn all() -> Vec<Wanted> {
    wholes().into_iter().chain(others()).flatten().collect()
}
