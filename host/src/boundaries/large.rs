//! Boundaries that came with the limits of gates and wires of document 02's K10, in every edition.

use super::{accepted, and, bridge, in_series, plain, refused, Boundary};
use crate::block::{encode, Block, Wire, MAX_GATES, MAX_TIME, MAX_WIRES};
use crate::edition::{has_wire_delays, is_measured, max_activity, wire_length, MAX_EDITION};
use crate::generate::editions::{delay_wires, set_activities};
use crate::generate::limits::most_wires;
use crate::generate::MIDDLE_GATES;
use std::iter::repeat;

/// The block in an edition with the latest deadline and, where the edition has these, wires of delay 1 and the greatest activity of
/// each net.
fn restated(mut block: Block, edition: u8) -> Block {
    block.deadline = MAX_TIME;
    if has_wire_delays(edition) {
        delay_wires(&mut block, repeat(1));
    }
    if is_measured(edition) {
        set_activities(&mut block, repeat(max_activity(edition)));
    }
    block
}

/// A chain of so many plain gates in an edition.
fn chain(gates: usize, edition: u8) -> Block {
    restated(plain(gates, &in_series(gates)), edition)
}

/// The chain with another wire in place of the one from gate `at`.
fn chain_with(at: usize, from: usize, to: usize, edition: u8) -> Block {
    let mut block = chain(MAX_GATES, edition);
    (block.wires[at].from, block.wires[at].to) = (from, to);
    block
}

/// The chain with a wire more.
fn chain_and(from: usize, to: usize, edition: u8) -> Vec<u8> {
    let mut block = chain(MAX_GATES, edition);
    block.wires.push(Wire { from, to, ..block.wires[0] });
    encode(&block)
}

/// The offset of a block's wire field.
fn offset_of_wire(block: &Block, wire: usize) -> u32 {
    let behind = (block.wires.len() - wire) * (3 + wire_length(block.edition));
    (encode(block).len() - behind) as u32
}

/// Counts of gates, and gate numbers in the last wire of a chain of the most gates.
fn gates(edition: u8) -> Vec<Boundary> {
    let counted = |count: usize| {
        let mut file = encode(&chain(MAX_GATES, edition));
        file[4] = count as u8;
        file
    };
    let last = MAX_GATES - 2;
    let at = offset_of_wire(&chain(MAX_GATES, edition), last);
    let with_last = |from, to| encode(&chain_with(last, from, to, edition));
    let fewer = encode(&chain(MAX_GATES - 1, edition));
    let in_fewer = offset_of_wire(&chain(MAX_GATES - 1, edition), last - 1);
    let mut beyond_fewer = chain(MAX_GATES - 1, edition);
    beyond_fewer.wires[last - 1].to = MAX_GATES - 1;
    vec![
        accepted("a gate more than before", encode(&chain(MIDDLE_GATES + 1, edition))),
        accepted("a gate fewer than the most", fewer),
        accepted("the most gates", counted(MAX_GATES)),
        refused("a gate counted that is not there", counted(MAX_GATES + 1), 4, 0),
        refused("255 gates counted", counted(255), 4, 0),
        refused("a wire to gate n at the limit", with_last(MAX_GATES - 2, MAX_GATES), 4, at),
        refused("a wire from gate n at the limit", with_last(MAX_GATES, MAX_GATES - 1), 4, at),
        refused("a wire to gate 255", with_last(MAX_GATES - 2, 255), 4, at),
        refused("a wire to the highest gate of all, which is n", encode(&beyond_fewer), 4, in_fewer),
    ]
}

/// A chain of so many gates, every gate of which also leads to the last.
fn ladder(gates: usize) -> Vec<(usize, usize)> {
    in_series(gates).into_iter().chain((0..gates - 2).map(|g| (g, gates - 1))).collect()
}

/// The last of the most wires, and what stands behind it.
fn wires(edition: u8) -> Vec<Boundary> {
    let full = restated(most_wires(), edition);
    let (at, end) = (offset_of_wire(&full, MAX_WIRES - 1), offset_of_wire(&full, MAX_WIRES));
    let with_last = |from, to| {
        let mut block = full.clone();
        block.wires[MAX_WIRES - 1] = Wire { from, to, ..block.wires[0] };
        encode(&block)
    };
    let header = [3, 0, wire_length(edition) as u8];
    // a ladder of so many gates has 257 wires, one more than were allowed before
    let beyond_before = restated(plain(130, &ladder(130)), edition);
    assert_eq!(beyond_before.wires.len(), 257);
    vec![
        accepted("a wire more than before", encode(&beyond_before)),
        refused("the last wire stood before", with_last(0, 1), 6, at),
        refused("the last wire to itself", with_last(150, 150), 6, at),
        refused("the last wire to gate n", with_last(0, MAX_GATES), 4, at),
        refused("the last wire closes a loop of high gates", with_last(MAX_GATES - 1, 150), 8, 150),
        refused("a header behind the most wires", and(encode(&full), &header), 7, end),
        refused("half a wire behind the most wires", and(and(encode(&full), &header), &[0]), 7, end),
    ]
}

/// The most wires between few gates: one from each to each other of 25, which makes loops; and one from each to each higher one of
/// 36, but for 30 of the 35 from gate 0.
fn dense(edition: u8) -> Vec<Boundary> {
    let pairs = |gates: usize| (0..gates).flat_map(move |a| (0..gates).map(move |b| (a, b)));
    let each: Vec<(usize, usize)> = pairs(25).filter(|(a, b)| a != b).collect();
    let upwards = |&(a, b): &(usize, usize)| a < b && !(a == 0 && (3..33).contains(&b));
    let upwards: Vec<(usize, usize)> = pairs(36).filter(upwards).collect();
    assert_eq!([each.len(), upwards.len()], [MAX_WIRES; 2]);
    let looped = restated(plain(25, &each), edition);
    let end = offset_of_wire(&looped, MAX_WIRES);
    vec![
        refused("a wire from each to each other of 25 gates", encode(&looped), 8, 0),
        refused("a byte behind these", and(encode(&looped), &[3]), 7, end),
        // no gate has one wire in and one wire out, so all are left
        refused("the most wires between 36 gates", encode(&restated(plain(36, &upwards), edition)), 11, 1),
    ]
}

/// Loops, faults at the ends and a bridge at high gates, and a late chain.
fn networks(edition: u8) -> Vec<Boundary> {
    let late = Block { deadline: MAX_GATES as u32 - 1, ..chain(MAX_GATES, edition) };
    let around = |a: usize, b: usize| [in_series(a + 1), in_series(MAX_GATES).split_off(b)].concat();
    let bridged = [around(100, 103), bridge(100, 101, 102, 103).to_vec()].concat();
    vec![
        refused("a loop of the highest gates", chain_and(MAX_GATES - 1, MAX_GATES - 2, edition), 8, 198),
        refused("a loop from the highest gate to gate 100", chain_and(MAX_GATES - 1, 100, edition), 8, 100),
        refused("a loop inside", chain_and(190, 70, edition), 8, 70),
        // gate 149 leads nowhere, and gate 150 has no wire in
        refused("a wire elsewhere", encode(&chain_with(149, 148, 151, edition)), 9, 149),
        refused("a high gate without a wire in", encode(&chain_with(195, 195, 197, edition)), 9, 196),
        refused("a high gate without a wire out", encode(&chain_with(196, 195, 197, edition)), 9, 196),
        refused("the last gate without a wire", encode(&chain_with(198, 0, 198, edition)), 9, 198),
        // 1 to 99 and 104 to 198 go
        refused("a bridge inside a long chain", encode(&restated(plain(MAX_GATES, &bridged), edition)), 11, 100),
        refused("a long chain with spare -1 or less", encode(&late), 12, 0),
    ]
}

pub fn all() -> Vec<Boundary> {
    let groups: [fn(u8) -> Vec<Boundary>; 4] = [gates, wires, dense, networks];
    let of = |edition: u8| groups.iter().flat_map(move |group| group(edition));
    let named = |edition: u8, boundary: Boundary| {
        let name = format!("edition {edition}, {}", boundary.name);
        Boundary { name, ..boundary }
    };
    (1..=MAX_EDITION).flat_map(|edition| of(edition).map(move |boundary| named(edition, boundary))).collect()
}
