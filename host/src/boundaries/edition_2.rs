//! Boundaries that came with edition 2 (document 02, K2).

use super::{
    accepted, and, bridges, chain, d, gate, high_bridges, in_series, plain, refused, replaced, with, Boundary, LAST,
};
use crate::block::{decode, encode, Block, Gate, MAX_GATES, MAX_WIRE_DELAY};
use crate::generate::editions::delay_wires;
use crate::generate::limits::largest_file;
use crate::worked::delayed_diamond;

/// Diamond D of edition 2, wire delays 1, 0, 0 and 2, deadline 12: fields up to the gates as in D, then wires at 55, 62, 69
/// and 76, end 83.
fn d2() -> Vec<u8> {
    encode(&delayed_diamond([1, 0, 0, 2]))
}

/// D of edition 2 with the bytes from `at` on replaced.
fn with2(at: usize, bytes: &[u8]) -> Vec<u8> {
    replaced(d2(), at, bytes)
}

fn cut2(length: usize) -> Vec<u8> {
    d2()[..length].to_vec()
}

/// The block in edition 2 with these wire delays, deadline 65,535.
fn delayed(mut block: Block, delays: &[u32]) -> Block {
    block.deadline = 65_535;
    delay_wires(&mut block, delays.iter().copied());
    block
}

/// A chain of plain gates with these wire delays.
pub fn delayed_chain(delays: &[u32]) -> Block {
    let gates = delays.len() + 1;
    delayed(plain(gates, &in_series(gates)), delays)
}

fn editions() -> Vec<Boundary> {
    let mut odd_wires = with2(56, &[0, 9]);
    odd_wires[3] = 4;
    vec![
        accepted("edition 2", d2()),
        refused("edition 0 with wires of 4 bytes", with2(3, &[0]), 4, 0),
        refused("edition 1 with wires of 4 bytes", with2(3, &[1]), 3, 55),
        refused("edition 4 with wires of 4 bytes", with2(3, &[4]), 4, 0),
        refused("edition 255 with wires of 4 bytes", with2(3, &[255]), 4, 0),
        refused("edition 4 with wires of 2 bytes", with(3, &[4]), 4, 0),
        refused("edition 255 with wires of 2 bytes", with(3, &[255]), 4, 0),
        refused("edition 4 with a wire of 9 bytes", odd_wires, 4, 0),
        accepted("a lone gate in edition 2", replaced(chain(1), 3, &[2])),
        refused("a lone gate in edition 4", replaced(chain(1), 3, &[4]), 4, 0),
        refused("edition 2 without a wire", cut2(55), 9, 0),
        refused("edition 2 and a gate more", replaced(chain(MAX_GATES + 1), 3, &[2]), 4, 0),
        refused("a wire of 4 bytes among those of edition 1", and(d(), &[3, 0, 4, 0, 3, 0, 0]), 3, 75),
        refused("a wire of 2 bytes among those of edition 2", and(d2(), &[3, 0, 2, 0, 3]), 3, 83),
    ]
}

fn lengths_of_delayed_wires() -> Vec<Boundary> {
    vec![
        refused("edition 2, a wire of 0 bytes", with2(77, &[0, 0]), 3, 76),
        refused("edition 2, a wire of 1 byte", with2(77, &[0, 1]), 3, 76),
        refused("edition 2, a wire of 2 bytes", with2(77, &[0, 2]), 3, 76),
        refused("edition 2, a wire of 3 bytes", with2(77, &[0, 3]), 3, 76),
        refused("edition 2, a wire of 5 bytes", with2(77, &[0, 5]), 3, 76),
        refused("edition 2, a wire of 6 bytes", with2(77, &[0, 6]), 3, 76),
        refused("edition 2, a wire of 260 bytes", with2(77, &[1, 4]), 3, 76),
        refused("edition 2, tag 2 for a wire", with2(76, &[2]), 2, 76),
        refused("edition 2, one byte of a wire's header", cut2(77), 1, 76),
        refused("edition 2, two bytes of a wire's header", cut2(78), 1, 76),
        refused("edition 2, a wire's header without its body", cut2(79), 1, 76),
        refused("edition 2, a wire's body cut after 1 byte", cut2(80), 1, 76),
        refused("edition 2, a wire's body cut after 2 bytes", cut2(81), 1, 76),
        refused("edition 2, a wire's body cut after 3 bytes", cut2(82), 1, 76),
        refused("edition 2, the first wire's body cut after 2 bytes", cut2(60), 1, 55),
        refused("edition 2, a wire too few", cut2(76), 9, 2),
        refused("edition 2, a single byte behind the wires", and(d2(), &[3]), 1, 83),
        refused("edition 2, a wrong length with a short body", and(d2(), &[3, 255, 255]), 3, 83),
        refused("edition 2, a short body with numbers out of range", and(d2(), &[3, 0, 4, 255, 255, 255]), 1, 83),
    ]
}

fn wire_delays() -> Vec<Boundary> {
    let delay = |delay| encode(&delayed_chain(&[delay]));
    let two = |one, other| encode(&delayed_chain(&[one, other]));
    vec![
        accepted("wire delay 0", delay(0)),
        accepted("wire delay 255", delay(255)),
        accepted("wire delay 256", delay(256)),
        accepted("wire delay 4,095", delay(4_095)),
        refused("wire delay 4,096", delay(4_096), 4, 33),
        refused("wire delay 4,351", delay(4_351), 4, 33),
        refused("wire delay 65,535", delay(65_535), 4, 33),
        refused("wire delay 4,096 of the last wire", two(4_095, 4_096), 4, 51),
        refused("wire delay 4,096 before a wrong tag", replaced(two(4_096, 0), 51, &[2]), 4, 44),
        refused("edition 2, a wire from gate n", with2(79, &[4, 3]), 4, 76),
        refused("edition 2, a wire to gate n", with2(79, &[0, 4]), 4, 76),
        refused("gate and wire delay out of range", with2(79, &[4, 3, 16, 0]), 4, 76),
        refused("edition 2, a wire that stood before, with its delay", and(d2(), &[3, 0, 4, 0, 1, 0, 1]), 6, 83),
        refused("edition 2, a wire that stood before, with another delay", and(d2(), &[3, 0, 4, 0, 1, 0, 9]), 6, 83),
        refused("edition 2, a wire that stood before, without delay", and(d2(), &[3, 0, 4, 0, 1, 0, 0]), 6, 83),
        refused("edition 2, a wire that stood just before", with2(65, &[0, 1]), 6, 62),
        refused("a wire that stood before with a delay out of range", and(d2(), &[3, 0, 4, 0, 1, 16, 0]), 4, 83),
        refused("a wire to itself with a delay", with2(58, &[1, 1, 0, 7]), 6, 55),
        refused("a wire to itself with a delay out of range", with2(58, &[1, 1, 255, 255]), 4, 55),
        refused("edition 2, a wire and its opposite", and(d2(), &[3, 0, 4, 1, 0, 0, 1]), 8, 0),
        refused("edition 2, a gate without a wire out", and(cut2(69), &[3, 0, 4, 1, 2, 0, 5]), 9, 2),
    ]
}

/// Chains at the limits of time: 15 wires of 4,095 ticks take 61,425, 16 take 65,520; each gate takes 1.
fn long_times() -> Vec<Boundary> {
    let chain = |delays: &[u32]| encode(&delayed_chain(delays));
    let with_last = |last: u32| chain(&[&[4_095; 15][..], &[last]].concat());
    let mut slowest = delayed_chain(&[MAX_WIRE_DELAY; MAX_GATES - 1]);
    slowest.gates.fill(Gate { delay: 4_095, ..gate(&[(4_095, 1_000), (4_095, 999)]) });
    let never = encode(&Block { arrival: 65_535, deadline: 0, ..slowest.clone() });
    let d = |deadline| encode(&Block { deadline, ..delayed_diamond([1, 0, 0, 2]) });
    let beside_a_chain = plain(3, &[(0, 1), (1, 2), (0, 2)]);
    vec![
        accepted("16 gates and 15 wires of delay 4,095", chain(&[4_095; 15])),
        accepted("wire delays that leave spare 0", with_last(4_093)),
        refused("wire delays that leave spare -1", with_last(4_094), 12, 0),
        refused("17 gates and 16 wires of delay 4,095", with_last(4_095), 12, 0),
        refused("the most gates and wires of delay 4,095", chain(&[MAX_WIRE_DELAY; MAX_GATES - 1]), 12, 0),
        refused("every delay of a chain of the most gates at its limit", encode(&slowest), 12, 0),
        refused("the same with arrival 65,535 and deadline 0", never, 12, 0),
        accepted("edition 2, spare 0", d(8)),
        refused("edition 2, spare -1", d(7), 12, 0),
        accepted("a slow wire beside a chain", encode(&delayed(beside_a_chain, &[0, 0, 4_095]))),
    ]
}

/// The longest file; check-reference has its length by hand.
fn longest_files() -> Vec<Boundary> {
    let full = largest_file();
    let end = full.len() as u32;
    vec![
        // no gate has one wire in and one wire out, so all are left
        refused("the longest file of edition 2", full.clone(), 11, 1),
        refused("the same without its last byte", full[..full.len() - 1].to_vec(), 1, end - 7),
        // 54 wires, none of them between neighbours
        refused("its gates and some of its wires", full[..8_189].to_vec(), 9, 1),
        refused("one byte behind it", and(full.clone(), &[0]), 7, end),
        refused("a wire more in edition 2", and(full.clone(), &[3, 0, 4, 0, LAST, 0, 1]), 7, end),
        refused("a wire more that stood before, in edition 2", and(full, &[3, 0, 4, 0, 1, 0, 1]), 7, end),
    ]
}

/// The boundaries of 11 once more in edition 2 with wire delays, which do not change what is left.
fn delayed_bridges() -> Vec<Boundary> {
    let mut all = bridges();
    all.extend(high_bridges());
    for boundary in &mut all {
        let mut block = decode(&boundary.file).expect("a block");
        delay_wires(&mut block, (1..).map(|i| 1_365 * i % 4_096));
        boundary.file = encode(&block);
    }
    all
}

pub fn all() -> Vec<Boundary> {
    let mut all = editions();
    all.extend(lengths_of_delayed_wires());
    all.extend(wire_delays());
    all.extend(long_times());
    all.extend(longest_files());
    all.extend(delayed_bridges());
    all
}
