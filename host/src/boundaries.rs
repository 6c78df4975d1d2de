//! Every refusal that a file can get, at its boundaries, and 11 with its place: each file with the answer of the best
//! increases, by hand. 17, which depends on the wanted saving too, stands in ticks.rs.

pub mod edition_2;
pub mod edition_3;
pub mod large;
pub mod ticks;

use crate::block::{encode, Block, Gate, Step, Wire, MAX_GATES};
use crate::generate::limits::{largest_gain, most_pairs, most_wires};
use crate::worked::{diamond, paper_chain};

/// A file, and the number and place of its refusal, or `None` where the best increases are given.
pub struct Boundary {
    pub name: String,
    pub file: Vec<u8>,
    pub refused: Option<(u32, u32)>,
}

fn refused(name: &str, file: Vec<u8>, number: u32, place: u32) -> Boundary {
    Boundary { name: name.to_string(), file, refused: Some((number, place)) }
}

fn accepted(name: &str, file: Vec<u8>) -> Boundary {
    Boundary { name: name.to_string(), file, refused: None }
}

/// Diamond D with deadline 10: the block field at 0, gates at 11, 18, 33 and 44, wires at 55, 60, 65 and 70, end 75.
fn d() -> Vec<u8> {
    encode(&diamond(10))
}

/// The file with the bytes from `at` on replaced.
fn replaced(mut file: Vec<u8>, at: usize, bytes: &[u8]) -> Vec<u8> {
    file[at..at + bytes.len()].copy_from_slice(bytes);
    file
}

/// D with the bytes from `at` on replaced.
fn with(at: usize, bytes: &[u8]) -> Vec<u8> {
    replaced(d(), at, bytes)
}

fn cut(length: usize) -> Vec<u8> {
    d()[..length].to_vec()
}

/// The bytes of `file` and then these.
fn and(mut file: Vec<u8>, bytes: &[u8]) -> Vec<u8> {
    file.extend_from_slice(bytes);
    file
}

fn gate(steps: &[(u32, u32)]) -> Gate {
    let steps = steps.iter().map(|&(width, drop)| Step { width, drop }).collect();
    Gate { delay: 1, switching: 128, steps }
}

fn block(gates: Vec<Gate>, wires: &[(usize, usize)]) -> Block {
    let wires = wires.iter().map(|&(from, to)| Wire::without_delay(from, to)).collect();
    Block { edition: 1, arrival: 0, deadline: 100, switching: 128, gates, wires }
}

/// Plain gates, and these wires.
fn plain(gates: usize, wires: &[(usize, usize)]) -> Block {
    block(vec![gate(&[(2, 3)]); gates], wires)
}

fn wired(gates: usize, wires: &[(usize, usize)]) -> Vec<u8> {
    encode(&plain(gates, wires))
}

/// The wires of a chain of so many gates.
fn in_series(gates: usize) -> Vec<(usize, usize)> {
    (1..gates).map(|g| (g - 1, g)).collect()
}

/// A chain of so many gates.
fn chain(gates: usize) -> Vec<u8> {
    encode(&Block { deadline: 100.max(gates as u32), ..plain(gates, &in_series(gates)) })
}

/// The highest gate that a block can have.
const LAST: u8 = MAX_GATES as u8 - 1;

fn lone(gate: Gate) -> Vec<u8> {
    encode(&block(vec![gate], &[]))
}

fn short_fields() -> Vec<Boundary> {
    vec![
        refused("no byte", Vec::new(), 1, 0),
        refused("one byte of a header", cut(1), 1, 0),
        refused("two bytes of a header", cut(2), 1, 0),
        refused("a header without its body", cut(3), 1, 0),
        refused("a body of one byte less", cut(10), 1, 0),
        refused("no gate", cut(11), 1, 11),
        refused("a gate's header short", cut(13), 1, 11),
        refused("a gate's body short", cut(17), 1, 11),
        refused("a gate too few", cut(44), 1, 44),
        refused("no wire", cut(55), 9, 0),
        refused("a wire's header short", cut(57), 1, 55),
        refused("a wire's body short", cut(59), 1, 55),
        refused("a wire too few", cut(70), 9, 2),
        refused("a single byte behind the wires", and(d(), &[3]), 1, 75),
        refused("a short header with a wrong tag", vec![9, 0], 1, 0),
    ]
}

fn tags_and_lengths() -> Vec<Boundary> {
    vec![
        refused("tag 0 for the block", with(0, &[0]), 2, 0),
        refused("tag 2 for the block", with(0, &[2]), 2, 0),
        refused("tag 1 for a gate", with(11, &[1]), 2, 11),
        refused("tag 3 for a gate", with(44, &[3]), 2, 44),
        refused("tag 2 for a wire", with(55, &[2]), 2, 55),
        refused("tag 4 for a wire", with(70, &[4]), 2, 70),
        refused("a wrong tag with a wrong length", with(0, &[9, 9, 9]), 2, 0),
        refused("a block of 7 bytes", with(1, &[0, 7]), 3, 0),
        refused("a block of 9 bytes", with(1, &[0, 9]), 3, 0),
        refused("a block of 264 bytes", with(1, &[1, 8]), 3, 0),
        refused("a gate of 0 bytes", with(12, &[0, 0]), 3, 11),
        refused("a gate of 3 bytes", with(12, &[0, 3]), 3, 11),
        refused("a gate of 6 bytes", with(12, &[0, 6]), 3, 11),
        refused("a gate of 40 bytes", with(12, &[0, 40]), 3, 11),
        refused("a gate of 260 bytes", with(12, &[1, 4]), 3, 11),
        refused("a wire of 1 byte", with(71, &[0, 1]), 3, 70),
        refused("a wire of 3 bytes", with(71, &[0, 3]), 3, 70),
        refused("a wrong length with a short body", and(d(), &[3, 255, 255]), 3, 75),
        refused(
            "a right length with a short body and a number out of range",
            cut(11).into_iter().chain([2, 0, 4, 255, 255]).collect(),
            1,
            11,
        ),
        accepted("8 steps", lone(gate(&[(1, 8), (1, 7), (1, 6), (1, 5), (1, 4), (1, 3), (1, 2), (1, 1)]))),
        refused(
            "9 steps",
            lone(gate(&[(1, 9), (1, 8), (1, 7), (1, 6), (1, 5), (1, 4), (1, 3), (1, 2), (1, 1)])),
            3,
            11,
        ),
    ]
}

fn ranges() -> Vec<Boundary> {
    let p = |p| lone(Gate { switching: p, ..gate(&[]) });
    let delay = |delay| encode(&Block { deadline: 65_535, ..block(vec![Gate { delay, ..gate(&[]) }], &[]) });
    vec![
        refused("edition 0", with(3, &[0]), 4, 0),
        refused("edition 2 with wires of 2 bytes", with(3, &[2]), 3, 55),
        refused("0 gates", with(4, &[0]), 4, 0),
        accepted("1 gate", chain(1)),
        accepted("the most gates", chain(MAX_GATES)),
        refused("a gate more", chain(MAX_GATES + 1), 4, 0),
        refused("255 gates", with(4, &[255]), 4, 0),
        accepted("p 256 at the input", with(9, &[1, 0])),
        refused("p 257 at the input", with(9, &[1, 1]), 4, 0),
        accepted("arrival 0 and deadline 65,535", with(5, &[0, 0, 255, 255])),
        refused("arrival 65,535 and deadline 0", with(5, &[255, 255, 0, 0]), 12, 0),
        accepted("p 256 of a gate", p(256)),
        refused("p 257 of a gate", p(257), 4, 11),
        accepted("delay 4,095", delay(4_095)),
        refused("delay 4,096", delay(4_096), 4, 11),
        accepted("width 1 and drop 1", lone(gate(&[(1, 1)]))),
        refused("width 0", lone(gate(&[(0, 1)])), 4, 11),
        accepted("width 4,095 and drop 1,000", lone(gate(&[(4_095, 1_000)]))),
        refused("width 4,096", lone(gate(&[(4_096, 1_000)])), 4, 11),
        refused("drop 0", lone(gate(&[(1, 0)])), 4, 11),
        refused("drop 1,001", lone(gate(&[(1, 1_001)])), 4, 11),
        refused("a width out of range in the last step", lone(gate(&[(1, 3), (1, 2), (0, 1)])), 4, 11),
        refused("a wire from gate n", with(73, &[4, 3]), 4, 70),
        refused("a wire to gate n", with(73, &[0, 4]), 4, 70),
        refused("a wire from gate 255 to itself", with(73, &[255, 255]), 4, 70),
        accepted("the largest gain", encode(&largest_gain())),
        accepted("the most pairs", encode(&most_pairs())),
    ]
}

fn drops_and_wires() -> Vec<Boundary> {
    let full = encode(&most_wires());
    let end = full.len() as u32;
    vec![
        accepted("drops that fall by 1", lone(gate(&[(1, 2), (1, 1)]))),
        refused("equal drops", lone(gate(&[(1, 2), (1, 2)])), 5, 11),
        refused("rising drops", lone(gate(&[(1, 3), (1, 1), (1, 2)])), 5, 11),
        refused("rising drops and a number out of range", lone(gate(&[(1, 3), (1, 4), (0, 2)])), 4, 11),
        refused(
            "rising drops before a fault in a later gate",
            encode(&block(vec![gate(&[(1, 2), (1, 3)]), gate(&[(0, 1)])], &[])),
            5,
            11,
        ),
        refused("a wire from gate 0 to itself", with(58, &[0, 0]), 6, 55),
        refused("a wire of the lone gate", wired(1, &[(0, 0)]), 6, 22),
        refused("a wire that stood before", and(d(), &[3, 0, 2, 0, 1]), 6, 75),
        refused("a wire that stood just before", with(63, &[0, 1]), 6, 60),
        refused("a wire and its opposite", and(d(), &[3, 0, 2, 1, 0]), 8, 0),
        // no gate has one wire in and one wire out, so all are left
        refused("the most wires", full.clone(), 11, 1),
        refused("a wire more", and(full.clone(), &[3, 0, 2, 0, LAST]), 7, end),
        refused("a single byte behind the most wires", and(full.clone(), &[0]), 7, end),
        refused("a wire that stood before, behind the most wires", and(full, &[3, 0, 2, 0, 1]), 7, end),
    ]
}

/// A bridge from gate a to gate b, in which a wire leads from gate c across to gate d.
fn bridge(a: usize, c: usize, d: usize, b: usize) -> [(usize, usize); 5] {
    [(a, c), (a, d), (c, d), (c, b), (d, b)]
}

fn networks() -> Vec<Boundary> {
    let late = |mut block: Block| {
        block.deadline = 1;
        encode(&block)
    };
    vec![
        refused("a loop of two", wired(4, &[(0, 1), (1, 2), (2, 1), (2, 3)]), 8, 1),
        refused("a loop of three that gate 0 is not on", wired(5, &[(0, 3), (3, 2), (2, 1), (1, 3), (1, 4)]), 8, 1),
        refused("two loops", wired(6, &[(0, 4), (4, 3), (3, 4), (3, 2), (2, 1), (1, 2), (1, 5)]), 8, 1),
        refused("a loop beside a fault at the ends", wired(5, &[(0, 4), (2, 3), (3, 2)]), 8, 2),
        refused("a wire into gate 0", wired(3, &[(1, 0), (0, 2)]), 9, 0),
        refused("a gate without a wire in", wired(3, &[(0, 2), (1, 2)]), 9, 1),
        refused("a gate without a wire out", wired(3, &[(0, 1), (0, 2)]), 9, 1),
        refused("a wire out of gate n - 1", wired(4, &[(0, 1), (1, 3), (3, 2)]), 9, 2),
        refused("the only wire turned round", wired(2, &[(1, 0)]), 9, 0),
        refused("two gates without a wire", wired(2, &[]), 9, 0),
        refused("gate n - 1 with a wire out and none in", wired(4, &[(0, 1), (1, 2), (3, 2)]), 9, 2),
        refused("gate n - 1 without a wire", wired(3, &[(0, 1)]), 9, 1),
        accepted("a chain of two", wired(2, &[(0, 1)])),
        accepted("a wire beside a chain", wired(3, &[(0, 1), (1, 2), (0, 2)])),
        refused("the bridge", wired(4, &bridge(0, 1, 2, 3)), 11, 1),
        refused("the bridge, late", late(block(vec![gate(&[]); 4], &bridge(0, 1, 2, 3))), 11, 1),
        accepted("spare 0", encode(&diamond(7))),
        refused("spare -1", encode(&diamond(6)), 12, 0),
        accepted("spare for every tick", encode(&paper_chain(26))),
        accepted("spare for one tick more than there are", encode(&paper_chain(27))),
        refused("deadline 0", encode(&diamond(0)), 12, 0),
        refused("arrival after deadline", encode(&Block { arrival: 11, ..diamond(10) }), 12, 0),
        accepted("arrival that leaves spare 0", encode(&Block { arrival: 3, ..diamond(10) })),
        refused("arrival that leaves spare -1", encode(&Block { arrival: 4, ..diamond(10) }), 12, 0),
    ]
}

/// Plain gates with the wires of all these parts, and the lowest gate left of them.
fn left(name: &str, gates: usize, parts: &[&[(usize, usize)]], lowest: u32) -> Boundary {
    refused(name, wired(gates, &parts.concat()), 11, lowest)
}

/// Bridges, and gates around them that are taken away (document 02, K1); the comments say which gates these are.
fn bridges() -> Vec<Boundary> {
    let on_every_wire = [(0, 1), (1, 6), (0, 2), (2, 7), (6, 3), (3, 7), (6, 4), (4, 8), (7, 5), (5, 8)];
    let diamond = [(0, 2), (0, 3), (2, 1), (3, 1), (1, 4)];
    let branches = [(0, 1), (1, 2), (2, 7), (0, 3), (6, 7)];
    let gates_and_wire = [(0, 1), (1, 7), (0, 2), (2, 7), (0, 7)];
    let two_bridges = [bridge(0, 5, 4, 7), bridge(0, 6, 3, 7)].concat();
    vec![
        // none; 2 comes first along the wires
        left("a bridge with a wire across to a lower gate", 4, &[&bridge(0, 2, 1, 3)], 1),
        // 1 to 5
        left("a bridge with a gate on every wire", 9, &[&on_every_wire], 6),
        // 1
        left("a bridge behind a chain", 6, &[&[(0, 1), (1, 2)], &bridge(2, 3, 4, 5)], 2),
        // 1, 2 and 3
        left("a bridge before a chain", 8, &[&bridge(0, 4, 5, 6), &[(6, 1), (1, 2), (2, 3), (3, 7)]], 4),
        // 2 and 3; then 1, when its two wires in are merged
        left("a bridge behind a diamond", 8, &[&diamond, &bridge(4, 5, 6, 7)], 4),
        // 6 and 1; of those left 2 comes last along the wires
        left("gates numbered against the wires", 8, &[&[(0, 6), (6, 5)], &bridge(5, 4, 3, 2), &[(2, 1), (1, 7)]], 2),
        // 1 and 2
        left("a bridge inside one branch of a diamond", 8, &[&branches, &bridge(3, 4, 5, 6)], 3),
        // none
        left("two bridges side by side", 6, &[&bridge(0, 4, 3, 5), &bridge(0, 2, 1, 5)], 1),
        // 1 and 2
        left("two gates and a wire beside two bridges", 8, &[&gates_and_wire, &two_bridges], 3),
        // none
        left("two bridges one after the other", 7, &[&bridge(0, 5, 4, 3), &bridge(3, 2, 1, 6)], 1),
    ]
}

/// Networks of the most gates of which only a bridge of the highest is left.
fn high_bridges() -> Vec<Boundary> {
    let [a, c, d, b] = [4, 3, 2, 1].map(|behind| MAX_GATES - behind);
    let side_by_side: Vec<(usize, usize)> = (1..a).flat_map(|g| [(0, g), (g, a)]).collect();
    let ladder: Vec<(usize, usize)> = (0..a).flat_map(|g| [(g, g + 1), (g, b)]).chain([(a, b)]).collect();
    vec![
        left("gates side by side before a bridge", MAX_GATES, &[&side_by_side, &bridge(a, c, d, b)], a as u32),
        // a goes, then the gate before it and so on down to 1, each when its wires out are merged
        left("a ladder beside a bridge", MAX_GATES, &[&ladder, &bridge(0, c, d, b)], c as u32),
    ]
}

/// Boundaries of edition 1, and of what is no edition.
pub fn edition_1() -> Vec<Boundary> {
    let mut all = short_fields();
    all.extend(tags_and_lengths());
    all.extend(ranges());
    all.extend(drops_and_wires());
    all.extend(networks());
    all.extend(bridges());
    all.extend(high_bridges());
    all
}

pub fn all() -> Vec<Boundary> {
    let mut all = edition_1();
    all.extend(edition_2::all());
    all.extend(edition_3::all());
    all.extend(large::all());
    all
}
