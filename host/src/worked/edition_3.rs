//! Blocks with measured activities (document 02, K3), worked out by hand. Those of 001 with every activity 1 have the paper's
//! own numbers.

use super::Expected::*;
use super::{chain_of_two, delayed_diamond, diamond, drawn, lone_gate, paper_chain, paper_parallel, worked, Worked};
use crate::block::{encode, Block};
use crate::generate::editions::set_activities;
use std::iter::repeat;

/// The block in edition 3 with these activities of its input and of its gates' outputs.
pub fn measured(mut block: Block, activities: impl IntoIterator<Item = u32>) -> Block {
    set_activities(&mut block, activities);
    block
}

/// The file of the block in edition 3 with one activity throughout.
fn throughout(block: Block, activity: u32) -> Vec<u8> {
    encode(&measured(block, repeat(activity)))
}

/// Diamond D in edition 3 with these activities of its input and its gates.
fn diamond_with(deadline: u32, activities: [u32; 5]) -> Vec<u8> {
    encode(&measured(diamond(deadline), activities))
}

fn paper() -> Vec<Worked> {
    vec![
        worked(
            "001's chain with every activity 1",
            throughout(paper_chain(12), 1),
            vec![
                Pairs(&[(3, 28), (9, 26), (7, 24), (4, 23), (3, 21)]),
                // 3 x 28 + 9 x 26
                Best(&[3, 0, 9], 318),
            ],
        ),
        worked(
            "001's parallel gates with every activity 1",
            throughout(paper_parallel(), 1),
            vec![
                Curve(3, 24, &[(1, 52), (2, 51), (2, 47), (3, 24), (3, 21)]),
                // 24 + 52 + 2 x 51 + 47: the first gate gets 3 x 28 + 24, the second 2 x 24 + 3 x 23
                Best(&[0, 4, 5, 0], 225),
            ],
        ),
        worked(
            "001's chain, the activities 2, 3 and 4 at its gates",
            encode(&measured(paper_chain(12), [2, 3, 4, 0])),
            // 26 x 4 for 9 ticks, 24 x 3 for 2, 23 x 3 for 4, 28 x 2 for 3, 24 x 2 for 5, 21 x 2 for 3
            vec![Pairs(&[(9, 104), (2, 72), (4, 69), (3, 56), (5, 48), (3, 42)]), Best(&[0, 3, 9], 1_149)],
        ),
    ]
}

/// D: gates 1 and 2 gain by the activity of gate 0's output, gate 3 by the sum of those of gates 1 and 2.
fn diamonds() -> Vec<Worked> {
    let printed = "gates 4 wires 4\nstart 7 spare 3\nsaving 240\n0 2 0 3\n1 3 0 3\n2 1 2 5\n3 2 3 3\n";
    let halved = "gates 4 wires 4\nstart 7 spare 3\nsaving 499712\n0 2 0 3\n1 3 2 3\n2 1 4 5\n3 2 1 3\n";
    vec![
        worked(
            "D with activities 1 and 3 5 7 11",
            diamond_with(10, [1, 3, 5, 7, 11]),
            // gains 15 and 6, 12, and 6 x 12 = 72: 2 x 12 at start, then 3 x 72
            vec![
                Best(&[0, 0, 2, 3], 240),
                Curve(7, 24, &[(5, 72), (2, 27), (3, 6)]),
                Judged(&[0, 2, 4, 1], 150),
                NotJudged(&[0, 0, 2, 4], 14, 0),
                NotJudged(&[0, 6, 0, 0], 13, 1),
                Printed(printed),
            ],
        ),
        worked(
            "D with every activity 65,535",
            throughout(diamond(14), 65_535),
            vec![Best(&[0, 2, 4, 5], 5_636_010), Best(&[0, 2, 4, 5], 86 * 65_535)],
        ),
        worked(
            "D with the bits of a counter",
            diamond_with(10, [32_768, 16_384, 8_192, 4_096, 2_048]),
            // gates 1 and 2 together earn (5 + 4) x 16,384 = 147,456 a tick, gate 3 only 6 x (8,192 + 4,096) = 73,728
            vec![
                Best(&[0, 2, 4, 1], 499_712),
                Curve(7, 131_072, &[(2, 147_456), (5, 73_728), (3, 32_768)]),
                Judged(&[0, 0, 2, 3], 352_256),
                Printed(halved),
            ],
        ),
        worked(
            "D with wire delays 1 0 0 2 and activities 1 and 3 5 7 11",
            encode(&measured(delayed_diamond([1, 0, 0, 2]), [1, 3, 5, 7, 11])),
            // the branches take 8 and 7 ticks: gate 3 gets all four, gate 2 the one by which its branch is shorter
            vec![
                Best(&[0, 0, 1, 4], 300),
                Curve(8, 12, &[(5, 72), (2, 27), (1, 18), (2, 6)]),
                NotJudged(&[0, 0, 2, 4], 14, 0),
            ],
        ),
    ]
}

/// D with activity 0 of some nets: gates that gain nothing are never slowed.
fn still_nets() -> Vec<Worked> {
    let still = measured(drawn(8, &[(1, &[(4, 9)]), (1, &[(4, 1)])], &[(0, 1)]), [0, 5, 7]);
    vec![
        worked("activity 0 at the input", encode(&still), vec![Best(&[0, 4], 20), NotJudged(&[3, 4], 14, 0)]),
        worked("D with activity 0 of every net", throughout(diamond(14), 0), vec![Best(&[0; 4], 0), Curve(7, 0, &[])]),
        worked(
            "D with activity 0 of gate 0's output",
            diamond_with(14, [9, 0, 5, 7, 11]),
            vec![Best(&[0, 0, 0, 5], 360), Curve(7, 0, &[(5, 72)])],
        ),
        worked(
            "D with activity 0 of all outputs but gate 0's",
            diamond_with(14, [9, 3, 0, 0, 0]),
            // spare 7 for gate 1's 5 ticks and gate 2's 4
            vec![Best(&[0, 5, 4, 0], 96), Curve(7, 24, &[(2, 27), (3, 6)])],
        ),
        worked(
            "D with activity 0 of gate 2's output",
            diamond_with(10, [9, 3, 5, 0, 1]),
            // gate 3 gains 6 x 5 = 30 a tick, gates 1 and 2 together 27
            vec![Best(&[0, 0, 2, 3], 114), Curve(7, 24, &[(5, 30), (2, 27), (3, 6)])],
        ),
    ]
}

/// The chain of two, deadline 5, with these activities of the input and of gate 0's output: 3 ticks for the gate that gains
/// more, for the first if both gain the same.
fn chain(input: u32, between: u32) -> Vec<u8> {
    encode(&measured(chain_of_two(5), [input, between, 0]))
}

/// Both bytes of an activity count, the high byte 256 times as much, and no formula is applied.
fn bytes() -> Vec<Worked> {
    let lone = |activity| encode(&measured(lone_gate(8), [activity, 0]));
    vec![
        worked("256 at the input, 1 behind gate 0", chain(256, 1), vec![Best(&[3, 0], 2_304)]),
        worked("1 at the input, 256 behind gate 0", chain(1, 256), vec![Best(&[0, 3], 2_304)]),
        worked("256 at the input and behind gate 0", chain(256, 256), vec![Best(&[3, 0], 2_304)]),
        worked("257 at the input, 256 behind gate 0", chain(257, 256), vec![Best(&[3, 0], 2_313)]),
        worked("255 at the input, 256 behind gate 0", chain(255, 256), vec![Best(&[0, 3], 2_304)]),
        worked("2 at the input, 1 behind gate 0", chain(2, 1), vec![Best(&[3, 0], 18)]),
        // by the formula 255 would count as much as 1, and less than 128
        worked("255 at the input, 128 behind gate 0", chain(255, 128), vec![Best(&[3, 0], 2_295)]),
        worked("65,535 at the input, 65,534 behind gate 0", chain(65_535, 65_534), vec![Best(&[3, 0], 589_815)]),
        worked("one gate, activity 257", lone(257), vec![Best(&[2], 1_542)]),
        worked("one gate, activity 32,769", lone(32_769), vec![Best(&[2], 196_614)]),
        worked("one gate, activity 65,535", lone(65_535), vec![Best(&[2], 393_210)]),
    ]
}

pub fn all() -> Vec<Worked> {
    let mut all = paper();
    all.extend(diamonds());
    all.extend(still_nets());
    all.extend(bytes());
    all
}
