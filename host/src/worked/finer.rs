//! Blocks in finer ticks (document 02, K14), worked out by hand: document 01's diamond and parallel gates and others in tenths
//! of a tick, and a chain at the limits of a file. Their numbers are written out, so that no program has scaled them.

use super::edition_3::measured;
use super::Expected::*;
use super::{delayed, drawn, worked, Drawn, Worked, BRIDGE, DIAMOND, U};
use crate::block::{encode, Block};

/// Diamond D in tenths of a tick.
fn tenths(deadline: u32) -> Block {
    drawn(deadline, &[(20, &[]), (30, &[(20, 5), (30, 2)]), (10, &[(40, 4)]), (20, &[(50, 6)])], &DIAMOND)
}

/// Its file.
pub fn diamond_in_tenths(deadline: u32) -> Vec<u8> {
    encode(&tenths(deadline))
}

/// D with deadlines of whole ticks, and with two that only tenths can say: at 75 gate 3 gets the 5 tenths to spare, which earn
/// 5 x 12U, half of what ten of them do; at 69 the block is late by one.
fn diamonds() -> Vec<Worked> {
    let printed = "gates 4 wires 4\nstart 70 spare 30\nsaving 14417920\n0 20 0 30\n1 30 0 30\n2 10 20 50\n3 20 30 30\n";
    vec![
        worked(
            "D in tenths of a tick, deadline 100",
            diamond_in_tenths(100),
            vec![
                Best(&[0, 0, 20, 30], 440 * U),
                AtStart(2_621_440),
                Curve(70, 80 * U, &[(50, 12 * U), (20, 9 * U), (30, 2 * U)]),
                Judged(&[0, 0, 20, 29], 428 * U),
                NotJudged(&[0, 0, 20, 31], 14, 0),
                NotJudged(&[0, 0, 21, 30], 14, 0),
                NotJudged(&[0, 51, 0, 0], 13, 1),
                // ten times the savings that D reaches with 0, 3 and 10 ticks
                Ticks(&[(80 * U, 0), (80 * U + 1, 1), (440 * U, 30), (440 * U + 1, 31), (920 * U, 100)]),
                NoTicks(920 * U + 1, 17, 0),
                Printed(printed),
            ],
        ),
        worked("D in tenths of a tick, deadline 140", diamond_in_tenths(140), vec![Best(&[0, 20, 40, 50], 860 * U)]),
        worked("D in tenths of a tick, deadline 75", diamond_in_tenths(75), vec![Best(&[0, 0, 20, 5], 140 * U)]),
        worked("D in tenths of a tick, deadline 70", diamond_in_tenths(70), vec![Best(&[0, 0, 20, 0], 80 * U)]),
        worked("D in tenths of a tick, deadline 69", diamond_in_tenths(69), vec![Refused(12, 0)]),
        worked("D in tenths of a tick, deadline 60", diamond_in_tenths(60), vec![Refused(12, 0)]),
    ]
}

/// D with wire delays 10 0 0 20: the branches take 80 and 70 tenths, gate 3 gets all 40 to spare, gate 2 the 10 by which its
/// branch is shorter. Then D with the bits of a counter.
fn other_diamonds() -> Vec<Worked> {
    vec![
        worked(
            "D with wire delays in tenths of a tick",
            encode(&delayed(tenths(120), [10, 0, 0, 20])),
            vec![
                Best(&[0, 0, 10, 40], 520 * U),
                Curve(80, 40 * U, &[(50, 12 * U), (20, 9 * U), (10, 6 * U), (20, 2 * U)]),
                Judged(&[0, 0, 10, 30], 400 * U),
                NotJudged(&[0, 1, 0, 40], 14, 0),
                NotJudged(&[0, 0, 11, 40], 14, 0),
            ],
        ),
        worked(
            "D with the bits of a counter in tenths of a tick",
            encode(&measured(tenths(100), [32_768, 16_384, 8_192, 4_096, 2_048])),
            vec![Best(&[0, 20, 40, 10], 4_997_120), Curve(70, 1_310_720, &[(20, 147_456), (50, 73_728), (30, 32_768)])],
        ),
    ]
}

/// 001's parallel gates, the chain of two and a bridge in tenths of a tick; and a chain of two gates as slow and as wide as a
/// file can say, 4,095 times as fine as with delays and widths 1, arrival 13 and deadline 16.
fn others() -> Vec<Worked> {
    let (one, other): (Drawn, Drawn) = ((30, &[(30, 28), (50, 24), (30, 21)]), (20, &[(20, 24), (40, 23)]));
    let parallel = drawn(70, &[(0, &[]), one, other, (0, &[])], &DIAMOND);
    let chain = drawn(50, &[(10, &[(40, 3)]), (10, &[(40, 3)])], &[(0, 1)]);
    let bridge = drawn(90, &[(10, &[]), (20, &[(30, 2)]), (10, &[(20, 5)]), (10, &[])], &BRIDGE);
    let at_limits = drawn(65_520, &[(4_095, &[(4_095, 3)]), (4_095, &[(4_095, 3)])], &[(0, 1)]);
    vec![
        worked(
            "001's parallel gates in tenths of a tick",
            encode(&parallel),
            vec![
                Curve(30, 240 * U, &[(10, 52 * U), (20, 51 * U), (20, 47 * U), (30, 24 * U), (30, 21 * U)]),
                // 240U + 10 x 52U + 20 x 51U + 10 x 47U
                Best(&[0, 40, 50, 0], 2_250 * U),
            ],
        ),
        worked("chain of two in tenths of a tick", encode(&chain), vec![Best(&[30, 0], 90 * U)]),
        worked("bridge in tenths of a tick", encode(&Block { arrival: 20, ..bridge }), vec![Refused(11, 1)]),
        worked(
            "chain of two, 4,095 times as fine",
            encode(&Block { arrival: 53_235, ..at_limits }),
            vec![Best(&[4_095, 0], 12_285 * U), Curve(8_190, 0, &[(8_190, 3 * U)])],
        ),
    ]
}

pub fn all() -> Vec<Worked> {
    let mut all = diamonds();
    all.extend(other_diamonds());
    all.extend(others());
    all
}
