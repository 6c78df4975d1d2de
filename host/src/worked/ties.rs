//! Blocks in which the order of ties decides (document 02, K8), worked out by hand: of gates and parts that gain the same for a
//! tick, the one whose highest gate is the lowest is slowed first.

use super::Expected::*;
use super::{drawn, worked, Drawn, Worked, U};
use crate::block::encode;
use crate::generate::MIDDLE_GATES;

/// A gate of delay 1 without a step.
const PLAIN: Drawn = (1, &[]);

/// A block of edition 1 with p 128 throughout.
fn block(deadline: u32, gates: &[Drawn], wires: &[(usize, usize)]) -> Vec<u8> {
    encode(&drawn(deadline, gates, wires))
}

/// Of an even number of gates 2 ticks for each of the first half, one for the next: one tick more than there are gates.
pub const fn to_first_half<const GATES: usize>() -> [u32; GATES] {
    let mut increases = [0; GATES];
    let mut gate = 0;
    while gate < GATES / 2 {
        increases[gate] = 2;
        gate += 1;
    }
    increases[gate] = 1;
    increases
}

const FIRST_GATES: [u32; MIDDLE_GATES] = to_first_half();

/// Equal gates of delay 1 that gain U for each of 2 ticks, in series in this order, with one tick more to spare than there are
/// gates.
pub fn equal_gates(order: &[usize]) -> Vec<u8> {
    let wires: Vec<(usize, usize)> = order.windows(2).map(|ends| (ends[0], ends[1])).collect();
    block(2 * order.len() as u32 + 1, &vec![(1, &[(2, 1)][..]); order.len()], &wires)
}

/// Numbers of gates in a chain, those between the first and the last backwards.
pub fn backwards(gates: usize) -> Vec<usize> {
    [0].into_iter().chain((1..gates - 1).rev()).chain([gates - 1]).collect()
}

/// Equal gates in series: the ticks go to the lowest numbers, wherever these stand in the chain.
fn chains() -> Vec<Worked> {
    let equal: Drawn = (1, &[(2, 3)]);
    let along: Vec<usize> = (0..MIDDLE_GATES).collect();
    let saving = (MIDDLE_GATES as u64 + 1) * U;
    vec![
        worked(
            "three equal gates in series, the highest number in front",
            block(8, &[PLAIN, equal, equal, equal, PLAIN], &[(0, 3), (3, 1), (1, 2), (2, 4)]),
            vec![Best(&[0, 2, 1, 0, 0], 9 * U)],
        ),
        worked("equal gates in series", equal_gates(&along), vec![Best(&FIRST_GATES, saving)]),
        worked(
            "equal gates in series, numbered backwards",
            equal_gates(&backwards(MIDDLE_GATES)),
            vec![Best(&FIRST_GATES, saving)],
        ),
    ]
}

/// Gates 1 and 4 side by side gain 2U + 4U for a tick. Gate 3 behind them has two wires in and gains 3 x 2U, gate 5 before
/// them 6U, where they have a step. Start is 6.
fn part_and_gates(deadline: u32, gate_3: Drawn, gate_5: Drawn) -> Vec<u8> {
    let gates: [Drawn; 7] = [PLAIN, (1, &[(3, 2)]), PLAIN, gate_3, (1, &[(3, 4)]), gate_5, PLAIN];
    block(deadline, &gates, &[(0, 5), (5, 1), (5, 4), (1, 3), (4, 3), (3, 2), (2, 6)])
}

/// A part and single gates in series with it, and two parts in series.
fn parts() -> Vec<Worked> {
    let (gate_3, gate_5): (Drawn, Drawn) = ((1, &[(3, 3)]), (1, &[(3, 6)]));
    // U + 5U with gates 1 and 6, 2U + 4U with 4 and 5
    let two_parts: [Drawn; 8] =
        [PLAIN, (1, &[(3, 1)]), PLAIN, PLAIN, (1, &[(3, 2)]), (1, &[(3, 4)]), (1, &[(3, 5)]), PLAIN];
    vec![
        // 3 is below 4: all 3 ticks of gate 3, then one of the part
        worked(
            "gates 1 and 4 side by side, gate 3 behind them",
            part_and_gates(10, gate_3, PLAIN),
            vec![Best(&[0, 1, 0, 3, 1, 0, 0], 24 * U), Curve(6, 0, &[(6, 6 * U)])],
        ),
        // 4 is below 5: all 3 ticks of the part, then one of gate 5
        worked(
            "gates 1 and 4 side by side, gate 5 before them",
            part_and_gates(10, PLAIN, gate_5),
            vec![Best(&[0, 3, 0, 0, 3, 1, 0], 24 * U)],
        ),
        worked(
            "gates 1 and 4 side by side between gates 5 and 3",
            part_and_gates(13, gate_3, gate_5),
            vec![Best(&[0, 3, 0, 3, 3, 1, 0], 42 * U), Curve(6, 0, &[(9, 6 * U)])],
        ),
        // 5 is below 6: all 3 ticks of gates 4 and 5, then one of the other part
        worked(
            "gates 1 and 6 side by side, then 4 and 5",
            block(10, &two_parts, &[(0, 1), (0, 6), (1, 2), (6, 2), (2, 4), (2, 5), (4, 3), (5, 3), (3, 7)]),
            vec![Best(&[0, 1, 0, 0, 3, 3, 1, 0], 24 * U)],
        ),
    ]
}

/// Ties inside a branch: its ticks go to the lower of two equal gates first.
fn branches() -> Vec<Worked> {
    let wires = [(0, 3), (3, 1), (1, 4), (0, 2), (2, 4)];
    let equal: Drawn = (1, &[(2, 5)]);
    vec![
        // the branch is 3 ticks shorter than that of gate 2, and none is to spare
        worked(
            "gates 3 and 1 in series beside a slower gate 2",
            block(7, &[PLAIN, equal, (5, &[]), equal, PLAIN], &wires),
            vec![Best(&[0, 2, 0, 1, 0], 15 * U), Curve(7, 15 * U, &[(1, 5 * U)])],
        ),
        // both branches take 2 ticks, and 3 are to spare
        worked(
            "gates 3 and 1 in series beside gate 2",
            block(7, &[PLAIN, equal, (2, &[(4, 1)]), equal, PLAIN], &wires),
            vec![Best(&[0, 2, 3, 1, 0], 18 * U)],
        ),
    ]
}

/// A part with two gates, or a part and a gate, of equal gain in one branch gains 2U + 4U for a tick with either of them. A
/// single gate behind the part has two wires in and gains 3 x 2U.
fn parts_with_two_ties() -> Vec<Worked> {
    let (equal, beside, single): (Drawn, Drawn, Drawn) = ((1, &[(2, 2)]), (2, &[(4, 4)]), (1, &[(1, 3)]));
    // 2 ticks of gates 1 and 2, one of gate 4, then gates 5 and 2
    let around = |deadline| {
        let gates = [PLAIN, equal, beside, PLAIN, single, equal, PLAIN];
        block(deadline, &gates, &[(0, 5), (5, 1), (1, 4), (0, 2), (2, 4), (4, 3), (3, 6)])
    };
    // one tick of gate 5, then gates 1 and 6, then 3 and 6
    let below = [PLAIN, equal, PLAIN, equal, PLAIN, single, beside, PLAIN];
    // 2 ticks of gates 1 and 2, which gain U + U, with gate 4, one of gate 5, then gate 6, which gains 2U, with gate 4
    let inner: [Drawn; 8] = [PLAIN, (1, &[(2, 1)]), (1, &[(2, 1)]), PLAIN, beside, single, (1, &[(2, 1)]), PLAIN];
    vec![
        worked("gate 4 between 1 with 2 and 5 with 2, 3 ticks", around(9), vec![Best(&[0, 2, 2, 0, 1, 0, 0], 18 * U)]),
        worked("gate 4 between 1 with 2 and 5 with 2, 4 ticks", around(10), vec![Best(&[0, 2, 3, 0, 1, 1, 0], 24 * U)]),
        worked(
            "gate 5 before 1 with 6 and 3 with 6",
            block(11, &below, &[(0, 3), (3, 1), (1, 5), (0, 6), (6, 5), (5, 2), (2, 4), (4, 7)]),
            vec![Best(&[0, 2, 0, 1, 0, 1, 3, 0], 24 * U)],
        ),
        worked(
            "gate 5 between 1 and 2 with 4 and 6 with 4",
            block(10, &inner, &[(0, 1), (0, 2), (1, 6), (2, 6), (6, 5), (0, 4), (4, 5), (5, 3), (3, 7)]),
            vec![Best(&[0, 2, 2, 0, 3, 1, 1, 0], 24 * U)],
        ),
    ]
}

pub fn all() -> Vec<Worked> {
    let mut all = chains();
    all.extend(parts());
    all.extend(branches());
    all.extend(parts_with_two_ties());
    all
}
