//! Blocks of more gates than before document 02's K10, worked out by hand: gains that 32 bits do not hold, the most pairs, long
//! chains, ties between many gates.

use super::edition_3::measured;
use super::ties::{backwards, equal_gates, to_first_half};
use super::Expected::*;
use super::{drawn, worked, Drawn, Worked, U};
use crate::block::{encode, Block, Step, MAX_GATES};
use crate::generate::limits::{measured_wires_from_all, most_pairs};
use std::iter::repeat;

/// What a wire with the greatest activity and a drop of 1,000 gain for a tick; 66 times it is the first gain beyond 32 bits.
const G: u64 = 65_535_000;

/// So many ticks for the last gate, none for the others but the first, which gets so many.
const fn at_ends<const GATES: usize>(first: u32, last: u32) -> [u32; GATES] {
    let mut increases = [0; GATES];
    increases[0] = first;
    increases[GATES - 1] = last;
    increases
}

/// So many ticks for each gate between the first and the last.
const fn between_ends<const GATES: usize>(ticks: u32) -> [u32; GATES] {
    let mut increases = [ticks; GATES];
    increases[0] = 0;
    increases[GATES - 1] = 0;
    increases
}

/// Wires from 65, 66 and 67 gates into one, which gains so many times G for each of 2 ticks; one tick is to spare.
fn wires_into_one_gate() -> Vec<Worked> {
    const FROM_65: [u32; 66] = at_ends(0, 1);
    const FROM_66: [u32; 67] = at_ends(0, 1);
    const FROM_67: [u32; 68] = at_ends(0, 1);
    let file = |gates| encode(&measured_wires_from_all(gates));
    vec![
        worked("wires from 65 gates", file(66), vec![Best(&FROM_65, 65 * G), Curve(0, 0, &[(2, 4_259_775_000)])]),
        worked("wires from 66 gates", file(67), vec![Best(&FROM_66, 66 * G), Curve(0, 0, &[(2, 4_325_310_000)])]),
        worked("wires from 67 gates", file(68), vec![Best(&FROM_67, 67 * G), Curve(0, 0, &[(2, 4_390_845_000)])]),
    ]
}

/// Wires from 66 gates into the last, which gains 66G = 2^32 + 30,342,704 for each of 2 ticks; the first gains G for each of 2
/// ticks, which is less, but more than the low 32 bits of the other.
fn low_bits() -> Vec<Worked> {
    const ONE: [u32; 67] = at_ends(0, 1);
    const THREE: [u32; 67] = at_ends(1, 2);
    let file = |deadline| {
        let mut block = Block { deadline, ..measured_wires_from_all(67) };
        block.gates[0].steps = vec![Step { width: 2, drop: 1_000 }];
        encode(&block)
    };
    let curve = || Curve(0, 0, &[(2, 4_325_310_000), (2, 65_535_000)]);
    vec![
        worked("a gain above 2^32 and one below, 1 tick", file(1), vec![Best(&ONE, 66 * G), curve()]),
        worked("a gain above 2^32 and one below, 3 ticks", file(3), vec![Best(&THREE, 133 * G), curve()]),
    ]
}

/// 198 gates side by side between the first and the last.
fn side_by_side(deadline: u32, between: Drawn) -> Block {
    let mut gates = vec![between; MAX_GATES];
    for end in [0, MAX_GATES - 1] {
        gates[end] = (0, &[]);
    }
    let wires: Vec<(usize, usize)> = (1..MAX_GATES - 1).flat_map(|g| [(0, g), (g, MAX_GATES - 1)]).collect();
    drawn(deadline, &gates, &wires)
}

/// Gates side by side gain together for a tick: 198G, and 198U.
fn branches() -> Vec<Worked> {
    const TWO: [u32; MAX_GATES] = between_ends(2);
    let greatest = side_by_side(2, (0, &[(3, 1_000)]));
    vec![
        worked(
            "198 branches of the greatest gain",
            encode(&measured(greatest, repeat(65_535))),
            vec![Best(&TWO, 25_951_860_000), Curve(0, 0, &[(3, 12_975_930_000)])],
        ),
        worked(
            "198 branches, all tied",
            encode(&side_by_side(7, (5, &[(2, 3)]))),
            vec![Best(&TWO, 1_188 * U), Curve(5, 0, &[(2, 594 * U)])],
        ),
    ]
}

/// A chain of equal gates, each of which also leads to the last: that has 199 wires in and gains 199U for its tick, the others gain
/// U each, the lowest first.
fn ladder() -> Worked {
    const FIRST_AND_LAST: [u32; MAX_GATES] = at_ends(1, 1);
    let last = MAX_GATES - 1;
    let wires: Vec<(usize, usize)> = (0..last).map(|g| (g, g + 1)).chain((0..last - 1).map(|g| (g, last))).collect();
    worked(
        "a ladder of equal gates",
        encode(&drawn(202, &vec![(1, &[(1, 1)][..]); MAX_GATES], &wires)),
        vec![Best(&FIRST_AND_LAST, 200 * U), Curve(200, 0, &[(1, 199 * U), (199, U)])],
    )
}

/// Chains of the most gates: all equal, numbered along and backwards; as slow as can be; with the most pairs.
fn chains() -> Vec<Worked> {
    const FIRST_HALF: [u32; MAX_GATES] = to_first_half();
    let along: Vec<usize> = (0..MAX_GATES).collect();
    let in_series: Vec<(usize, usize)> = (1..MAX_GATES).map(|g| (g - 1, g)).collect();
    let slow = drawn(65_535, &vec![(4_095, &[(4_095, 1)][..]); MAX_GATES], &in_series);
    vec![
        worked("the most equal gates", equal_gates(&along), vec![Best(&FIRST_HALF, 201 * U)]),
        worked("the most equal gates backwards", equal_gates(&backwards(MAX_GATES)), vec![Best(&FIRST_HALF, 201 * U)]),
        // 200 x 4,095 ticks, and as many to spare for all
        worked(
            "a chain that lasts 819,000 ticks",
            encode(&slow),
            vec![
                Refused(12, 0),
                Curve(819_000, 0, &[(819_000, U)]),
                Ticks(&[(0, 0), (1, 1), (65_536 * U, 65_536), (65_536 * U + 1, 65_537), (819_000 * U, 819_000)]),
                NoTicks(819_000 * U + 1, 17, 0),
            ],
        ),
        // 1,000U for a tick, 1,000 x 32,766 for one, 999U for one and so on; 36 ticks of each gate
        worked(
            "the most pairs",
            encode(&most_pairs()),
            vec![
                Ticks(&[
                    (1_000 * U, 1),
                    (1_000 * U + 1, 2),
                    (1_000 * (U + 32_766), 2),
                    (1_000 * (U + 32_766) + 1, 3),
                    (1_741_800 * (U + 32_766), 7_200),
                ]),
                NoTicks(1_741_800 * (U + 32_766) + 1, 17, 0),
            ],
        ),
    ]
}

pub fn all() -> Vec<Worked> {
    let mut all = wires_into_one_gate();
    all.extend(low_bits());
    all.extend(branches());
    all.push(ladder());
    all.extend(chains());
    all
}
