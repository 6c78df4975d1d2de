//! Wanted savings and the fewest ticks that reach them (document 02, K6), worked out by hand.

use super::edition_3::measured;
use super::Expected::*;
use super::{delayed_diamond, diamond, drawn, frame, lone_gate, only_wires, worked, Worked, BRIDGE, U};
use crate::block::{encode, Block};
use crate::generate::limits::{largest_measured_gain, most_ticks};

/// A block with wanted savings and the fewest ticks for each; all that it can save is `whole`, and more gets 17.
fn reached(name: &'static str, file: Vec<u8>, ticks: &'static [(u64, u64)], whole: u64) -> Worked {
    worked(name, file, vec![Ticks(ticks), NoTicks(whole + 1, 17, 0), NoTicks(u64::MAX, 17, 0)])
}

/// A file that is refused whatever saving is wanted.
fn refused(name: &'static str, file: Vec<u8>, number: u32, place: u32) -> Worked {
    let wanted = [0, 1, u64::MAX];
    worked(name, file, wanted.map(|wanted| NoTicks(wanted, number, place)).into())
}

/// D saves 8 20 32 44 56 68 77 86 88 90 92 in U with 0, 1, 2 and so on ticks, whatever its deadline.
const OF_DIAMOND: &[(u64, u64)] = &[
    (0, 0),
    (8 * U, 0),
    (8 * U + 1, 1),
    (20 * U - 1, 1),
    (20 * U, 1),
    (20 * U + 1, 2),
    (32 * U, 2),
    (44 * U, 3),
    (44 * U + 1, 4),
    (56 * U + 1, 5),
    (68 * U, 5),
    (68 * U + 1, 6),
    (77 * U, 6),
    (77 * U + 1, 7),
    (86 * U, 7),
    (86 * U + 1, 8),
    (88 * U, 8),
    (90 * U - 1, 9),
    (90 * U + 1, 10),
    (92 * U, 10),
];

/// D in time, late by one tick, and with deadline 0; then cut short.
fn diamonds() -> Vec<Worked> {
    let at = |deadline| encode(&diamond(deadline));
    vec![
        reached("fewest ticks of D, deadline 10", at(10), OF_DIAMOND, 92 * U),
        reached("fewest ticks of D, deadline 6", at(6), OF_DIAMOND, 92 * U),
        reached("fewest ticks of D, deadline 0", at(0), OF_DIAMOND, 92 * U),
        refused("D cut short inside a gate", at(10)[..20].to_vec(), 1, 18),
        refused("D cut short behind a wire", at(10)[..70].to_vec(), 9, 2),
    ]
}

/// Blocks with a branch that is raised at start.
fn savings_at_start() -> Vec<Worked> {
    // the branches of D take 8 and 7 ticks: 4U at start, then 12U for 5 ticks, 9U for 2, 6U for 1 and 2U for 2
    let delayed = encode(&delayed_diamond([1, 0, 0, 2]));
    // gate 2 has 3 ticks, and its branch is 8, then 2 ticks shorter than the other
    let short = |delay| frame((delay, &[]), (1, &[(3, 4)]));
    vec![
        reached(
            "fewest ticks of D with wire delays 1 0 0 2",
            delayed,
            &[
                (4 * U, 0),
                (4 * U + 1, 1),
                (16 * U, 1),
                (64 * U, 5),
                (64 * U + 1, 6),
                (82 * U, 7),
                (82 * U + 1, 8),
                (88 * U, 8),
                (88 * U + 1, 9),
                (92 * U, 10),
            ],
            92 * U,
        ),
        reached("all is saved at start", short(9), &[(0, 0), (12 * U - 1, 0), (12 * U, 0)], 12 * U),
        reached(
            "two ticks of three are taken at start",
            short(3),
            &[(0, 0), (8 * U, 0), (8 * U + 1, 1), (12 * U, 1)],
            12 * U,
        ),
    ]
}

/// Odd gains, so that most wanted savings lie between those of two numbers of ticks.
fn odd_gains() -> Vec<Worked> {
    let chain = drawn(3, &[(1, &[(2, 3), (3, 1)]), (2, &[(2, 5)])], &[(0, 1)]);
    vec![
        // gate 1 gains 5 x 5 for 2 ticks, gate 0 gains 3 x 7 for 2 and 7 for 3: 0 25 50 71 92 99 106 113
        reached(
            "a chain that gains 25, 21 and 7",
            encode(&measured(chain, [7, 5, 9])),
            &[
                (1, 1),
                (24, 1),
                (25, 1),
                (26, 2),
                (50, 2),
                (51, 3),
                (70, 3),
                (71, 3),
                (72, 4),
                (92, 4),
                (93, 5),
                (99, 5),
                (100, 6),
                (106, 6),
                (107, 7),
                (113, 7),
            ],
            113,
        ),
        // 24 96 168 240 312 384 411 438 444 450 456
        reached(
            "D that gains 72, 27 and 6",
            encode(&measured(diamond(10), [1, 3, 5, 7, 11])),
            &[
                (24, 0),
                (25, 1),
                (95, 1),
                (96, 1),
                (97, 2),
                (383, 5),
                (384, 5),
                (385, 6),
                (411, 6),
                (412, 7),
                (438, 7),
                (443, 8),
                (445, 9),
                (456, 10),
            ],
            456,
        ),
    ]
}

/// Gates and blocks at the limits.
fn limits() -> Vec<Worked> {
    let lone = Block { arrival: 9, ..lone_gate(0) };
    let wide = measured(drawn(9, &[(4_095, &[(4_095, 1_000)])], &[]), [65_535, 0]);
    vec![
        reached("a lone gate", encode(&lone), &[(0, 0), (1, 1), (3 * U, 1), (3 * U + 1, 2), (6 * U, 2)], 6 * U),
        reached("no gate has a step", only_wires(3, &[(0, 1), (1, 2)]), &[(0, 0)], 0),
        refused("no byte at all", Vec::new(), 1, 0),
        refused("a bridge", only_wires(4, &BRIDGE), 11, 1),
        // each tick gains 65,535 x 1,000
        reached(
            "a lone gate with the widest step",
            encode(&wide),
            &[
                (65_535_000, 1),
                (65_535_001, 2),
                (4_294_967_296, 66),
                (268_300_290_001, 4_095),
                (268_365_825_000, 4_095),
            ],
            268_365_825_000,
        ),
        // the largest gain, 199 x 65,535 x 1,000, for 2 ticks
        reached(
            "the largest gain",
            encode(&largest_measured_gain()),
            &[(1, 1), (13_041_465_000, 1), (13_041_465_001, 2), (26_082_930_000, 2)],
            26_082_930_000,
        ),
        // 8U for the first 200 x 4,095 ticks, then 7U for as many, and so on to U: 36 x 819,000U for all 8 x 819,000
        reached(
            "the most ticks",
            encode(&most_ticks()),
            &[
                (8 * U, 1),
                (8 * U + 1, 2),
                (6_552_000 * U, 819_000),
                (6_552_000 * U + 1, 819_001),
                (29_483_999 * U, 6_551_999),
                (29_483_999 * U + 1, 6_552_000),
                (29_484_000 * U, 6_552_000),
            ],
            29_484_000 * U,
        ),
    ]
}

pub fn all() -> Vec<Worked> {
    let mut all = diamonds();
    all.extend(savings_at_start());
    all.extend(odd_gains());
    all.extend(limits());
    all
}
