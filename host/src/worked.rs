//! The blocks that document 01 tries by hand, with the answers that it gives for them; for the bridge and the chain of two,
//! which document 02's K1 and K8 change, the answers given there. Numbers that are left open (some savings, some delays) are
//! worked out by hand, and so are the answers of some blocks with wire delays, with measured activities, with ties, in finer
//! ticks and of many gates (document 02, K2, K3, K8, K14 and K10), and the fewest ticks for wanted savings (K6); no answer comes
//! from a program.

pub mod edition_3;
pub mod finer;
pub mod large;
pub mod ticks;
pub mod ties;

use crate::block::{encode, Block, Gate, Step, Wire};
use crate::generate::editions::delay_wires;

/// A wire's activity where p is 128.
pub const U: u64 = 32_768;

/// An answer as document 01 states it.
#[derive(Debug)]
pub enum Expected {
    /// Best increases and saving.
    Best(&'static [u32], u64),
    /// The curve's saving at start.
    AtStart(u64),
    /// Start, saving at start and pairs.
    Curve(u64, u64, &'static [(u64, u64)]),
    /// Pairs alone.
    Pairs(&'static [(u64, u64)]),
    /// A refusal of the best increases.
    Refused(u32, u32),
    /// Judging a list: its saving.
    Judged(&'static [u32], u64),
    /// Judging a list: its refusal.
    NotJudged(&'static [u32], u32, u32),
    /// Wanted savings, each with the fewest ticks that reach it.
    Ticks(&'static [(u64, u64)]),
    /// A wanted saving, and the refusal of the fewest ticks.
    NoTicks(u64, u32, u32),
    /// The block is series-parallel.
    SeriesParallel,
    /// The whole printout.
    Printed(&'static str),
}

pub struct Worked {
    pub name: &'static str,
    pub file: Vec<u8>,
    pub expected: Vec<Expected>,
}

fn worked(name: &'static str, file: Vec<u8>, expected: Vec<Expected>) -> Worked {
    Worked { name, file, expected }
}

/// A gate by its delay and its steps of width and drop.
type Drawn<'a> = (u32, &'a [(u32, u32)]);

/// The wires of a diamond: gates 1 and 2 side by side between gates 0 and 3.
const DIAMOND: [(usize, usize); 4] = [(0, 1), (0, 2), (1, 3), (2, 3)];

/// The wires of a bridge: a diamond and a wire across.
const BRIDGE: [(usize, usize); 5] = [(0, 1), (0, 2), (1, 2), (1, 3), (2, 3)];

/// A block of edition 1 from arrival 0 on, with p 128 throughout.
fn drawn(deadline: u32, gates: &[Drawn], wires: &[(usize, usize)]) -> Block {
    let gate = |&(delay, steps): &Drawn| {
        let steps = steps.iter().map(|&(width, drop)| Step { width, drop }).collect();
        Gate { delay, switching: 128, steps }
    };
    let wires = wires.iter().map(|&(from, to)| Wire::without_delay(from, to)).collect();
    Block { edition: 1, arrival: 0, deadline, switching: 128, gates: gates.iter().map(gate).collect(), wires }
}

/// The block in edition 2 with these delays of its wires.
fn delayed(mut block: Block, delays: impl IntoIterator<Item = u32>) -> Block {
    delay_wires(&mut block, delays);
    block
}

/// Diamond D.
pub fn diamond(deadline: u32) -> Block {
    drawn(deadline, &[(2, &[]), (3, &[(2, 5), (3, 2)]), (1, &[(4, 4)]), (2, &[(5, 6)])], &DIAMOND)
}

/// Diamond D in edition 2 with these delays of its wires 0-1, 0-2, 1-3 and 2-3, and deadline 12.
pub fn delayed_diamond(delays: [u32; 4]) -> Block {
    delayed(diamond(12), delays)
}

/// The steps of 001's two gates.
const FIRST: &[(u32, u32)] = &[(3, 28), (5, 24), (3, 21)];
const SECOND: &[(u32, u32)] = &[(2, 24), (4, 23)];

/// 001's parallel gates, 4 ticks to spare.
pub fn paper_parallel() -> Block {
    drawn(7, &[(0, &[]), (3, FIRST), (2, SECOND), (0, &[])], &DIAMOND)
}

/// 001's chain with so many ticks to spare.
pub fn paper_chain(spare: u32) -> Block {
    drawn(spare, &[(0, FIRST), (0, SECOND), (0, &[(9, 26)])], &[(0, 1), (1, 2)])
}

/// Two gates in parallel between stepless gates of delay 0.
fn frame(one: Drawn, other: Drawn) -> Vec<u8> {
    encode(&drawn(99, &[(0, &[]), one, other, (0, &[])], &DIAMOND))
}

/// One gate.
fn lone_gate(deadline: u32) -> Block {
    drawn(deadline, &[(5, &[(2, 3)])], &[])
}

/// The chain of two.
fn chain_of_two(deadline: u32) -> Block {
    drawn(deadline, &[(1, &[(4, 3)]), (1, &[(4, 3)])], &[(0, 1)])
}

/// Gates without delay and steps, and these wires.
fn only_wires(gates: usize, wires: &[(usize, usize)]) -> Vec<u8> {
    encode(&drawn(9, &vec![(0, &[][..]); gates], wires))
}

fn diamonds() -> Vec<Worked> {
    use Expected::*;
    let at = |deadline| encode(&diamond(deadline));
    let printed = "gates 4 wires 4\nstart 7 spare 3\nsaving 1441792\n0 2 0 3\n1 3 0 3\n2 1 2 5\n3 2 3 3\n";
    vec![
        worked(
            "D with deadline 10",
            at(10),
            vec![
                Best(&[0, 0, 2, 3], 44 * U),
                Judged(&[0, 0, 0, 3], 36 * U),
                NotJudged(&[0, 0, 2, 4], 14, 0),
                NotJudged(&[0, 6, 0, 0], 13, 1),
                Printed(printed),
            ],
        ),
        worked("D with deadline 14", at(14), vec![Best(&[0, 2, 4, 5], 2_818_048), Best(&[0, 2, 4, 5], 86 * U)]),
        worked("D with deadline 7", at(7), vec![Best(&[0, 0, 2, 0], 8 * U)]),
        worked("D with deadline 6", at(6), vec![Refused(12, 0), Printed("refused 12 0\n")]),
    ]
}

fn paper() -> Vec<Worked> {
    use Expected::*;
    vec![
        worked(
            "001's chain",
            encode(&paper_chain(12)),
            vec![Pairs(&[(3, 28 * U), (9, 26 * U), (7, 24 * U), (4, 23 * U), (3, 21 * U)])],
        ),
        worked(
            "001's parallel gates",
            frame((3, FIRST), (2, SECOND)),
            vec![Curve(3, 24 * U, &[(1, 52 * U), (2, 51 * U), (2, 47 * U), (3, 24 * U), (3, 21 * U)])],
        ),
        worked(
            "the same frame, delays 9 and 1",
            frame((9, &[]), (1, &[(3, 4)])),
            vec![AtStart(12 * U), Best(&[0, 0, 3, 0], 12 * U)],
        ),
    ]
}

/// D with wire delays. With 1 0 0 2 the branches take 8 and 7 ticks: gate 3 earns 12U a tick and gets all four, which
/// leaves gate 2 the one by which its branch is shorter. With 0 4 0 0 they take 7 and 9: gate 3 gets all three, and gate 1
/// the two by which its branch is shorter.
fn delayed_diamonds() -> Vec<Worked> {
    use Expected::*;
    let printed = "gates 4 wires 4\nstart 8 spare 4\nsaving 1703936\n0 2 0 4\n1 3 0 4\n2 1 1 5\n3 2 4 4\n";
    let other = "gates 4 wires 4\nstart 9 spare 3\nsaving 1507328\n0 2 0 3\n1 3 2 5\n2 1 0 3\n3 2 3 3\n";
    vec![
        worked(
            "D with wire delays 1 0 0 2",
            encode(&delayed_diamond([1, 0, 0, 2])),
            vec![
                Best(&[0, 0, 1, 4], 52 * U),
                Curve(8, 4 * U, &[(5, 12 * U), (2, 9 * U), (1, 6 * U), (2, 2 * U)]),
                Judged(&[0, 0, 1, 3], 40 * U),
                // without the delay of 0-1, and without that of 2-3, these two are in time
                NotJudged(&[0, 1, 0, 4], 14, 0),
                NotJudged(&[0, 0, 2, 4], 14, 0),
                NotJudged(&[0, 6, 0, 9], 13, 1),
                Printed(printed),
            ],
        ),
        worked(
            "D with wire delays 0 4 0 0",
            encode(&delayed_diamond([0, 4, 0, 0])),
            vec![
                Best(&[0, 2, 0, 3], 46 * U),
                Curve(9, 10 * U, &[(5, 12 * U), (3, 6 * U), (1, 4 * U)]),
                NotJudged(&[0, 0, 1, 3], 14, 0),
                Printed(other),
            ],
        ),
    ]
}

/// Wire delays between gates in series, and beside one.
fn delayed_wires() -> Vec<Worked> {
    use Expected::*;
    let beside = drawn(6, &[(1, &[]), (1, &[(4, 3)]), (1, &[])], &[(0, 1), (1, 2), (0, 2)]);
    let chain = |deadline, delay| encode(&delayed(chain_of_two(deadline), [delay]));
    let exact = "gates 2 wires 1\nstart 5 spare 0\nsaving 0\n0 1 0 0\n1 1 0 0\n";
    vec![
        worked("chain of two, deadline 8, wire delay 3", chain(8, 3), vec![Best(&[3, 0], 9 * U)]),
        worked(
            "chain of two with spare 0 by its wire delay",
            chain(5, 3),
            vec![Best(&[0, 0], 0), NotJudged(&[0, 1], 14, 0), Printed(exact)],
        ),
        worked(
            "chain of two, late by its wire delay",
            chain(5, 4),
            vec![Refused(12, 0), NotJudged(&[0, 0], 14, 0), Printed("refused 12 0\n"), Curve(6, 0, &[(8, 3 * U)])],
        ),
        worked(
            "a slow wire beside a gate",
            encode(&delayed(beside, [0, 0, 4])),
            vec![SeriesParallel, Best(&[0, 3, 0], 9 * U), Curve(6, 9 * U, &[(1, 3 * U)])],
        ),
    ]
}

/// Blocks of edition 2, worked out by hand.
pub fn edition_2() -> Vec<Worked> {
    let mut all = delayed_diamonds();
    all.extend(delayed_wires());
    all
}

/// All blocks, those of document 01 first.
pub fn all() -> Vec<Worked> {
    let mut all = edition_1();
    all.extend(edition_2());
    all.extend(edition_3::all());
    all.extend(ties::all());
    all.extend(finer::all());
    all.extend(ticks::all());
    all.extend(large::all());
    all
}

/// Every block of document 01's list with its answers; the limits of the list's last line stand among the boundaries.
pub fn edition_1() -> Vec<Worked> {
    use Expected::*;
    let still = Block { switching: 0, ..drawn(8, &[(1, &[(4, 9)]), (1, &[(4, 1)])], &[(0, 1)]) };
    let chain = |deadline| encode(&chain_of_two(deadline));
    let mut all = vec![worked("empty file", Vec::new(), vec![Refused(1, 0), Printed("refused 1 0\n")])];
    all.extend(diamonds());
    all.push(worked("one gate", encode(&lone_gate(8)), vec![Best(&[2], 6 * U)]));
    all.push(worked("chain of two, deadline 5", chain(5), vec![Best(&[3, 0], 9 * U)]));
    all.push(worked("chain of two, deadline 8", chain(8), vec![Best(&[4, 2], 18 * U)]));
    let bridge = only_wires(4, &BRIDGE);
    all.push(worked("bridge", bridge, vec![Refused(11, 1), Printed("refused 11 1\n")]));
    all.push(worked("a wire beside a chain", only_wires(3, &[(0, 1), (1, 2), (0, 2)]), vec![SeriesParallel]));
    all.extend(paper());
    all.push(worked("p of 0 at the input", encode(&still), vec![Best(&[0, 4], 4 * U)]));
    all
}
