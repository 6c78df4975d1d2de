//! Boundaries that came with edition 3 (document 02, K3).

use super::edition_2::delayed_chain;
use super::{accepted, and, chain, gate, lone, refused, replaced, with, Boundary, LAST};
use crate::block::{encode, Block, Gate, MAX_GATES};
use crate::generate::limits::{largest_measured_file, largest_measured_gain};
use crate::worked::delayed_diamond;
use crate::worked::edition_3::measured;
use std::iter::repeat;

/// Diamond D of edition 3, deadline 12, wire delays 1, 0, 0 and 2, with these activities of its input and its gates; the
/// numbers stand at 9 and at 16, 23, 38 and 49, the wires at 55, 62, 69 and 76, end 83.
fn d3(activities: [u32; 5]) -> Vec<u8> {
    encode(&measured(delayed_diamond([1, 0, 0, 2]), activities))
}

/// Activities that a probability could be, and others.
const LOW: [u32; 5] = [1, 3, 5, 7, 11];
const HIGH: [u32; 5] = [40_001, 513, 258, 65_535, 772];

/// D of edition 3 with low activities and the bytes from `at` on replaced.
fn with3(at: usize, bytes: &[u8]) -> Vec<u8> {
    replaced(d3(LOW), at, bytes)
}

fn cut3(length: usize) -> Vec<u8> {
    d3(LOW)[..length].to_vec()
}

fn editions() -> Vec<Boundary> {
    let edition = |file: Vec<u8>, edition: u8| replaced(file, 3, &[edition]);
    vec![
        accepted("edition 3", d3(LOW)),
        refused("edition 0 in place of 3", edition(d3(LOW), 0), 4, 0),
        refused("edition 1 in place of 3", edition(d3(LOW), 1), 3, 55),
        accepted("edition 2 in place of 3, low numbers", edition(d3(LOW), 2)),
        refused("edition 4 in place of 3", edition(d3(LOW), 4), 4, 0),
        refused("edition 5 in place of 3", edition(d3(LOW), 5), 4, 0),
        refused("edition 255 in place of 3", edition(d3(LOW), 255), 4, 0),
        accepted("edition 3, high numbers", d3(HIGH)),
        refused("edition 0, high numbers", edition(d3(HIGH), 0), 4, 0),
        refused("edition 1, high numbers", edition(d3(HIGH), 1), 4, 0),
        refused("edition 2, high numbers", edition(d3(HIGH), 2), 4, 0),
        refused("edition 4, high numbers", edition(d3(HIGH), 4), 4, 0),
        refused("edition 3 with wires of 2 bytes", with(3, &[3]), 3, 55),
        accepted("a lone gate in edition 3", edition(chain(1), 3)),
        refused("edition 3 without a wire", cut3(55), 9, 0),
        refused("edition 3 and a gate more", edition(chain(MAX_GATES + 1), 3), 4, 0),
        refused("edition 3 and no gate", with3(4, &[0]), 4, 0),
        refused("edition 3 and a block of 10 bytes", with3(1, &[0, 10]), 3, 0),
    ]
}

/// A file of that edition with a lone gate, whose input and output have these numbers.
fn numbers(edition: u8, input: u32, output: u32) -> Vec<u8> {
    let gates = vec![Gate { switching: output, ..gate(&[(2, 3)]) }];
    encode(&Block { edition, switching: input, ..super::block(gates, &[]) })
}

fn numbers_of_nets() -> Vec<Boundary> {
    vec![
        accepted("edition 2, p 256 at the input", numbers(2, 256, 128)),
        refused("edition 2, p 257 at the input", numbers(2, 257, 128), 4, 0),
        refused("edition 2, p 512 at the input", numbers(2, 512, 128), 4, 0),
        refused("edition 2, p 65,535 at the input", numbers(2, 65_535, 128), 4, 0),
        accepted("edition 2, p 256 of a gate", numbers(2, 128, 256)),
        refused("edition 2, p 257 of a gate", numbers(2, 128, 257), 4, 11),
        refused("edition 2, p 512 of a gate", numbers(2, 128, 512), 4, 11),
        refused("edition 2, p 65,535 of a gate", numbers(2, 128, 65_535), 4, 11),
        refused("edition 1, p 65,535 at the input", numbers(1, 65_535, 128), 4, 0),
        refused("edition 1, p 65,535 of a gate", numbers(1, 128, 65_535), 4, 11),
        accepted("activity 0 at the input and of a gate", numbers(3, 0, 0)),
        accepted("activity 1 at the input", numbers(3, 1, 0)),
        accepted("activity 256 at the input", numbers(3, 256, 0)),
        accepted("activity 257 at the input", numbers(3, 257, 0)),
        accepted("activity 32,768 at the input", numbers(3, 32_768, 0)),
        accepted("activity 32,769 at the input", numbers(3, 32_769, 0)),
        accepted("activity 65,534 at the input", numbers(3, 65_534, 0)),
        accepted("activity 65,535 at the input", numbers(3, 65_535, 0)),
        accepted("activity 1 of a gate", numbers(3, 0, 1)),
        accepted("activity 256 of a gate", numbers(3, 0, 256)),
        accepted("activity 257 of a gate", numbers(3, 0, 257)),
        accepted("activity 32,768 of a gate", numbers(3, 0, 32_768)),
        accepted("activity 32,769 of a gate", numbers(3, 0, 32_769)),
        accepted("activity 65,534 of a gate", numbers(3, 0, 65_534)),
        accepted("activity 65,535 of a gate", numbers(3, 0, 65_535)),
    ]
}

/// The number of one net after another, above 256: each passes in edition 3, and is judged in edition 2 field by field.
fn numbers_of_each_net() -> Vec<Boundary> {
    let high = |at: usize, edition: u8| replaced(with3(at, &[1, 1]), 3, &[edition]);
    vec![
        accepted("activity 257 of D's input", high(9, 3)),
        accepted("activity 257 of D's gate 0", high(16, 3)),
        accepted("activity 257 of D's gate 1", high(23, 3)),
        accepted("activity 257 of D's gate 2", high(38, 3)),
        accepted("activity 257 of D's gate 3", high(49, 3)),
        refused("edition 2, p 257 of D's input", high(9, 2), 4, 0),
        refused("edition 2, p 257 of D's gate 0", high(16, 2), 4, 11),
        refused("edition 2, p 257 of D's gate 1", high(23, 2), 4, 18),
        refused("edition 2, p 257 of D's gate 2", high(38, 2), 4, 33),
        refused("edition 2, p 257 of D's gate 3", high(49, 2), 4, 44),
        accepted("activity 256 of D's gate 0", with3(16, &[1, 0])),
        accepted("activity 1 of D's gate 0", with3(16, &[0, 1])),
    ]
}

/// An activity is never a fault, beside others that are.
fn other_faults() -> Vec<Boundary> {
    let of = |drawn: Gate| encode(&measured(super::block(vec![drawn], &[]), repeat(65_535)));
    vec![
        refused("activity 65,535 and delay 4,096", of(Gate { delay: 4_096, ..gate(&[]) }), 4, 11),
        refused("activity 65,535 and width 0", of(gate(&[(0, 1)])), 4, 11),
        refused("activity 65,535 and drop 1,001", of(gate(&[(1, 1_001)])), 4, 11),
        refused("activity 65,535 and equal drops", of(gate(&[(1, 2), (1, 2)])), 5, 11),
        refused("edition 1, p 257 and equal drops", lone(Gate { switching: 257, ..gate(&[(1, 2), (1, 2)]) }), 4, 11),
        refused("edition 3, a gate's number cut", cut3(17), 1, 11),
        refused("edition 3, the input's number cut", cut3(10), 1, 0),
        refused("edition 3, a wire of 2 bytes", with3(77, &[0, 2]), 3, 76),
        refused("edition 3, a wire of 3 bytes", with3(77, &[0, 3]), 3, 76),
        refused("edition 3, a wire of 5 bytes", with3(77, &[0, 5]), 3, 76),
        refused("a wire of 2 bytes among those of edition 3", and(d3(LOW), &[3, 0, 2, 0, 3]), 3, 83),
        refused("edition 3, a wire that stood before, with another delay", and(d3(LOW), &[3, 0, 4, 0, 1, 0, 9]), 6, 83),
        refused("edition 3, a wire to itself", with3(58, &[1, 1]), 6, 55),
        refused("edition 3, a wire to gate n", with3(79, &[0, 4]), 4, 76),
        refused("edition 3, a wire and its opposite", and(d3(LOW), &[3, 0, 4, 1, 0, 0, 1]), 8, 0),
        refused("edition 3, a wire too few", cut3(76), 9, 2),
        refused("edition 3, a wire across", and(d3(LOW), &[3, 0, 4, 1, 2, 0, 1]), 11, 1),
        accepted("edition 3, spare 0", with3(7, &[0, 8])),
        refused("edition 3, spare -1", with3(7, &[0, 7]), 12, 0),
    ]
}

fn limits() -> Vec<Boundary> {
    let delayed = |delay| encode(&measured(delayed_chain(&[delay]), repeat(65_535)));
    let full = largest_measured_file();
    let end = full.len() as u32;
    vec![
        accepted("edition 3, wire delay 4,095", delayed(4_095)),
        refused("edition 3, wire delay 4,096", delayed(4_096), 4, 33),
        accepted("the largest gain of edition 3", encode(&largest_measured_gain())),
        // no gate has one wire in and one wire out, so all are left
        refused("the longest file of edition 3", full.clone(), 11, 1),
        refused("the same without its last byte, in edition 3", full[..full.len() - 1].to_vec(), 1, end - 7),
        refused("the same in edition 2", replaced(full.clone(), 3, &[2]), 4, 0),
        refused("one byte behind it, in edition 3", and(full.clone(), &[0]), 7, end),
        refused("a wire more in edition 3", and(full, &[3, 0, 4, 0, LAST, 0, 1]), 7, end),
    ]
}

pub fn all() -> Vec<Boundary> {
    let mut all = editions();
    all.extend(numbers_of_nets());
    all.extend(numbers_of_each_net());
    all.extend(other_faults());
    all.extend(limits());
    all
}
