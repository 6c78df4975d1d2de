//! Series-parallel networks of one shape each, for measuring how time grows with the number of gates.

use crate::block::Wire;
use crate::generate::{series_parallel, shuffled};
use crate::random::Random;

#[derive(Clone, Copy, Debug, PartialEq)]
pub enum Shape {
    /// One gate after another.
    Chain,
    /// A chain, every gate of which also leads to the last: a part beside a wire, in series, beside a wire, and so on.
    Ladder,
    /// All gates side by side between the first and the last.
    Wide,
    /// Halves side by side, each of two halves in series, and so on.
    Nested,
    /// Gate after gate put on a wire, or beside it.
    Random,
}

pub const ALL_SHAPES: [Shape; 5] = [Shape::Chain, Shape::Ladder, Shape::Wide, Shape::Nested, Shape::Random];

/// A part from a to b of the gates given, in halves side by side or in series through the first of them.
fn nest(wires: &mut Vec<(usize, usize)>, a: usize, b: usize, inside: &[usize], beside: bool) {
    match inside {
        [] => wires.push((a, b)),
        [one] => wires.extend([(a, *one), (*one, b)]),
        _ if beside => {
            let (left, right) = inside.split_at(inside.len() / 2);
            nest(wires, a, b, left, false);
            nest(wires, a, b, right, false);
        }
        [middle, rest @ ..] => {
            let (left, right) = rest.split_at(rest.len() / 2);
            nest(wires, a, *middle, left, true);
            nest(wires, *middle, b, right, true);
        }
    }
}

/// The wires of a network of at least three gates, with the gates between the first and the last in random order.
pub fn wires(random: &mut Random, shape: Shape, gates: usize) -> Vec<Wire> {
    let last = gates - 1;
    let mut wires = Vec::new();
    match shape {
        Shape::Chain => wires.extend((0..last).map(|g| (g, g + 1))),
        Shape::Ladder => {
            wires.extend((0..last).map(|g| (g, g + 1)));
            wires.extend((0..last - 1).map(|g| (g, last)));
        }
        Shape::Wide => wires.extend((1..last).flat_map(|g| [(0, g), (g, last)])),
        Shape::Nested => nest(&mut wires, 0, last, &(1..last).collect::<Vec<_>>(), true),
        Shape::Random => return series_parallel(random, gates),
    }
    shuffled(random, gates, wires)
}

#[cfg(test)]
mod tests {
    use super::*;
    use crate::block::MAX_GATES;
    use crate::generate::benchmark_block;
    use crate::{network, parts};

    #[test]
    fn every_shape_is_series_parallel() {
        let random = &mut Random::from_seed(5);
        for shape in ALL_SHAPES {
            for gates in [3, 4, 8, MAX_GATES] {
                let wires = wires(random, shape, gates);
                let block = benchmark_block(random, gates, wires, 1);
                assert!(network::check(&block).is_ok(), "{shape:?} {gates}");
                assert!(parts::reduces(&block), "{shape:?} {gates}");
            }
        }
    }
}
