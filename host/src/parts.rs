//! Whether a block is series-parallel (document 01, "A part from gate a to gate b ..."), decided twice; and which gates are
//! left of it where it is not (document 02, K1).

use crate::block::Block;
use crate::random::Random;
use std::collections::HashSet;

/// A part: its two ends, and its wires and gates as sets of bits.
#[derive(Clone, Copy, PartialEq, Eq, Hash)]
struct Part {
    from: usize,
    to: usize,
    wires: u64,
    gates: u64,
}

/// The two parts in series, if they share only the middle gate.
fn series(first: &Part, second: &Part) -> Option<Part> {
    let fits = first.to == second.from && first.gates & second.gates == 1 << first.to;
    fits.then_some(Part {
        from: first.from,
        to: second.to,
        wires: first.wires | second.wires,
        gates: first.gates | second.gates,
    })
}

/// The two parts in parallel, if they share only their ends and no wire stands in both.
fn parallel(one: &Part, other: &Part) -> Option<Part> {
    let same_ends = one.from == other.from && one.to == other.to;
    let fits = same_ends && one.gates & other.gates == 1 << one.from | 1 << one.to && one.wires & other.wires == 0;
    fits.then_some(Part { wires: one.wires | other.wires, gates: one.gates | other.gates, ..*one })
}

/// By building up, from the wires on, every part that there is. For small blocks.
pub fn built_up(block: &Block) -> bool {
    let n = block.gates.len();
    let wire_count = block.wires.len();
    if n == 1 && wire_count == 0 {
        return true;
    }
    let mut parts: Vec<Part> = Vec::new();
    let mut seen: HashSet<Part> = HashSet::new();
    let mut fresh: Vec<Part> = Vec::new();
    for (i, wire) in block.wires.iter().enumerate() {
        fresh.push(Part { from: wire.from, to: wire.to, wires: 1 << i, gates: 1 << wire.from | 1 << wire.to });
    }
    while let Some(part) = fresh.pop() {
        if !seen.insert(part) {
            continue;
        }
        parts.push(part);
        for other in &parts {
            fresh.extend(series(&part, other));
            fresh.extend(series(other, &part));
            fresh.extend(parallel(&part, other));
        }
    }
    let all_wires = (1u64 << wire_count) - 1;
    let all_gates = u64::MAX >> (u64::BITS as usize - n);
    seen.contains(&Part { from: 0, to: n - 1, wires: all_wires, gates: all_gates })
}

/// By taking away gates with one wire in and one wire out, joining the two, until none is left to take. For blocks of any size.
pub fn reduces(block: &Block) -> bool {
    let n = block.gates.len();
    if n == 1 {
        return block.wires.is_empty();
    }
    // for each gate those that a wire leads to it from, and those that a wire leads to from it
    let (mut before, mut behind) = (vec![HashSet::new(); n], vec![HashSet::new(); n]);
    for wire in &block.wires {
        before[wire.to].insert(wire.from);
        behind[wire.from].insert(wire.to);
    }
    let mut left: Vec<usize> = (1..n - 1).collect();
    while let Some(at) = left.iter().position(|&g| before[g].len() == 1 && behind[g].len() == 1) {
        let gate = left.remove(at);
        let only = |gates: &HashSet<usize>| *gates.iter().next().expect("a gate");
        let (a, b) = (only(&before[gate]), only(&behind[gate]));
        behind[a].remove(&gate);
        before[b].remove(&gate);
        behind[a].insert(b);
        before[b].insert(a);
    }
    left.is_empty() && behind[0] == HashSet::from([n - 1]) && behind[n - 1].is_empty()
}

/// A network in which a wire may stand several times: how many wires lead from each gate to each other, and the gates left.
struct Multigraph {
    wires: Vec<Vec<usize>>,
    left: Vec<usize>,
}

/// One step of document 02, K1.
#[derive(Clone, Copy, Debug, PartialEq)]
enum Reduction {
    /// Take away a gate with one wire in and one wire out, joining the two wires.
    Series { from: usize, gate: usize, to: usize },
    /// Merge two wires that lead from one gate to the same other.
    Parallel { from: usize, to: usize },
}

impl Multigraph {
    fn of(block: &Block) -> Multigraph {
        let n = block.gates.len();
        let mut wires = vec![vec![0; n]; n];
        for wire in &block.wires {
            wires[wire.from][wire.to] += 1;
        }
        Multigraph { wires, left: (0..n).collect() }
    }

    /// The taking away of a gate, if it has one wire in and one wire out.
    fn series_reduction(&self, gate: usize) -> Option<Reduction> {
        let wires_in: usize = self.left.iter().map(|&from| self.wires[from][gate]).sum();
        let wires_out: usize = self.left.iter().map(|&to| self.wires[gate][to]).sum();
        if wires_in != 1 || wires_out != 1 {
            return None;
        }
        let from = self.left.iter().copied().find(|&from| self.wires[from][gate] == 1)?;
        let to = self.left.iter().copied().find(|&to| self.wires[gate][to] == 1)?;
        Some(Reduction::Series { from, gate, to })
    }

    /// Every reduction that applies.
    fn reductions(&self) -> Vec<Reduction> {
        let mut all = Vec::new();
        for &from in &self.left {
            all.extend(self.series_reduction(from));
            let doubled = self.left.iter().filter(|&&to| self.wires[from][to] >= 2);
            all.extend(doubled.map(|&to| Reduction::Parallel { from, to }));
        }
        all
    }

    fn apply(&mut self, reduction: Reduction) {
        match reduction {
            Reduction::Series { from, gate, to } => {
                self.wires[from][gate] -= 1;
                self.wires[gate][to] -= 1;
                self.wires[from][to] += 1;
                self.left.retain(|&g| g != gate);
            }
            Reduction::Parallel { from, to } => self.wires[from][to] -= 1,
        }
    }

    /// Applies one of the reductions that apply, chosen at random; false if there is none.
    fn reduce_once(&mut self, random: &mut Random) -> bool {
        let reductions = self.reductions();
        if reductions.is_empty() {
            return false;
        }
        self.apply(random.pick(&reductions));
        true
    }
}

/// The gates left when gates with one wire in and one wire out are taken away, joining the two wires, and doubled wires
/// merged, one after another in a random order, until neither applies (document 02, K1). They do not depend on the order;
/// check-reference tries several.
pub fn gates_left(block: &Block, random: &mut Random) -> Vec<usize> {
    let mut graph = Multigraph::of(block);
    while graph.reduce_once(random) {}
    graph.left
}

/// The place of refusal 11: the lowest gate left other than 0 and n - 1. `None` if the block is series-parallel.
pub fn lowest_left(block: &Block, random: &mut Random) -> Option<usize> {
    let last = block.gates.len() - 1;
    gates_left(block, random).into_iter().find(|&g| g != 0 && g != last)
}

#[cfg(test)]
mod tests {
    use super::*;
    use crate::block::Wire;
    use crate::generate::bare_block;

    fn network(gates: usize, wires: &[(usize, usize)]) -> Block {
        bare_block(gates, wires.iter().map(|&(from, to)| Wire::without_delay(from, to)).collect())
    }

    fn bridge() -> Block {
        network(4, &[(0, 1), (0, 2), (1, 2), (1, 3), (2, 3)])
    }

    #[test]
    fn gates_left_by_hand() {
        let behind_a_chain = network(6, &[(0, 1), (1, 2), (2, 3), (2, 4), (3, 4), (3, 5), (4, 5)]);
        let wire_beside_a_chain = network(3, &[(0, 1), (1, 2), (0, 2)]);
        for seed in 0..20 {
            let left = |block: &Block| gates_left(block, &mut Random::from_seed(seed));
            let lowest = |block: &Block| lowest_left(block, &mut Random::from_seed(seed));
            assert_eq!((left(&bridge()), lowest(&bridge())), (vec![0, 1, 2, 3], Some(1)));
            assert_eq!((left(&behind_a_chain), lowest(&behind_a_chain)), (vec![0, 2, 3, 4, 5], Some(2)));
            assert_eq!((left(&wire_beside_a_chain), lowest(&wire_beside_a_chain)), (vec![0, 2], None));
            assert_eq!((left(&network(1, &[])), lowest(&network(1, &[]))), (vec![0], None));
        }
    }

    /// A gate that a doubled wire leads to has two wires in: it goes only after the two are merged.
    #[test]
    fn wires_are_counted() {
        let mut graph = Multigraph::of(&network(4, &[(0, 1), (1, 2), (0, 2), (2, 3)]));
        let steps = [
            Reduction::Series { from: 0, gate: 1, to: 2 },
            Reduction::Parallel { from: 0, to: 2 },
            Reduction::Series { from: 0, gate: 2, to: 3 },
        ];
        for step in steps {
            assert_eq!(graph.reductions(), [step]);
            graph.apply(step);
        }
        assert_eq!(graph.reductions(), []);
    }

    /// Of three gates and a wire side by side, two steps take away any two gates, or take away any one and merge.
    #[test]
    fn orders_differ() {
        let block = network(5, &[(0, 1), (1, 4), (0, 2), (2, 4), (0, 3), (3, 4), (0, 4)]);
        let mut reached = HashSet::new();
        for seed in 0..200 {
            let random = &mut Random::from_seed(seed);
            let mut graph = Multigraph::of(&block);
            assert!(graph.reduce_once(random) && graph.reduce_once(random));
            reached.insert((graph.left, graph.wires[0][4]));
        }
        assert_eq!(reached.len(), 6);
    }

    /// If a wire that stands once were merged away, the gates left of the bridge would depend on the order.
    #[test]
    fn merging_a_single_wire_is_noticed() {
        let random = &mut Random::from_seed(1);
        let mut graph = Multigraph::of(&bridge());
        graph.apply(Reduction::Parallel { from: 1, to: 2 });
        while graph.reduce_once(random) {}
        assert_eq!(graph.left, [0, 3]);
    }
}
