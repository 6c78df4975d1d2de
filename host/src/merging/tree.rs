//! The reduction of a network to one part, the lists merged on the way, and the way back.

use super::lists::{List, Store, NONE};
use super::netlist::Netlist;
use crate::block::{refuse, Refusal, MAX_GATES, MAX_STEPS};

#[derive(Clone, Copy)]
enum Kind {
    Wire,
    /// The nodes before and behind a gate.
    Series(u16, u8, u16),
    /// Two nodes, and the ticks that each is raised by.
    Parallel(u16, u16, u32, u32),
}

#[derive(Clone, Copy)]
struct Node {
    kind: Kind,
    delay: u32,
    list: List,
}

/// A wire without delay, which is node 0.
const WIRE: Node = Node { kind: Kind::Wire, delay: 0, list: NONE };
/// Wires with a delay are numbered from here on, each by its own number; they stand in no array of nodes.
const MAX_NODES: usize = 2 * MAX_GATES + 2;

pub struct Tree<'a> {
    netlist: &'a Netlist,
    nodes: Vec<Node>,
    of_gate: [List; MAX_GATES],
    delay_of_gate: [u32; MAX_GATES],
    store: Store,
    at_start: u64,
}

/// The wires that are left: how many lead into and out of each gate, and the exclusive or of the gates at their other ends.
struct Left {
    wires_in: [u8; MAX_GATES],
    wires_out: [u8; MAX_GATES],
    before: [u8; MAX_GATES],
    behind: [u8; MAX_GATES],
    gates: usize,
    /// The node of the wire from a to b, plus 1, or 0 where there is none, at a times the gates plus b.
    node: Vec<u16>,
}

impl Left {
    fn all(netlist: &Netlist) -> Left {
        let mut left = Left {
            wires_in: [0; MAX_GATES],
            wires_out: [0; MAX_GATES],
            before: [0; MAX_GATES],
            behind: [0; MAX_GATES],
            gates: netlist.gates,
            node: vec![0; netlist.gates * netlist.gates],
        };
        for (i, &(from, to)) in netlist.wire.iter().enumerate() {
            let (a, b) = (usize::from(from), usize::from(to));
            left.wires_out[a] += 1;
            left.wires_in[b] += 1;
            left.behind[a] ^= to;
            left.before[b] ^= from;
            *left.node(a, b) = if netlist.wire_delay[i] == 0 { 1 } else { (MAX_NODES + i + 1) as u16 };
        }
        left
    }

    fn node(&mut self, a: usize, b: usize) -> &mut u16 {
        &mut self.node[a * self.gates + b]
    }

    fn can_go(&self, gate: usize) -> bool {
        self.wires_in[gate] == 1 && self.wires_out[gate] == 1
    }
}

/// Gives a node its ticks; a wire with a delay has no place for them and needs none.
fn give(ticks: &mut [u64], number: u16, given: u64) {
    if let Some(node) = ticks.get_mut(usize::from(number)) {
        *node = given;
    }
}

impl Tree<'_> {
    /// The tree of a block, or refusal 11.
    pub fn reduced(netlist: &Netlist) -> Result<Tree<'_>, Refusal> {
        let n = netlist.gates;
        let mut tree = Tree {
            netlist,
            nodes: Vec::with_capacity(2 * n + 2),
            of_gate: [NONE; MAX_GATES],
            delay_of_gate: netlist.delay,
            store: Store::with_capacity(2 * MAX_STEPS * n + 1_024),
            at_start: 0,
        };
        tree.nodes.push(WIRE);
        let activities = netlist.input_activities();
        for gate in 0..n {
            tree.of_gate[gate] = tree.store.of_gate(gate, netlist.steps(gate), activities[gate]);
        }
        let whole = if n == 1 { 0 } else { tree.reduce(netlist)? };
        let first = tree.series(0, 0, whole);
        if n > 1 {
            tree.series(first, n - 1, 0);
        }
        Ok(tree)
    }

    /// Takes gates away until none can go; the node of the one wire left, or refusal 11 with the lowest gate left.
    fn reduce(&mut self, netlist: &Netlist) -> Result<u16, Refusal> {
        let last = netlist.gates - 1;
        let mut left = Left::all(netlist);
        let mut ready: Vec<usize> = (1..last).filter(|&g| left.can_go(g)).collect();
        let mut remaining = last - 1;
        while let Some(gate) = ready.pop() {
            if !left.can_go(gate) {
                continue;
            }
            self.take_away(gate, &mut left);
            remaining -= 1;
            for end in [left.before[gate], left.behind[gate]] {
                let end = usize::from(end);
                if end != 0 && end != last && left.can_go(end) {
                    ready.push(end);
                }
            }
            left.wires_in[gate] = 0;
        }
        if remaining > 0 {
            let lowest = (1..last).find(|&g| left.wires_in[g] > 0);
            return refuse(11, lowest.expect("a gate between the first and the last"));
        }
        Ok(*left.node(0, last) - 1)
    }

    /// Joins the two wires of a gate, and the joined wire with the one beside it.
    fn take_away(&mut self, gate: usize, left: &mut Left) {
        let (a, b) = (usize::from(left.before[gate]), usize::from(left.behind[gate]));
        let joined = self.series(*left.node(a, gate) - 1, gate, *left.node(gate, b) - 1);
        left.behind[a] ^= gate as u8;
        left.before[b] ^= gate as u8;
        let beside = *left.node(a, b);
        if beside == 0 {
            *left.node(a, b) = joined + 1;
            left.behind[a] ^= b as u8;
            left.before[b] ^= a as u8;
        } else {
            *left.node(a, b) = self.parallel(beside - 1, joined) + 1;
            left.wires_out[a] -= 1;
            left.wires_in[b] -= 1;
        }
    }

    fn add(&mut self, node: Node) -> u16 {
        self.nodes.push(node);
        (self.nodes.len() - 1) as u16
    }

    /// The node of this number.
    fn node(&self, number: u16) -> Node {
        match usize::from(number).checked_sub(MAX_NODES) {
            None => self.nodes[usize::from(number)],
            Some(wire) => Node { delay: u32::from(self.netlist.wire_delay[wire]), ..WIRE },
        }
    }

    fn series(&mut self, before: u16, gate: usize, behind: u16) -> u16 {
        let (one, other) = (self.node(before), self.node(behind));
        let list = self.store.series(one.list, self.of_gate[gate]);
        let list = self.store.series(list, other.list);
        let delay = one.delay + self.delay_of_gate[gate] + other.delay;
        self.add(Node { kind: Kind::Series(before, gate as u8, behind), delay, list })
    }

    fn parallel(&mut self, one: u16, other: u16) -> u16 {
        let (p, q) = (self.node(one), self.node(other));
        let delay = p.delay.max(q.delay);
        let (for_one, for_other) = (delay - p.delay, delay - q.delay);
        let (p_list, p_earned) = self.store.raised(p.list, u64::from(for_one));
        let (q_list, q_earned) = self.store.raised(q.list, u64::from(for_other));
        self.at_start += p_earned + q_earned;
        let list = self.store.parallel(p_list, q_list);
        self.add(Node { kind: Kind::Parallel(one, other, for_one, for_other), delay, list })
    }

    /// The longest path with no increase.
    pub fn delay(&self) -> u32 {
        self.nodes[self.nodes.len() - 1].delay
    }

    /// Follows the reduction backwards: hands the ticks down to the gates. Returns the saving.
    pub fn give_back(&self, spare: u64, increases: &mut [u32; MAX_GATES]) -> u64 {
        let mut ticks = vec![0; self.nodes.len()];
        let root = self.nodes.len() - 1;
        ticks[root] = spare;
        let mut saving = self.at_start;
        let mut left = spare;
        for pair in self.store.of(self.nodes[root].list) {
            let taken = left.min(pair.width);
            saving += taken * pair.gain();
            left -= taken;
        }
        for node in (0..self.nodes.len()).rev() {
            match self.nodes[node].kind {
                Kind::Wire => {}
                Kind::Parallel(one, other, for_one, for_other) => {
                    let given = ticks[node];
                    give(&mut ticks, one, given + u64::from(for_one));
                    give(&mut ticks, other, given + u64::from(for_other));
                }
                Kind::Series(before, gate, behind) => {
                    let gate = usize::from(gate);
                    let lists = [self.node(before).list, self.of_gate[gate], self.node(behind).list];
                    let shares = self.store.shares(ticks[node], self.nodes[node].list, lists);
                    give(&mut ticks, before, shares[0]);
                    give(&mut ticks, behind, shares[2]);
                    increases[gate] = shares[1] as u32;
                }
            }
        }
        saving
    }
}
