//! The best list and the curve of blocks of any size, by flows.
//!
//! The greatest saving within T ticks is, by linear-programming duality, the least cost of a flow from the first gate's
//! input to the last gate's output: the flow through a gate is what a tick costs there. A gate lets its least gain
//! through at the length (delay + all widths), each further rise of gain at a length shorter by the step passed, and any
//! amount at its drawn delay; a wire lets any amount through at its delay. The flow at T fills the longest paths as long as
//! they are longer than T.
//! The lists of greatest saving are then exactly those that agree with that flow (complementary slackness), which says of
//! each list only how far two times may lie apart; so the first of them in the order of ties is found gate after gate,
//! from n - 1 down (document 02, K8), with shortest distances. No part, no series, no parallel occurs here: the block need
//! not be series-parallel.

use crate::apart::Apart;
use crate::block::Block;
use crate::search::{Best, Curve};
use crate::timing::{input_activity, order, saving, start};
use std::cmp::Reverse;
use std::collections::BinaryHeap;

const UNBOUNDED: i64 = i64::MAX / 4;

/// The order in which tied lists are compared: at one gate after another, the smaller increase at the first difference comes
/// first.
#[derive(Clone, Copy)]
enum Order {
    /// From gate n - 1 down (document 02, K8).
    FarEnd,
    /// From gate 0 on: document 01's order, before K8, kept to find blocks on which the two orders differ.
    FromGate0,
}

impl Order {
    /// The gates of a block of so many, in this order.
    fn gates(self, count: usize) -> impl Iterator<Item = usize> {
        (0..count).map(move |i| match self {
            Order::FarEnd => count - 1 - i,
            Order::FromGate0 => i,
        })
    }
}

/// An arc with what can still flow; its opposite is the arc of the other parity.
#[derive(Clone, Copy)]
struct Arc {
    to: usize,
    room: i64,
    length: i64,
}

/// A network whose points are the inputs (2g) and outputs (2g + 1) of the gates.
struct Flow<'a> {
    block: &'a Block,
    arcs: Vec<Arc>,
    out: Vec<Vec<usize>>,
    /// For each point a time that no way with room reaches it later than, from the first input on: an arc with room is at most as
    /// long as the times at its ends lie apart.
    latest: Vec<i64>,
    total: i64,
}

/// The gains of a gate's steps that have one, and their widths.
fn gains(block: &Block, gate: usize) -> Vec<(i64, i64)> {
    let activity = input_activity(block, gate) as i64;
    let steps = block.gates[gate].steps.iter();
    steps.map(|s| (i64::from(s.width), i64::from(s.drop) * activity)).filter(|s| s.1 > 0).collect()
}

impl<'a> Flow<'a> {
    /// The network without flow: first an arc for each wire, then those of the gates.
    fn empty(block: &'a Block) -> Flow<'a> {
        let points = 2 * block.gates.len();
        let (out, latest) = (vec![Vec::new(); points], vec![0; points]);
        let mut flow = Flow { block, arcs: Vec::new(), out, latest, total: 0 };
        for wire in &block.wires {
            flow.add(2 * wire.from + 1, 2 * wire.to, UNBOUNDED, i64::from(wire.delay));
        }
        for (g, gate) in block.gates.iter().enumerate() {
            let mut length = i64::from(gate.delay);
            let steps = gains(block, g);
            flow.add(2 * g, 2 * g + 1, UNBOUNDED, length);
            for (i, &(width, gain)) in steps.iter().enumerate() {
                length += width;
                let next = steps.get(i + 1).map_or(0, |s| s.1);
                flow.add(2 * g, 2 * g + 1, gain - next, length);
            }
        }
        flow.measure();
        flow
    }

    /// Finds the latest times without flow: those of the longest ways.
    fn measure(&mut self) {
        for g in order(self.block) {
            for point in [2 * g, 2 * g + 1] {
                for &i in self.out[point].iter().filter(|&&i| self.arcs[i].room > 0) {
                    let Arc { to, length, .. } = self.arcs[i];
                    self.latest[to] = self.latest[to].max(self.latest[point] + length);
                }
            }
        }
    }

    fn add(&mut self, from: usize, to: usize, room: i64, length: i64) {
        self.out[from].push(self.arcs.len());
        self.arcs.push(Arc { to, room, length });
        self.out[to].push(self.arcs.len());
        self.arcs.push(Arc { to: from, room: 0, length: -length });
    }

    /// The longest way, in what can still flow, from the first input to the last output: its length and its arcs. An arc loses as
    /// much as the latest times at its ends lie farther apart than it is long. The longest way loses least, so it is found by
    /// Dijkstra's method; the latest times then fall by what is lost.
    fn longest_way(&mut self) -> (i64, Vec<usize>) {
        let last = self.out.len() - 1;
        let mut lost = vec![UNBOUNDED; self.out.len()];
        let mut by = vec![usize::MAX; self.out.len()];
        let mut waiting = BinaryHeap::from([Reverse((0, 0))]);
        lost[0] = 0;
        while let Some(Reverse((least, a))) = waiting.pop() {
            if a == last {
                break;
            }
            if least > lost[a] {
                continue;
            }
            for &i in &self.out[a] {
                let Arc { to, room, length } = self.arcs[i];
                let loses = least + self.latest[to] - self.latest[a] - length;
                if room > 0 && loses < lost[to] {
                    lost[to] = loses;
                    by[to] = i;
                    waiting.push(Reverse((loses, to)));
                }
            }
        }
        let most = lost[last];
        self.latest.iter_mut().zip(lost).for_each(|(latest, lost)| *latest -= lost.min(most));
        (self.latest[last], self.way_back(&by))
    }

    /// The arcs of the way to the last output, each point of which was reached by an arc.
    fn way_back(&self, by: &[usize]) -> Vec<usize> {
        let mut way = Vec::new();
        let mut at = by.len() - 1;
        while at != 0 {
            way.push(by[at]);
            at = self.arcs[by[at] ^ 1].to;
        }
        way
    }

    /// Fills ways longer than `time` until there is none; notes each way's length and amount.
    fn fill(&mut self, time: i64) -> Vec<(i64, i64)> {
        let mut filled = Vec::new();
        loop {
            let (length, way) = self.longest_way();
            if length <= time {
                return filled;
            }
            let amount = way.iter().map(|&i| self.arcs[i].room).min().expect("a way has an arc");
            assert!(amount < UNBOUNDED / 2, "a way longer than the time lets any amount through");
            for i in way {
                self.arcs[i].room -= amount;
                self.arcs[i ^ 1].room += amount;
            }
            self.total += amount;
            filled.push((length, amount));
        }
    }

    /// The flow on an arc.
    fn on(&self, arc: usize) -> i64 {
        self.arcs[arc ^ 1].room
    }

    fn through_gate(&self, gate: usize) -> i64 {
        self.out[2 * gate].iter().filter(|&&i| i % 2 == 0).map(|&i| self.on(i)).sum()
    }

    /// No list within `time` saves more than this.
    fn bound(&self, time: i64) -> i64 {
        let lengths: i64 = (0..self.arcs.len()).step_by(2).map(|i| self.on(i) * self.arcs[i].length).sum();
        let every_tick = |g| gains(self.block, g).iter().map(|s| s.0 * s.1).sum::<i64>();
        let all: i64 = (0..self.block.gates.len()).map(every_tick).sum();
        time * self.total - lengths + all
    }
}

/// The lists that agree with the flow: how far the times at the gates' inputs and outputs may lie apart.
fn agreeing(flow: &Flow, time: i64) -> Apart {
    let block = flow.block;
    let n = block.gates.len();
    let mut apart = Apart::free(2 * n);
    for (i, wire) in block.wires.iter().enumerate() {
        let delay = i64::from(wire.delay);
        apart.at_most(2 * wire.to, 2 * wire.from + 1, -delay);
        if flow.on(2 * i) > 0 {
            apart.at_most(2 * wire.from + 1, 2 * wire.to, delay);
        }
    }
    for (g, gate) in block.gates.iter().enumerate() {
        let price = flow.through_gate(g);
        let activity = input_activity(block, g) as i64;
        let ticks_where = |taken: fn(i64, i64) -> bool| -> i64 {
            let steps = gate.steps.iter().filter(|s| taken(i64::from(s.drop) * activity, price));
            steps.map(|s| i64::from(s.width)).sum()
        };
        let (least, most) = (ticks_where(|gain, price| gain > price), ticks_where(|gain, price| gain >= price));
        let delay = i64::from(gate.delay);
        apart.at_most(2 * g, 2 * g + 1, delay + most);
        apart.at_most(2 * g + 1, 2 * g, -(delay + least));
    }
    apart.at_most(0, 2 * n - 1, time);
    if flow.total > 0 {
        apart.at_most(2 * n - 1, 0, -time);
    }
    apart
}

/// Of the lists of a block between which these times leave a choice the one that comes first.
fn first_list(block: &Block, mut apart: Apart, order: Order) -> Vec<u32> {
    let mut increases = vec![0; block.gates.len()];
    for g in order.gates(block.gates.len()) {
        let least = apart.settle(2 * g, 2 * g + 1);
        increases[g] = u32::try_from(least - i64::from(block.gates[g].delay)).expect("an increase");
    }
    increases
}

/// Of the lists within `time` the one that saves most and, of those, comes first, in each of some orders; `None` if there is no
/// list.
fn best_in_each<const N: usize>(block: &Block, time: i64, orders: [Order; N]) -> Option<[Best; N]> {
    if time < start(block) as i64 {
        return None;
    }
    let mut flow = Flow::empty(block);
    flow.fill(time);
    let (apart, bound) = (agreeing(&flow, time), flow.bound(time));
    Some(orders.map(|order| {
        let increases = first_list(block, apart.clone(), order);
        let saving = saving(block, &increases);
        assert_eq!(saving as i64, bound, "the list reaches the bound");
        Best { increases, saving }
    }))
}

/// The ticks from the block's own arrival to its deadline.
fn own_time(block: &Block) -> i64 {
    i64::from(block.deadline) - i64::from(block.arrival)
}

/// Of the lists within `time` the best; `None` if there is no list.
pub fn best_within(block: &Block, time: i64) -> Option<Best> {
    best_in_each(block, time, [Order::FarEnd]).map(|[best]| best)
}

/// The best list under the block's own arrival and deadline.
pub fn best(block: &Block) -> Option<Best> {
    best_within(block, own_time(block))
}

/// The same in document 01's order of ties.
pub fn best_from_gate_0(block: &Block) -> Option<Best> {
    best_in_each(block, own_time(block), [Order::FromGate0]).map(|[best]| best)
}

/// Whether the order of ties decides: the two orders have different best lists.
pub fn is_tied(block: &Block) -> bool {
    let both = best_in_each(block, own_time(block), [Order::FarEnd, Order::FromGate0]);
    both.map_or(false, |[far_end, from_gate_0]| far_end != from_gate_0)
}

/// The curve of a block of which the best savings have one (every series-parallel block).
pub fn curve(block: &Block) -> Curve {
    let start = start(block) as i64;
    let mut flow = Flow::empty(block);
    let filled = flow.fill(start);
    let mut pairs: Vec<(u64, u64)> = Vec::new();
    let mut end = start;
    let mut gain = flow.total;
    for (length, amount) in filled.into_iter().rev() {
        if length > end {
            pairs.push(((length - end) as u64, gain as u64));
            end = length;
        }
        gain -= amount;
    }
    Curve { start: start as u64, at_start: flow.bound(start) as u64, pairs }
}
