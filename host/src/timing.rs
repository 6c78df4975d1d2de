//! Activities, gains, paths, slacks and judging (document 01, "Gains, paths, building up"; document 02, K2 and K3). The block
//! has no loop.

use crate::block::{refuse, Block, Refusal, Wire};

/// The sum of the activities of a gate's wires in; for gate 0 the input's own.
pub fn input_activity(block: &Block, gate: usize) -> u64 {
    if gate == 0 {
        return u64::from(block.input_activity());
    }
    block.wires.iter().filter(|w| w.to == gate).map(|w| u64::from(block.output_activity(w.from))).sum()
}

/// The gain of the tick that comes after `increase` ticks, `None` beyond the widths.
pub fn gain_of_tick(block: &Block, gate: usize, increase: u32) -> Option<u64> {
    let mut end = 0;
    for step in &block.gates[gate].steps {
        end += step.width;
        if increase < end {
            return Some(u64::from(step.drop) * input_activity(block, gate));
        }
    }
    None
}

/// The sum of the gains of a gate's first ticks; ticks beyond the widths earn nothing.
pub fn saving_of_gate(block: &Block, gate: usize, increase: u32) -> u64 {
    let mut left = increase;
    let mut saved = 0;
    for step in &block.gates[gate].steps {
        let ticks = left.min(step.width);
        saved += u64::from(ticks) * u64::from(step.drop);
        left -= ticks;
    }
    saved * input_activity(block, gate)
}

/// The saving of a list of increases.
pub fn saving(block: &Block, increases: &[u32]) -> u64 {
    (0..block.gates.len()).map(|g| saving_of_gate(block, g, increases[g])).sum()
}

/// Every path from gate 0 to gate n - 1, as gates in order.
pub fn all_paths(block: &Block) -> Vec<Vec<usize>> {
    let last = block.gates.len() - 1;
    let mut open = vec![vec![0]];
    let mut done = Vec::new();
    while let Some(path) = open.pop() {
        let end = path[path.len() - 1];
        if end == last {
            done.push(path);
            continue;
        }
        for wire in block.wires.iter().filter(|w| w.from == end) {
            let mut longer = path.clone();
            longer.push(wire.to);
            open.push(longer);
        }
    }
    done
}

/// How long a path lasts with no increase: its gates' delays and its wires'.
pub fn path_delay(block: &Block, path: &[usize]) -> u64 {
    let gates: u64 = path.iter().map(|&g| u64::from(block.gates[g].delay)).sum();
    let on_path = |w: &&Wire| path.windows(2).any(|ends| w.ends() == (ends[0], ends[1]));
    gates + block.wires.iter().filter(on_path).map(|w| u64::from(w.delay)).sum::<u64>()
}

/// The gates in an order in which every wire leads forward: again and again the lowest of those that can come next.
pub fn order(block: &Block) -> Vec<usize> {
    let gates = block.gates.len();
    let (mut waits_for, mut leads_to) = (vec![0; gates], vec![Vec::new(); gates]);
    for wire in &block.wires {
        waits_for[wire.to] += 1;
        leads_to[wire.from].push(wire.to);
    }
    let mut left: Vec<usize> = (0..gates).collect();
    let mut order = Vec::new();
    while !left.is_empty() {
        let at = left.iter().position(|&g| waits_for[g] == 0).expect("a block without loops");
        let next = left.remove(at);
        leads_to[next].iter().for_each(|&to| waits_for[to] -= 1);
        order.push(next);
    }
    order
}

/// The latest time at each gate's output, arrival included, with the increases added.
pub fn source_delays(block: &Block, increases: &[u32]) -> Vec<u64> {
    let mut times = vec![0; block.gates.len()];
    for g in order(block) {
        let into = block.wires.iter().filter(|w| w.to == g);
        let before = into.map(|w| times[w.from] + u64::from(w.delay)).max();
        let delay = u64::from(block.gates[g].delay) + u64::from(increases[g]);
        times[g] = before.unwrap_or(u64::from(block.arrival)) + delay;
    }
    times
}

/// The deadline at gate n - 1, carried backwards by the least.
pub fn required_times(block: &Block) -> Vec<i64> {
    let mut times = vec![i64::from(block.deadline); block.gates.len()];
    for &g in order(block).iter().rev() {
        let out = block.wires.iter().filter(|w| w.from == g);
        let before_wire = |w: &Wire| times[w.to] - i64::from(block.gates[w.to].delay) - i64::from(w.delay);
        if let Some(least) = out.map(before_wire).min() {
            times[g] = least;
        }
    }
    times
}

/// Required time minus source delay, before increases.
pub fn slacks(block: &Block) -> Vec<i64> {
    let source = source_delays(block, &vec![0; block.gates.len()]);
    let required = required_times(block);
    (0..block.gates.len()).map(|g| required[g] - source[g] as i64).collect()
}

/// The longest path with these increases.
pub fn longest(block: &Block, increases: &[u32]) -> u64 {
    source_delays(block, increases)[block.gates.len() - 1] - u64::from(block.arrival)
}

/// The longest path with no increase.
pub fn start(block: &Block) -> u64 {
    longest(block, &vec![0; block.gates.len()])
}

/// deadline - arrival - start.
pub fn spare(block: &Block) -> i64 {
    i64::from(block.deadline) - i64::from(block.arrival) - start(block) as i64
}

/// The saving of a proposed list of n increases, or refusal 13 or 14.
pub fn judge(block: &Block, increases: &[u32]) -> Result<u64, Refusal> {
    let n = block.gates.len();
    if let Some(gate) = (0..n).find(|&g| increases[g] > block.gates[g].widths()) {
        return refuse(13, gate);
    }
    if u64::from(block.arrival) + longest(block, increases) > u64::from(block.deadline) {
        return refuse(14, 0);
    }
    Ok(saving(block, increases))
}
