//! Refusals 8 and 9 (document 01, "Refusals and their places").

use crate::block::{refuse, Block, Refusal};

/// `reaches[a][b]`: at least one wire leads, over any gates between, from a to b.
pub fn reaches(block: &Block) -> Vec<Vec<bool>> {
    let n = block.gates.len();
    let mut reaches = vec![vec![false; n]; n];
    for wire in &block.wires {
        reaches[wire.from][wire.to] = true;
    }
    for middle in 0..n {
        let beyond = reaches[middle].clone();
        for row in reaches.iter_mut().filter(|row| row[middle]) {
            row.iter_mut().zip(&beyond).for_each(|(reached, &further)| *reached |= further);
        }
    }
    reaches
}

/// The lowest gate that reaches itself.
pub fn lowest_on_loop(block: &Block) -> Option<usize> {
    let reaches = reaches(block);
    (0..block.gates.len()).find(|&g| reaches[g][g])
}

/// The lowest gate with a wire where it must have none, or none where it must have one.
pub fn lowest_at_fault(block: &Block) -> Option<usize> {
    let n = block.gates.len();
    (0..n).find(|&g| {
        let wire_in = block.wires.iter().any(|w| w.to == g);
        let wire_out = block.wires.iter().any(|w| w.from == g);
        let fault_in = if g == 0 { wire_in } else { !wire_in };
        let fault_out = if g == n - 1 { wire_out } else { !wire_out };
        fault_in || fault_out
    })
}

/// Refusals 8 and 9.
pub fn check(block: &Block) -> Result<(), Refusal> {
    if let Some(gate) = lowest_on_loop(block) {
        return refuse(8, gate);
    }
    if let Some(gate) = lowest_at_fault(block) {
        return refuse(9, gate);
    }
    Ok(())
}
