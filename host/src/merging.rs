//! The paper's list merging (001, section 2.3) with its way back, from file bytes to increases: what the benchmark
//! compares with. Plain Rust, written for speed as one would without proof: long arrays are as long as the block needs, one
//! growing store for the lists, gates taken away from a work list. Of equally good lists it returns the first in the order
//! of ties (document 02, K8).

mod lists;
mod netlist;
mod tree;

use crate::block::{refuse, Refusal, MAX_GATES};
use netlist::Netlist;
use tree::Tree;

/// Writes the increases of the best list in time; returns the gate count and the saving.
pub fn best_increases(file: &[u8], increases: &mut [u32; MAX_GATES]) -> Result<(usize, u64), Refusal> {
    let netlist = Netlist::read(file)?;
    netlist.check_network()?;
    let tree = Tree::reduced(&netlist)?;
    let time = i64::from(netlist.deadline) - i64::from(netlist.arrival);
    let spare = time - i64::from(tree.delay());
    if spare < 0 {
        return refuse(12, 0);
    }
    let n = netlist.gates;
    increases[..n].fill(0);
    let saving = tree.give_back(spare as u64, increases);
    Ok((n, saving))
}
