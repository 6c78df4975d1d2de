//! What the printing program writes (document 01, "The printing program").

use crate::answers::{best_increases, well_formed};
use crate::block::{Refusal, MAX_BYTES, MAX_GATES};
use crate::timing::{slacks, spare, start};
use std::fmt::Write;

pub fn printout(input: &[u8]) -> String {
    let file = &input[..input.len().min(MAX_BYTES)];
    lines(file).unwrap_or_else(|r| format!("refused {} {}\n", r.number, r.place))
}

fn lines(file: &[u8]) -> Result<String, Refusal> {
    let block = well_formed(file)?;
    let best = best_increases(file, MAX_GATES)?;
    let slacks = slacks(&block);
    let mut text = String::new();
    writeln!(text, "gates {} wires {}", block.gates.len(), block.wires.len()).unwrap();
    writeln!(text, "start {} spare {}", start(&block), spare(&block)).unwrap();
    writeln!(text, "saving {}", best.saving).unwrap();
    for (g, gate) in block.gates.iter().enumerate() {
        writeln!(text, "{} {} {} {}", g, gate.delay, best.increases[g], slacks[g]).unwrap();
    }
    Ok(text)
}
