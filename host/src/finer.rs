//! The same block in finer ticks (document 02, K14): what was one tick is m ticks. Every time of the block is m times the old
//! one, and so is every answer that is a time or a saving; what a tick gains stays.

use crate::answers::{check_parts, Answers, FewestTicks};
use crate::block::{refuse, Block, MAX_DELAY, MAX_TIME, MAX_WIDTH, MAX_WIRE_DELAY};
use crate::search::{self, Best, Curve};
use crate::{exact, timing};

/// Every number of a block that counts ticks, with the most that a file can say there.
pub fn times_of(block: &mut Block) -> Vec<(&mut u32, u32)> {
    let mut times = vec![(&mut block.arrival, MAX_TIME), (&mut block.deadline, MAX_TIME)];
    for gate in &mut block.gates {
        times.push((&mut gate.delay, MAX_DELAY));
        times.extend(gate.steps.iter_mut().map(|step| (&mut step.width, MAX_WIDTH)));
    }
    times.extend(block.wires.iter_mut().map(|wire| (&mut wire.delay, MAX_WIRE_DELAY)));
    times
}

/// The block in ticks m times as fine, for an m of 1 or more; `None` where a number of it no longer fits a file.
pub fn scaled(block: &Block, m: u32) -> Option<Block> {
    let mut finer = block.clone();
    for (time, most) in times_of(&mut finer) {
        *time = time.checked_mul(m).filter(|product| *product <= most)?;
    }
    Some(finer)
}

/// What K14 says of the curve: start, saving at start and widths times m, the gains as they were.
pub fn scaled_curve(curve: &Curve, m: u32) -> Curve {
    let m = u64::from(m);
    let pairs = curve.pairs.iter().map(|&(width, gain)| (m * width, gain)).collect();
    Curve { start: m * curve.start, at_start: m * curve.at_start, pairs }
}

/// The best list with its saving, all of it times m. K14 speaks of the saving alone; the list follows, since the lists of
/// greatest saving are those that agree with a flow (exact.rs), and every bound that it sets to their times is m times the old.
pub fn scaled_best(best: &Best, m: u32) -> Best {
    Best { increases: best.increases.iter().map(|increase| m * increase).collect(), saving: u64::from(m) * best.saving }
}

/// The answers for the block in ticks m times as fine, from those for the block itself; a refusal stays.
pub fn scaled_answers(answers: &Answers, m: u32) -> Answers {
    let Answers { slacks, curve, best } = answers.clone();
    Answers {
        slacks: slacks.map(|slacks| slacks.iter().map(|slack| i64::from(m) * slack).collect()),
        curve: curve.map(|curve| scaled_curve(&curve, m)),
        best: best.map(|best| scaled_best(&best, m)),
    }
}

/// The fewest ticks for wanted savings in ticks m times as fine (document 02, K6 and K14), from those for the wanted savings
/// before, which some number of ticks earns exactly, and then are m times as much, or which are one more, and then one more than m
/// times as much. What is earned exactly needs m times the ticks, and one more needs the first of the m ticks in place of the
/// last one.
pub fn scaled_ticks(wanted: &[u64], ticks: &[FewestTicks], finer: &[u64], m: u32) -> Vec<FewestTicks> {
    let m = u64::from(m);
    let scaled = |((&wanted, ticks), &finer): ((&u64, &FewestTicks), &u64)| {
        ticks.map(|ticks| if finer == m * wanted { m * ticks } else { m * (ticks - 1) + 1 })
    };
    wanted.iter().zip(ticks).zip(finer).map(scaled).collect()
}

/// The answers for a block without loop and without fault at the ends, curve and best list found in these ways.
fn found(block: &Block, curve: fn(&Block) -> Option<Curve>, best: fn(&Block) -> Option<Best>) -> Answers {
    let parts = check_parts(block);
    Answers {
        slacks: Ok(timing::slacks(block)),
        curve: parts.map(|()| curve(block).expect("gains that fall")),
        best: parts.and_then(|()| best(block).map_or(refuse(12, 0), Ok)),
    }
}

/// A way to find the answers for a block.
pub type Method = fn(&Block) -> Answers;

/// By flows, for blocks of any size.
pub fn by_flows(block: &Block) -> Answers {
    found(block, |block| Some(exact::curve(block)), exact::best)
}

/// By trying every list, for small blocks: the curve at every number of ticks, those between multiples of m among them.
pub fn by_trying(block: &Block) -> Answers {
    found(block, search::curve, search::best)
}

/// What the answers for the finer block are in place of m times those for the block, in words; `None` where they are the same.
pub fn difference(method: Method, block: &Block, finer: &Block, m: u32) -> Option<String> {
    let (answers, right) = (method(finer), scaled_answers(&method(block), m));
    (answers != right).then(|| format!("m = {m}: {answers:?} in place of {right:?} for {finer:?}"))
}

#[cfg(test)]
mod tests;
