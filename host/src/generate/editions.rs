//! Random blocks in editions 2 and 3: delays of their wires (document 02, K2) and measured activities of their nets (K3).

use super::ties::has_ties;
use super::{set_times, MIDDLE_GATES};
use crate::block::{Block, MAX_WIRE_DELAY};
use crate::edition::{is_measured, max_activity, MAX_EDITION};
use crate::random::Random;
use std::fmt::{Display, Formatter, Result};
use std::iter::{once, repeat_with};

/// What the delays of a block's wires are like (document 02, K2).
#[derive(Clone, Copy, Debug, PartialEq)]
pub enum WireDelays {
    Zero,
    /// A few ticks, so that branches are often equally long.
    Small,
    /// About as long as gates take.
    Middle,
    /// From none to the limit.
    Any,
    /// None, or at the limit.
    Huge,
}

pub const ALL_WIRE_DELAYS: [WireDelays; 5] =
    [WireDelays::Zero, WireDelays::Small, WireDelays::Middle, WireDelays::Any, WireDelays::Huge];

/// What the measured activities of a block are like (document 02, K3).
#[derive(Clone, Copy, Debug, PartialEq)]
pub enum Activities {
    /// A few transitions.
    Few,
    /// None, or one number throughout, so that ties abound.
    Equal,
    /// From none to the limit.
    Any,
    /// None, or at the limit.
    Huge,
}

pub const ALL_ACTIVITIES: [Activities; 4] = [Activities::Few, Activities::Equal, Activities::Any, Activities::Huge];

fn wire_delay(random: &mut Random, delays: WireDelays) -> u32 {
    match delays {
        WireDelays::Zero => 0,
        WireDelays::Small => random.between(0, 3),
        WireDelays::Middle => random.between(0, 60),
        WireDelays::Any => random.between(0, MAX_WIRE_DELAY),
        WireDelays::Huge => random.pick(&[0, 0, 0, 1, MAX_WIRE_DELAY - 1, MAX_WIRE_DELAY]),
    }
}

/// Puts a block of edition 1 or 2 into edition 2, each wire with the next of the delays.
pub fn delay_wires(block: &mut Block, delays: impl IntoIterator<Item = u32>) {
    assert!(!is_measured(block.edition), "edition 2 has no measured activities");
    block.edition = 2;
    for (wire, delay) in block.wires.iter_mut().zip(delays) {
        wire.delay = delay;
    }
}

/// The block in edition 2 with such delays of its wires, arrival and deadline set anew.
pub fn with_wire_delays(random: &mut Random, mut block: Block, delays: WireDelays) -> Block {
    delay_wires(&mut block, repeat_with(|| wire_delay(random, delays)));
    set_times(random, &mut block);
    block
}

/// Puts the block into edition 3: the first activity is the input's, the next ones are those of the gates' outputs.
pub fn set_activities(block: &mut Block, activities: impl IntoIterator<Item = u32>) {
    block.edition = 3;
    let outputs = block.gates.iter_mut().map(|gate| &mut gate.switching);
    for (number, activity) in once(&mut block.switching).chain(outputs).zip(activities) {
        *number = activity;
    }
}

/// The same block in edition 3: each probability is replaced by the activity that it yields.
pub fn in_edition_3(mut block: Block) -> Block {
    let outputs = (0..block.gates.len()).map(|gate| block.output_activity(gate));
    let activities: Vec<u32> = once(block.input_activity()).chain(outputs).collect();
    set_activities(&mut block, activities);
    block
}

/// The block in edition 3 with such measured activities.
pub fn with_activities(random: &mut Random, mut block: Block, activities: Activities) -> Block {
    let most = max_activity(3);
    let one = random.between(1, most);
    let activity = || match activities {
        Activities::Few => random.between(0, 9),
        Activities::Equal => random.pick(&[one, one, one, 0]),
        Activities::Any => random.between(0, most),
        Activities::Huge => random.pick(&[0, most - 1, most, most]),
    };
    set_activities(&mut block, repeat_with(activity));
    block
}

/// A block of edition 1 in any edition.
pub fn in_any_edition(random: &mut Random, block: Block) -> Block {
    let edition = random.between(1, u32::from(MAX_EDITION)) as u8;
    in_edition(random, block, edition)
}

/// A block of edition 1 as it is; in edition 2 with wire delays of any kind; or in edition 3, with measured activities of any
/// kind besides.
pub fn in_edition(random: &mut Random, block: Block, edition: u8) -> Block {
    if edition == 1 {
        return block;
    }
    let delays = random.pick(&ALL_WIRE_DELAYS);
    let block = with_wire_delays(random, block, delays);
    if edition == 2 {
        return block;
    }
    let activities = random.pick(&ALL_ACTIVITIES);
    with_activities(random, block, activities)
}

/// How many of some blocks have wire delays above 0, how many have measured activities, in how many the order of ties decides, and
/// how many have more gates than there could be before document 02's K10.
#[derive(Clone, Copy, Debug, Default)]
pub struct Counted {
    pub delayed: usize,
    pub measured: usize,
    pub tied: usize,
    pub large: usize,
}

impl Counted {
    pub fn count(&mut self, block: &Block) {
        self.delayed += usize::from(block.is_delayed());
        self.measured += usize::from(is_measured(block.edition));
        self.tied += usize::from(has_ties(block));
        self.large += usize::from(block.gates.len() > MIDDLE_GATES);
    }
}

impl Display for Counted {
    fn fmt(&self, f: &mut Formatter) -> Result {
        let Counted { delayed, measured, tied, large } = self;
        write!(f, "{delayed} with wire delays, {measured} with measured activities, {tied} with ties, ")?;
        write!(f, "{large} of more than {MIDDLE_GATES} gates")
    }
}
